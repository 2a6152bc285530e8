"""A small control unit by hand, from SAE J1939-21, -73 and -81, on a bus of python-can: it claims its address, sends its DM1 each second, and answers a
request for its DM2. One active and one previously active code have room in a frame; more would need the transport protocol."""

import time

import can

CLAIM, REQUEST, ACKNOWLEDGMENT, DM1, DM2 = 0xEE00, 0xEA00, 0xE800, 0xFECA, 0xFECB


class BrakeUnit:
    def __init__(self, bus, name, address, clock=time.monotonic):
        self.bus, self.name, self.address, self.clock = bus, name, address, clock
        self.active = self.previous = None  # a code is (SPN, FMI)

    def run(self):
        """Takes part in the bus, for ever."""
        self.send(CLAIM, self.name.to_bytes(8, "little"))
        next_dm1 = self.clock() + 0.25  # a new address's claim is left 250 ms
        while True:
            message = self.bus.recv(timeout=max(0.001, next_dm1 - self.clock()))
            if message is not None and message.is_extended_id:
                self.hear(message.arbitration_id, bytes(message.data))
            if self.clock() >= next_dm1:
                next_dm1 += 1
                if self.address < 254:
                    self.send(DM1, self.codes(self.active))

    def hear(self, id, data):
        group, to = id >> 8 & 0x3FF00, id >> 8 & 0xFF
        if group == CLAIM and id & 0xFF == self.address < 254 and int.from_bytes(data, "little") != self.name:
            if int.from_bytes(data, "little") < self.name:
                self.address = 254  # cannot claim
            self.send(CLAIM, self.name.to_bytes(8, "little"))
        elif group == REQUEST and to in (255, self.address):
            asked = int.from_bytes(data[:3], "little")
            if asked == CLAIM:
                self.send(CLAIM, self.name.to_bytes(8, "little"))
            elif asked == DM2 and self.address < 254:
                self.send(DM2, self.codes(self.previous))
            elif to != 255:
                self.send(ACKNOWLEDGMENT, bytes([1, 255, 255, 255, id & 0xFF]) + data[:3])  # not supported

    def codes(self, code):
        spn, fmi = code or (0, 0)
        lamps = b"\x04\xff" if code else b"\x00\xff"
        return lamps + bytes([spn & 0xFF, spn >> 8 & 0xFF, spn >> 16 << 5 | fmi, 1 if code else 0, 255, 255])

    def send(self, group, data):
        pdu = group | 0xFF if group < 0xF000 else group  # to all
        self.bus.send(can.Message(arbitration_id=6 << 26 | pdu << 8 | self.address, data=data, is_extended_id=True))
