"""A small control unit by hand, from SAE J1939-21, -73 and -81: a function of each frame that it hears, or of none, and of the time, which answers what it
sends. It claims its address, tells its one code each second, and does not support what else it is asked for."""

CLAIM, REQUEST, ACKNOWLEDGMENT, DM1 = 0xEE00, 0xEA00, 0xE800, 0xFECA


class PumpUnit:
    def __init__(self, name, address):
        self.name, self.address, self.active, self.next_dm1 = name, address, None, None

    def heard(self, frame, time):
        if frame is None:
            return self.due(time)
        group, to, source, number = frame.id >> 8 & 0x3FF00, frame.id >> 8 & 255, frame.id & 255, int.from_bytes(frame.data, "little")
        if group == CLAIM and source == self.address < 254 and number != self.name:
            self.address = self.address if self.name < number else 254  # cannot claim
        elif group != REQUEST or to not in (self.address, 255) or (to == 255 and number != CLAIM):
            return []
        elif number != CLAIM:
            return [self.frame(ACKNOWLEDGMENT, bytes([1, 255, 255, 255, source]) + frame.data[:3])]  # not supported
        return [self.frame(CLAIM, self.name.to_bytes(8, "little"))]

    def due(self, time):
        if self.next_dm1 is None:
            self.next_dm1 = time + 0.25  # a new address's claim is left 250 ms
            return [self.frame(CLAIM, self.name.to_bytes(8, "little"))]
        if time < self.next_dm1 or self.address == 254:
            return []
        self.next_dm1 += 1
        (spn, fmi), amber = self.active or (0, 0), 4 if self.active else 0
        return [self.frame(DM1, bytes([amber, 255, spn & 255, spn >> 8 & 255, spn >> 16 << 5 | fmi, amber // 4, 255, 255]))]

    def frame(self, group, data):
        return 6 << 26 | (group | 255 if group < 0xF000 else group) << 8 | self.address, data
