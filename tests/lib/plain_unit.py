#!/usr/bin/env python3
"""A control unit over lines, for the other side of a tester: candump's lines come in, its frames go out as such lines.

    tests/lib/plain_unit.py NAME ADDRESS [SWITCH ..]

Written from SAE J1939-21, -73 and -81 by itself: it imports nothing of the model, so that an error of the one is not an error of the other. It claims, defends
its address or gives it up, obeys a commanded address, answers requests for its claim, DM1, DM2, DM6 (one frame; a session to one; a broadcast to all), clears
behind DM3 and DM11 and acknowledges. The switches say what is wrong with it:

    --active N, --previous N, --pending N   how many codes it has: 101/1/1, 102/1/1 ..; 301..; 501..
    --silent                                it answers no request but for its claim
    --busy N                                control 3 to the first N requests for anything else
    --refuses C                             control C to each of them
    --acknowledges-all                      byte 5 of an acknowledgment is FF (older units)
    --late MS                               each answer comes so much later
    --dies-after K                          it is gone behind packet K of a session or a broadcast
    --loses N                               each Nth packet of a session is lost
    --moves-to A                            at the first request it claims address A, and answers from there
"""
import argparse
import os
import select
import sys
import time

CLAIM, REQUEST, ACK, CONTROL, PACKET, COMMANDED = 0xEE00, 0xEA00, 0xE800, 0xEC00, 0xEB00, 0xFED8
DM1, DM2, DM3, DM6, DM11 = 0xFECA, 0xFECB, 0xFECC, 0xFECF, 0xFED3
ALL, NOBODY = 255, 254
GAP = 0.05  # between the packets of a broadcast (J1939-21, 5.10: 50 to 200 ms)


def codes(first, count):
    """Trouble codes, SPN and FMI in three bytes, then how often each occurred (J1939-73, 5.7.1)."""
    return b"".join(bytes([spn & 255, spn >> 8 & 255, spn >> 16 << 5 | 1, 1]) for spn in range(first, first + count))


def message(lamps, listed):
    """A DM1, DM2 or DM6: 8 bytes where there is one code or none, which is four zeros."""
    data = lamps + (listed or bytes(4))
    return data + b"\xff" * (8 - len(data))


class PlainUnit:
    """What it hears is handed in with the time; what it sends stands in `out`, each frame with the time from which it goes."""

    def __init__(self, name, address, words):
        self.name, self.address, self.words = name, address, words
        self.lists = {DM1: codes(101, words.active), DM2: codes(301, words.previous), DM6: codes(501, words.pending)}
        self.out, self.session, self.announced, self.refused, self.is_dead, self.heard_at = [], None, {}, 0, False, 0
        self.send(0, 6, CLAIM, ALL, name.to_bytes(8, "little"))

    def send(self, at, priority, group, dest, data, source=None):
        """Puts a frame, to all where the group leaves no room for a destination."""
        if not self.is_dead:
            source = (NOBODY if self.address is None else self.address) if source is None else source
            low = dest if group >> 8 & 255 < 240 else 0
            self.out.append((at, f"{priority << 26 | group << 8 | low << 8 | source:08X}#{data.hex().upper()}"))
            self.out.sort(key=lambda it: it[0])

    def due(self, now):
        """The frames that go at this time."""
        gone = [text for at, text in self.out if at <= now]
        self.out = [it for it in self.out if it[0] > now]
        return gone

    def lamps(self):
        return b"\x04\xff" if self.lists[DM1] else b"\x00\xff"

    def hear(self, number, data, now):
        group, dest, source = number >> 8 & 0x3FFFF, ALL, number & 255
        if group >> 8 & 255 < 240:
            group, dest = group & 0x3FF00, number >> 8 & 255
        if group == CLAIM and len(data) == 8 and source < NOBODY:
            self.hear_claim(int.from_bytes(data, "little"), source, now)
        elif group == REQUEST and len(data) == 3 and dest in (self.address, ALL):
            self.hear_request(int.from_bytes(data, "little"), source, dest, now)
        elif group == CONTROL and dest == ALL and data[0] == 32:
            self.announced[source] = [int.from_bytes(data[5:8], "little"), int.from_bytes(data[1:3], "little"), b""]
        elif group == PACKET and dest == ALL and source in self.announced:
            self.announced[source][2] += data[1:]
            self.hear_command(*self.announced[source], now)
        elif group == CONTROL and dest == self.address and self.session and source == self.session[1]:
            self.hear_control(data, now)

    def hear_claim(self, name, source, now):
        """The lower NAME has the address; a session ends where its receiver is claimed (J1939-81, 4.4)."""
        if self.session and source == self.session[1]:
            self.out, self.session = [], None
        if source != self.address or name == self.name:
            return
        self.out, self.session = [], None
        if name < self.name:
            self.address = None
        self.send(now, 6, CLAIM, ALL, self.name.to_bytes(8, "little"))

    def hear_command(self, group, size, data, now):
        if group == COMMANDED and size == 9 and len(data) >= 9 and data[:8] == self.name.to_bytes(8, "little") and not self.words.silent:
            self.announced, self.address = {}, data[8]
            self.send(now, 6, CLAIM, ALL, self.name.to_bytes(8, "little"))

    def acknowledge(self, control, group, source, at):
        asked_by = ALL if self.words.acknowledges_all else source
        self.send(at, 6, ACK, ALL, bytes([control, 255, 255, 255, asked_by]) + group.to_bytes(3, "little"))

    def hear_request(self, group, source, dest, now):
        if group == CLAIM:
            self.send(now, 6, CLAIM, ALL, self.name.to_bytes(8, "little"))
            return
        if self.address is None or self.words.silent or source == self.address:
            return
        if self.words.moves_to is not None:
            self.address, self.words.moves_to = self.words.moves_to, None
            self.send(now, 6, CLAIM, ALL, self.name.to_bytes(8, "little"))
        at, to_one = now + self.words.late / 1000, dest != ALL
        if self.words.refuses is not None or self.refused < self.words.busy:
            self.refused += 1
            if to_one:
                self.acknowledge(3 if self.words.refuses is None else self.words.refuses, group, source, at)
        elif group in (DM1, DM2, DM6):
            self.tell(group, source, to_one, at)
        elif group in (DM3, DM11):
            for cleared in (DM2,) if group == DM3 else (DM1, DM6):
                self.lists[cleared] = b""
            if to_one:
                self.acknowledge(0, group, source, at)
        elif to_one:
            self.acknowledge(1, group, source, at)

    def tell(self, group, source, to_one, at):
        data = message(self.lamps(), self.lists[group])
        count = (len(data) + 6) // 7
        head = len(data).to_bytes(2, "little") + bytes([count, 255]) + group.to_bytes(3, "little")
        if len(data) == 8:
            self.send(at, 6, group, ALL, data)
        elif to_one:
            # (one session at a time, until its receiver said nothing for 1,250 ms: another one is told to come again)
            if self.session and at < self.heard_at + 1.25:
                self.acknowledge(3, group, source, at)
                return
            self.session, self.heard_at = (group, source, data, count), at
            self.send(at, 7, CONTROL, source, b"\x10" + head)
        else:
            self.send(at, 7, CONTROL, ALL, b"\x20" + head)
            for number in range(1, count + 1):
                self.packet(at + number * GAP, number, ALL, data)

    def packet(self, at, number, dest, data):
        piece = data[7 * number - 7 : 7 * number]
        self.send(at, 7, PACKET, dest, bytes([number]) + piece + b"\xff" * (7 - len(piece)))
        if number == self.words.dies_after:
            self.is_dead = True

    def hear_control(self, data, now):
        """Clear to send, end of message, abort, of its session (J1939-21, 5.10.3)."""
        group, dest, payload, count = self.session
        if int.from_bytes(data[5:8], "little") != group:
            return
        self.heard_at = now
        if data[0] == 17:
            for number in range(data[2], min(data[2] + data[1], count + 1)):
                if number % self.words.loses:
                    self.packet(now, number, dest, payload)
        elif data[0] in (19, 255):
            self.session = None


def words_of(given):
    parser = argparse.ArgumentParser(usage=__doc__)
    parser.add_argument("name")
    parser.add_argument("address", type=int)
    for switch in ("active", "previous", "pending", "busy", "late"):
        parser.add_argument(f"--{switch}", type=int, default=0)
    for switch in ("refuses", "dies-after", "moves-to"):
        parser.add_argument(f"--{switch}", type=int)
    parser.add_argument("--loses", type=int, default=1 << 30)
    for switch in ("silent", "acknowledges-all"):
        parser.add_argument(f"--{switch}", action="store_true")
    return parser.parse_args(given)


def main():
    words = words_of(sys.argv[1:])
    unit, rest = PlainUnit(int(words.name, 16), words.address, words), b""
    while True:
        for text in unit.due(time.monotonic()):
            print(f"({time.time():.6f}) can0 {text}", flush=True)
        wait = max(0, unit.out[0][0] - time.monotonic()) if unit.out else None
        if not select.select([0], [], [], wait)[0]:
            continue
        read = os.read(0, 65536)
        if not read:
            return
        *lines, rest = (rest + read).split(b"\n")
        for line in lines:
            number, _, data = line.split()[2].decode().partition("#")
            unit.hear(int(number, 16), bytes.fromhex(data), time.monotonic())


if __name__ == "__main__":
    main()
