"""How long a message of several packets may be silent, and which packet comes again as it was asked for (SAE J1939-21, 5.10.3)."""

from .log_cases import reach

T1, T2, T3, T4 = 750, 1250, 1250, 1050  # milliseconds: to a packet, to one behind a clear to send, to a clear to send, to one behind a hold

# By what came last: within how many milliseconds a clear to send has to come, and a packet. A clear to send may go by unread.
WITHIN = {
    "to all": (None, T1),
    "request to send": (T3, T3 + T2),
    "clear to send": (T3, T2),
    "packet": (T3, T1),
    "last packet": (T3, T3 + T2),
    "hold": (T4, T4 + T2),
}


class Message:
    """One that was announced, and what came of it last."""

    def __init__(self, to_all, time):
        self.last, self.time, self.granted, self.is_over = "to all" if to_all else "request to send", time, None, False

    def is_late(self, is_packet, time, silence):
        """The silence is in milliseconds: the standard's where it is None, and any where it is 0."""
        if self.time is None or time is None or silence == 0:
            return False
        most = WITHIN[self.last][is_packet] if silence is None else silence
        return time - self.time > most * 1000

    def clear_to_send(self, count, first, time, silence):
        if self.pass_frame(False, time, silence):
            self.last = "clear to send" if count else "hold"
            if count:
                self.granted = range(first, first + count)
            else:
                reach("a session is held")

    def packet(self, number, time, silence):
        if self.pass_frame(True, time, silence) and self.last != "to all":
            behind = None if self.granted is None else number + 1 < self.granted.stop
            self.last = {None: "request to send", True: "packet", False: "last packet"}[behind]

    def pass_frame(self, is_packet, time, silence):
        """A frame that comes too late ends what can be said of its message."""
        if not self.is_over and self.is_late(is_packet, time, silence):
            reach("a late " + ("packet" if is_packet else "clear to send"))
            self.is_over = True
        elif self.is_over:
            reach("a frame behind a late one")
        if time is None:
            reach("a packet without a time")
        else:
            self.time = time
        return not self.is_over

    def asks_for(self, number):
        """Whether the newest clear to send lets it come, be it again."""
        return self.granted is not None and self.granted.start <= number


class Pacing:
    """The messages that were announced, by source and destination."""

    def __init__(self, silence):
        self.silence, self.of = silence, {}

    def announce(self, key, to_all, time):
        self.of[key] = Message(to_all, time)

    def clear_to_send(self, key, count, first, time):
        if key in self.of:
            self.of[key].clear_to_send(count, first, time, self.silence)

    def packet(self, key, data, time, read):
        """What a packet is: late, again, or to be read, where these packets of its message were read."""
        message, number = self.of.get(key), data[0] if data else 0
        if message is None:
            return "read"
        message.packet(number, time, self.silence)
        if message.is_over:
            return "late"
        if 1 <= number <= len(read) and message.asks_for(number):
            same = read[number - 1][1:] == data[1:]
            reach("a packet comes again as it was asked for" + ("" if same else ", with other bytes"))
            return "again" if same else "read"
        return "read"

    def is_over(self, key):
        return key in self.of and self.of[key].is_over

    def asks_for(self, key, number):
        return key in self.of and self.of[key].asks_for(number)
