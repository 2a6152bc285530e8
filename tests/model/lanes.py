"""What waits on a real bus, and from when on it may go: lanes and times of who writes there, a unit or a station.

Written from docs/DECISIONS.md ("What waits on a real bus stands in four lanes", "Times on a real bus"). Times are microseconds. `Lanes` is a part of a class
that knows a NAME and the address that it holds.
"""

LANES = ("claims", "singles", "session", "messages")
ROOM = 64
ANSWER_WITHIN, HELD_FOR, DAY = 1_250_000, 1_050_000, 86_400_000_000


class Lanes:
    """Pieces of some frames each, by lanes; each frame with its place in its piece."""

    def stand(self, gap, settle):
        """Nothing waits, and nothing was written."""
        self.lanes = {lane: [] for lane in LANES}
        self.gap, self.settle = gap, settle
        self.counted = self.written = self.heard = self.unheard = 0
        self.claim_at = self.settled_at = self.packet_at = self.alone_at = 0
        self.claimed = False

    def wait_in(self, lane, frames):
        if frames:
            self.lanes[lane].append([(frame, place) for place, frame in enumerate(frames)])
            self.counted += len(frames)

    def withdraw_from(self, lanes):
        for lane in lanes:
            self.withdrawn += sum(len(piece) for piece in self.lanes[lane])
            self.lanes[lane] = []

    def waiting(self):
        return sum(len(piece) for lane in LANES for piece in self.lanes[lane])

    def has_room(self):
        return max(map(len, self.lanes.values())) < ROOM

    def has_held(self, before, now):
        """A frame was heard, before which this address was held: a new one has its pause, and a cannot-claim another one (J1939-81)."""
        if self.held != before:
            self.claimed = False
        if before is not None and self.held is None:
            self.claim_at = now + 1000 * (self.name % (1 << 21) % 154)

    def is_settled(self, now):
        """Whether more than claims may go."""
        return not self.lanes["claims"] and self.settled_at <= now

    def lane_due(self, now):
        """The frame of a lane that goes at this time."""
        if self.lanes["claims"] and self.claim_at <= now:
            if not self.claimed:  # (the pause follows the first claim of an address: J1939-81)
                self.settled_at, self.claimed = now + self.settle, True
            return self.take_first("claims")
        if not self.is_settled(now):
            return None
        if self.lanes["singles"]:
            return self.take_first("singles")
        if self.lanes["session"]:
            self.alone_at = now + ANSWER_WITHIN
            return self.take_first("session")
        if self.lanes["messages"] and (self.lanes["messages"][0][0][1] == 0 or self.packet_at <= now) and self.may_begin(self.lanes["messages"][0][0][0], now):
            self.packet_at = now + self.gap
            return self.take_first("messages")
        return None

    def may_begin(self, frame, now):
        """Whether the first frame of the lane of messages may go, beside its times."""
        return True

    def take_first(self, lane):
        piece = self.lanes[lane][0]
        frame = piece.pop(0)[0]
        if not piece:
            self.lanes[lane].pop(0)
        self.written += 1
        return frame
