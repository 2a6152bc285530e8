"""One who takes no part on the bus: it hears what goes between any two addresses, and lists it under whoever sent it.

The rules are those of `Heard`, for every pair of addresses. It holds no address, so no claim but the source's ends a message, and nothing is ever
answered; a message from an address that nobody claimed since the last gap is listed under that address alone, until the next gap, and never under a
NAME.
"""

import collections

from .frames import GLOBAL
from .heard import Heard
from .log_cases import reach

# Whose a message is that began at an address without owner: the address's, between two gaps. After a gap it may be another unit's.
Unclaimed = collections.namedtuple("Unclaimed", "address gaps")


class Listener(Heard):
    """It joins sessions to every address."""

    def __init__(self, gaps=0):
        """One before which there were so many gaps."""
        super().__init__()
        self.gaps = gaps

    def joins_sessions_to(self, dest):
        return dest != GLOBAL

    def message_of(self, source, dest):
        """Each pair of addresses has its own."""
        return source, dest

    def whose(self, source, place=None):
        """A message that is under way began after the last gap."""
        owner = self.owner(source, place)
        if owner is None:
            reach("a message from an address that nobody claimed" + (" since a gap" if self.gaps else ""))
            return Unclaimed(source, self.gaps)
        return owner

    def take_gap(self, count):
        self.gaps += 1
        return super().take_gap(count)

    def take_message(self, source, dest, place, kind, payload, how):
        if dest != GLOBAL:
            reach("a session to " + ("an address that is claimed" if self.owner(dest) is not None else "an address that nobody claimed"))
        return super().take_message(source, dest, place, kind, payload, how)

    def take_claim(self, name, source):
        """Who claims the address of a receiver, under whatever NAME, ends nothing that is sent to there."""
        told = super().take_claim(name, source)
        if any(self.under_way(other, source) for other in self.read):
            reach("a claim of the receiver's address in mid-session under " + ("the same NAME" if not told else "a NAME that had not that address"))
        return told
