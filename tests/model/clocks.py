"""The clocks by which `watch` tells times to people, and reads dates: the log's own, one at UTC or ahead of it, one since the first line."""

import datetime

from .words import time_text

EPOCH = datetime.datetime(1970, 1, 1)
MICROSECOND = datetime.timedelta(microseconds=1)


class Clocks:
    """A clock. `ahead` is how far its dates are ahead of those at UTC; None where it tells none."""

    def __init__(self, ahead=None, relative=False):
        self.ahead, self.relative = ahead, relative

    @staticmethod
    def of(word):
        """`log`, `utc`, `relative`, or how far it is ahead of UTC, as `+02:00` or `UTC-05:30`."""
        if word in ("log", "relative"):
            return Clocks(None, word == "relative")
        if word == "utc":
            return Clocks(datetime.timedelta())
        digits = word.removeprefix("UTC")
        ahead = datetime.timedelta(hours=int(digits[1:3]), minutes=int(digits[4:6]))
        return Clocks(-ahead if digits[0] == "-" else ahead)

    def text(self, micros, start):
        if self.relative:
            passed = abs(micros - start)
            seconds = passed // 1_000_000
            return f"{'-' if micros < start else '+'}{seconds // 3600}:{seconds // 60 % 60:02d}:{seconds % 60:02d}.{passed % 1_000_000:06d}"
        if self.ahead is None:
            return time_text(micros)
        shown = EPOCH + micros * MICROSECOND + self.ahead
        return shown.isoformat(" ", "microseconds")

    def asked(self, word):
        """The microseconds of a date, or of a date and a time of day, with a blank or `T` between them; by this clock, else at UTC."""
        return (datetime.datetime.fromisoformat(word) - (self.ahead or datetime.timedelta()) - EPOCH) // MICROSECOND
