"""Each request for memory refused in turn, in a library that is linked to refuse (refusing.c): the call raises MemoryError, all that can be
asked is as before it; the call is made again, and at the end the lists are those expected of the log, and every block was given back."""

import ctypes
import gc

import hidzgula
from hidzgula import Frame, Listener, Missed, OutOfMemory, Station, _library
from tries import all_heard, all_told, lines_of, lists_of, lists_wanted, same, sums

refuse, requests, live = (getattr(_library.library, f"hidzgula_{it}") for it in ("refuse", "requests", "live"))
refuse.argtypes, refuse.restype = (ctypes.c_size_t,), None
requests.restype = live.restype = ctypes.c_size_t


def steps_of(log):
    """The calls of a log: a frame, or a gap."""
    return [("missed", (read.count,)) if isinstance(read, Missed) else ("take", read) for read in hidzgula.read_log(lines_of(log))]


def run(log, steps, one):
    """All steps, a request being refused; which step it was that was refused, -1 for the opening, None for none."""
    refused = None
    refuse(one)
    try:
        listener = Listener()
    except MemoryError:
        refused, listener = -1, Listener()
    with listener:
        for at, (call, words) in enumerate(steps):
            try:
                getattr(listener, call)(*words)
            except MemoryError as error:
                same("refused once", (refused, type(error), error.taken), (None, OutOfMemory, None))
                refused = at
                same(f"request {one}, step {at}: nothing is changed", all_heard(listener), told_after(steps, at))
                getattr(listener, call)(*words)
        same(f"request {one}: the lists of {log}", lists_of(listener), lists_wanted(log))
    return refused


def told_after(steps, count):
    """What a listener tells that did the first steps alone."""
    with Listener() as listener:
        for call, words in steps[:count]:
            getattr(listener, call)(*words)
        return all_heard(listener)


def rows(log, frames, one):
    """All frames in one row, a request being refused: the row ends there, and goes on with the frame that was refused."""
    cut = at = 0
    refuse(one)
    with Listener() as listener:
        while at < len(frames):
            try:
                at += listener.take_frames(frames, start=at).count
            except MemoryError as error:
                cut, at = cut + 1, at + error.taken.count
                with Listener() as other:
                    other.take_frames(frames[:at])
                    same(f"request {one}, frame {at}: what is before it is taken", all_heard(listener), all_heard(other))
        same(f"request {one}: the lists of {log}, by a row", lists_of(listener), lists_wanted(log))
    return cut


for log in ("02-contention", "03-lost-frames"):
    steps = steps_of(log)
    same("without refusal", run(log, steps, 0), None)
    total = requests()
    same(f"requests of {log}", total > 50, True)
    for one in range(1, total + 1):
        same(f"request {one} is refused", run(log, steps, one) is not None, True)
log = "01-startup-and-dm1"
frames = [read for read in hidzgula.read_log(lines_of(log)) if isinstance(read, Frame)]
same("without refusal", rows(log, frames, 0), 0)
total = requests()
refuse(0)
Listener().close()
opening = requests()
for one in range(opening + 1, total + 1):
    same(f"request {one} cuts the row once", rows(log, frames, one), 1)


def station_of(one):
    """A station that takes a claim and a message, and orders, and is saved, and one that is restored; which requests were refused."""
    found = 0
    steps = [("take", (0x18EEFF07, bytes([0xA0] + 7 * [0]))), ("take", (0x18FECA07, bytes.fromhex("04FFB8040301FFFF"))), ("ask", (0xA0, hidzgula.PGN_DM2)),
             ("ask_all", (hidzgula.PGN_DM2,)), ("command", (0xA0, 100)), ("missed", (1,)), ("save", ())]
    refuse(one)
    while True:
        try:
            station = Station(1, 248)
            break
        except MemoryError:
            found += 1
    with station:
        for call, words in steps:
            before = all_told(station)
            while True:
                try:
                    getattr(station, call)(*words)
                    break
                except MemoryError:
                    found += 1
                    same(f"{call} without memory changes nothing", all_told(station), before)
        same("its list", station.count(0xA0, hidzgula.DM1), 1)
    while True:
        try:
            with Station.restore(SAVED) as station:
                same("its list, restored", station.count(0xA0, hidzgula.DM1), 1)
            return found
        except MemoryError:
            found += 1


with Station(1, 248) as station:
    station.take(0x18EEFF07, bytes([0xA0] + 7 * [0]))
    station.take(0x18FECA07, bytes.fromhex("04FFB8040301FFFF"))
    SAVED = station.save()
same("a station without refusal", station_of(0), 0)
total = requests()
same("takes memory", total > 5, True)
for one in range(1, total + 1):
    same(f"request {one} of a station is refused once", station_of(one), 1)
refuse(0)
gc.collect()
same("every block was given back", live(), 0)
sums()
