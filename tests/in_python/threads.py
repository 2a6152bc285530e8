"""One listener in several threads: two that hand over frames in turn, and one that asks all the while. At the end it tells what it tells where
one thread does all; nothing that was asked for was half changed; and a station is closed in another thread than the one that opened it."""

import threading

import hidzgula
from hidzgula import DM1, Frame, Listener
from tries import all_heard, lines_of, same, sums

PART = 5
frames = [read for read in hidzgula.read_log(lines_of("01-startup-and-dm1")) if isinstance(read, Frame)]
with Listener() as alone:
    alone.take_frames(frames)
    wanted = all_heard(alone)

listener = Listener()
turn = threading.Condition()
at, turns, wrong = 0, [0, 0], []


def take(own):
    """Every other part of the frames: the order of the frames is this program's to keep, one call at a time the listener's."""
    global at
    while True:
        with turn:
            turn.wait_for(lambda: at >= len(frames) or at // PART % 2 == own)
            if at >= len(frames):
                return
            listener.take_frames(frames[at : at + PART])
            at, turns[own] = at + PART, turns[own] + 1
            turn.notify_all()


def ask():
    """What is asked without the lock of this program is whole: a message has its codes, and the newest is no older than the count said."""
    while at < len(frames):
        for unit in listener.units():
            count = listener.count(unit.name, DM1)
            messages = listener.messages(unit.name, DM1)
            if len(messages) < count or [it.place for it in messages] != [*range(len(messages))]:
                wrong.append((unit, count, len(messages)))


threads = [threading.Thread(target=take, args=(own,)) for own in (0, 1)] + [threading.Thread(target=ask) for _ in range(2)]
for thread in threads:
    thread.start()
for thread in threads:
    thread.join(60)
same("all have ended", [thread.is_alive() for thread in threads], 4 * [False])
same("both have had turns", min(turns) > 9, True)
same("what was asked for was whole", wrong, [])
same("the end", all_heard(listener), wanted)
closing = threading.Thread(target=listener.close)
closing.start()
closing.join(60)
same("closed by another thread", closing.is_alive(), False)

# without any order between them: all frames of one unit's message are taken, however many threads hand them over at once
with Listener() as listener:
    listener.take(0x18EEFF07, bytes([0xA0] + 7 * [0]))

    def repeat():
        for _ in range(2000):
            listener.take(0x18FECA07, bytes.fromhex("04FFB8040301FFFF"))

    threads = [threading.Thread(target=repeat) for _ in range(4)]
    for thread in threads:
        thread.start()
    for thread in threads:
        thread.join(60)
    same("none is lost", listener.count(0xA0, DM1), 8000)
sums()
