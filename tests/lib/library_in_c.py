"""The shared library for C by ctypes, and the one for 64-bit ARM, which by qemu makes the same calls again (tests/in_c/again.c)."""

import ctypes
import struct
import subprocess

from harness import TOP, aarch64

SHARED = TOP / "c/out/libhidzgula_station.so"
DONE, NO_UNIT, QUEUE_FULL, NEVER = 0, 35, 37, (1 << 64) - 1
# A call, as tests/in_c/again.c reads it: which one, of which handle, four numbers and eight bytes that it is given; what it answers, how many bytes
# those are, and four numbers that it tells.
RECORD = struct.Struct("<II4Q8sII4Q")
CALLS = ("unit_open", "unit_close", "unit_hear", "unit_next", "unit_when", "unit_set", "unit_heal", "unit_pend", "unit_lamps", "unit_held", "unit_counts", "end",
         "live_open", "live_close", "live_hear", "live_missed", "live_next", "live_when", "live_ask", "live_ask_all", "live_clear", "live_command", "live_end",
         "live_verdict", "live_held", "live_counts", "live_row", "live_entries", "live_entry", "live_share", "live_shared_ask", "live_shared_hear",
         "live_shared_next", "live_shared_when", "live_shared_message", "live_shared_send", "live_shared_sent")
WORD, BYTE, LONG, AT, SIZE = ctypes.c_uint32, ctypes.c_uint8, ctypes.c_uint64, ctypes.c_void_p, ctypes.c_size_t
HEARD = [AT, WORD, AT, SIZE, LONG]
NEXT = [AT, LONG, AT, AT]
KINDS = {"unit_open": [AT, LONG, BYTE, AT], "unit_close": [AT], "unit_hear": HEARD, "unit_next": NEXT, "unit_when": [AT, LONG, AT], "unit_set": [AT, WORD, BYTE],
         "unit_heal": [AT, WORD, BYTE], "unit_pend": [AT, WORD, BYTE], "unit_lamps": [AT, BYTE, BYTE], "unit_held": [AT, AT, AT], "unit_counts": [AT, AT],
         "live_open": [AT, LONG, BYTE, AT], "live_close": [AT], "live_hear": [*HEARD, AT], "live_missed": [AT, WORD, LONG, AT], "live_next": NEXT,
         "live_when": [AT, LONG, AT], "live_ask": [AT, LONG, WORD], "live_ask_all": [AT, WORD], "live_clear": [AT, LONG, WORD], "live_command": [AT, LONG, BYTE],
         "live_end": [AT, LONG], "live_verdict": [AT, AT], "live_held": [AT, AT, AT], "live_counts": [AT, AT, AT], "live_row": [AT, SIZE, AT],
         "live_entries": [AT, LONG, BYTE, AT], "live_entry": [AT, LONG, BYTE, LONG, AT], "live_share": [AT, WORD], "live_shared_ask": [AT, BYTE, WORD],
         "live_shared_hear": [AT, WORD, AT, SIZE, AT, AT], "live_shared_next": NEXT, "live_shared_when": [AT, LONG, AT], "live_shared_message": [AT, AT],
         "live_shared_send": [AT, BYTE, WORD, AT, SIZE], "live_shared_sent": [AT, AT, AT]}


class Handle(ctypes.Structure):
    _fields_ = [("at", ctypes.c_void_p), ("full", ctypes.c_bool)]


class Frame(ctypes.Structure):
    _fields_ = [("id", ctypes.c_uint32), ("length", ctypes.c_uint8), ("bytes", ctypes.c_uint8 * 8)]


class Again:
    """Has the library for 64-bit ARM, by qemu, make the calls again that this one made."""

    def __init__(self, words):
        self.calls, self.noted = [], 0
        self.process = subprocess.Popen(words, stdin=subprocess.PIPE, stdout=subprocess.PIPE)

    def note(self, place, call, given=(), data=b"", answer=DONE, told=()):
        """Keeps a call and what it answered."""
        more = (0, 0, 0, 0)
        self.calls.append(RECORD.pack(CALLS.index(call), place, *(*given, *more)[:4], bytes(data), answer, len(data), *(*told, *more)[:4]))

    def differs(self):
        """What the calls since it was asked last answer otherwise; None where that is nothing."""
        wanted, self.noted = f"{len(self.calls)} calls\n", self.noted + len(self.calls)
        self.note(0, "end")
        self.process.stdin.write(b"".join(self.calls))
        self.process.stdin.flush()
        self.calls = []
        told = self.process.stdout.readline().decode()
        return None if told == wanted else f"{told!r}, wanted {wanted!r}"

    def end(self):
        """Why it did not end well; None where it did."""
        self.process.stdin.close()
        status = self.process.wait(20)
        return f"status {status}" if status else None


def built_again(room):
    """Again, where it can be built and run here; and whether it tells an answer that is wrong."""
    found = aarch64()
    if not found:
        return None, None
    archive, program = TOP / "c/out/aarch64/libhidzgula_station.a", f"{room}/again"
    if not archive.exists():
        subprocess.run([TOP / "c/build", "--target", "aarch64"], stdout=subprocess.DEVNULL, check=True)
    subprocess.run([*found[0], "-std=c11", "-O2", "-Wall", "-Wextra", "-Werror", f"-I{TOP}/c", TOP / "tests/in_c/again.c", archive, "-o", program], check=True)
    again, differs = Again([*found[1], program]), []
    for answer in (NO_UNIT, DONE):
        again.note(0, "unit_set", (1, 2), answer=answer)
        differs.append(again.differs())
    return again, None if not differs[0] and differs[1] else f"{differs}"


class Library:
    """The calls of the shared library, which is built where it is not there."""

    def __init__(self, again=None):
        if not SHARED.exists():
            subprocess.run([TOP / "c/build", "shared"], stdout=subprocess.DEVNULL, check=True)
        self.again, self.calls = again, ctypes.CDLL(str(SHARED))
        for name, types in KINDS.items():
            getattr(self.calls, f"hidzgula_{name}").argtypes = types

    def __getattr__(self, name):
        return getattr(self.calls, f"hidzgula_{name}")


class InHandle:
    """A unit or a live station in a handle of its own. What is noted is asked again of the library for ARM."""

    def __init__(self, library, place, what):
        self.library, self.place, self.what, self.handle = library, place, what, Handle()

    def note(self, call, *words, **more):
        if self.library.again:
            self.library.again.note(self.place, f"{self.what}_{call}", *words, **more)

    def answer(self, call, *words):
        """What a call answers, which nobody notes."""
        return getattr(self.library, f"{self.what}_{call}")(ctypes.byref(self.handle), *words)

    def ask(self, call, *words):
        """A call that is done, which nobody notes."""
        answer = self.answer(call, *words)
        assert answer == DONE, f"{call}: {answer}"

    def call(self, call, *words):
        """A call of numbers alone, which is done and told of."""
        self.ask(call, *words)
        self.note(call, words)

    def pulled(self, call, now):
        """The frame that goes now, as its identifier and bytes."""
        frame, has = Frame(), ctypes.c_uint8(9)
        self.ask(call, now, ctypes.byref(frame), ctypes.byref(has))
        data = bytes(frame.bytes[: frame.length])
        self.note(call, (now,), told=(has.value, frame.id, frame.length, int.from_bytes(data, "little")) if has.value == 1 else (has.value,))
        return (frame.id, data) if has.value == 1 else None

    def when_of(self, call, now):
        at = ctypes.c_uint64()
        self.ask(call, now, ctypes.byref(at))
        self.note(call, (now,), told=(at.value,))
        assert at.value >= now
        return at.value

    def held(self):
        has, address = ctypes.c_uint8(), ctypes.c_uint8()
        self.ask("held", ctypes.byref(has), ctypes.byref(address))
        self.note("held", told=(has.value, address.value if has.value else 0))
        return address.value if has.value else None

    def close(self):
        self.answer("close")
        self.note("close")
