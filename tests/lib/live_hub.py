"""A bus for tests of `live` and `tester`: it plays candump and canplayer for each program on it.

What any program writes goes to all of them, its writer too, in the order in which it came, as the kernel's loopback does it.
"""
import queue
import subprocess
import sys
import threading
import time

from harness import TOP, called


class Bus:
    """A bus without a program yet. `log` has what went over it: pairs of who sent it, None for the test, and the frame's text."""

    def __init__(self):
        self.programs = []
        self.log = []
        self.begun = time.monotonic()
        self.coming = queue.Queue()
        self.open = True
        self.carrier = threading.Thread(target=self.carry, daemon=True)
        self.carrier.start()

    def start(self, *words, hears_only=False):
        """Starts the program with these words; answers its number."""
        return self.join(called(*words), hears_only)

    def start_unit(self, name, address, *switches):
        """Starts a unit of tests/lib/plain_unit.py; answers its number."""
        return self.join([sys.executable, str(TOP / "tests/lib/plain_unit.py"), name, str(address), *map(str, switches)])

    def join(self, command, hears_only=False):
        """Starts a command; answers its number."""
        program = subprocess.Popen(command, stdin=subprocess.PIPE, stdout=subprocess.PIPE, stderr=subprocess.PIPE)
        number = len(self.programs)
        self.programs.append(program)
        program.told = []
        program.written = []
        threading.Thread(target=self.listen, args=(number, program, hears_only), daemon=True).start()
        program.keeper = threading.Thread(target=self.keep, args=(program,), daemon=True)
        program.keeper.start()
        return number

    def listen(self, number, program, hears_only):
        for line in program.stdout:
            if hears_only:
                program.written.append(line.decode())
            else:
                self.coming.put((number, line.decode().split()[2]))

    def keep(self, program):
        for line in program.stderr:
            program.told.append(line.decode())

    def carry(self):
        """Hands each frame to all programs, one after the other."""
        while True:
            sender, frame = self.coming.get()
            if frame is None:
                return
            self.log.append((sender, frame))
            line = f"({1_700_000_000 + time.monotonic() - self.begun:.6f}) can0 {frame}\n".encode()
            for program in self.programs:
                try:
                    program.stdin.write(line)
                    program.stdin.flush()
                except (OSError, ValueError):
                    pass

    def put(self, frame, wait=0.12):
        """The test sends a frame, and waits for what it brings about."""
        self.coming.put((None, frame))
        time.sleep(wait)

    def end(self):
        """Closes every input; answers each program's status, once all that it told is read."""
        self.coming.put((None, None))
        self.carrier.join()
        for program in self.programs:
            try:
                program.stdin.close()
            except OSError:
                pass
        statuses = [program.wait(timeout=20) for program in self.programs]
        for program in self.programs:
            program.keeper.join(timeout=20)
        return statuses
