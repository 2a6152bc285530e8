"""A log as long as it is asked for."""
from harness import TOP


def write_log(file, most):
    """Writes so many lines, each turn of a truck's start 40 s later; tells how many bytes they are."""
    frames = []
    for line in (TOP / "examples/logs/01-startup-and-dm1.log").read_text().splitlines():
        stamp, rest = line[1:].split(") ", 1)
        seconds, micros = stamp.split(".")
        frames.append((int(seconds), micros, rest))
    size = written = turn = 0
    while written < most:
        part = "".join(f"({seconds + 40 * turn}.{micros}) {rest}\n" for seconds, micros, rest in frames[: most - written])
        size += file.write(part.encode())
        written, turn = written + min(len(frames), most - written), turn + 1
    file.flush()
    return size
