"""The command: serves the page of a log, or of a bus, to browsers."""

import argparse
import ipaddress
import os
import sys
from typing import Iterable, List, Sequence

from ..program import NoProgram, find_program, plain, version_of
from .live import Live, lines_of_bus, lines_of_file
from .server import Server, Settings


class Refused(Exception):
    """A command line that asks for what cannot be done."""


def parser() -> argparse.ArgumentParser:
    words = argparse.ArgumentParser(
        prog="python3 -m hidzgula.serve", formatter_class=argparse.RawDescriptionHelpFormatter, epilog="""\
Without --live: a page on which a log is dropped, .gz too; the answer is the page of `watch`. Nothing is kept.
With --live: a page of the bus as it is now, each second anew, from standard input:
  candump -L -d can0 | python3 -m hidzgula.serve --live
or from python-can: --live --interface socketcan --channel can0
Status: 0 ended; 1 it cannot serve there, or the bus cannot be opened; 2 the command line.""")  # fmt: skip
    words.add_argument("--live", action="store_true", help="follow a bus")
    words.add_argument("--interface", metavar="NAME", help="of python-can; standard input is read where none is given")
    words.add_argument("--channel", metavar="NAME", help="of the interface [can0]")
    words.add_argument("--bitrate", type=int, metavar="N", help="of the interface, where it has one to set")
    words.add_argument("--host", default="127.0.0.1", metavar="ADDRESS", help="where it serves: an address of this machine [127.0.0.1]")
    words.add_argument("--port", type=int, default=8037, metavar="N", help="[8037]; 0: any that is free")
    words.add_argument("--most", type=int, default=512, metavar="MB", help="the most of a log, unpacked [512]")
    words.add_argument("--seconds", type=int, default=120, metavar="N", help="the most time for a log [120]")
    for name in ("units", "texts", "clock", "bus"):
        words.add_argument(f"--{name}", metavar=name.upper(), help=f"as watch takes --{name}")
    words.add_argument("--program", metavar="PATH", help="the program; else j1939bench, beside the package or on the PATH")
    return words


def words_for_watch(given: argparse.Namespace) -> List[str]:
    """What `watch` is told. Raises Refused where a file cannot be read."""
    words = []
    for name in ("units", "texts", "clock"):
        value = getattr(given, name)
        if value is not None:
            words += [f"--{name}", value]
            if name != "clock" and not os.access(value, os.R_OK):
                raise Refused(f"--{name} {plain(value)} cannot be read")
    bus = given.bus or ("all" if given.live else None)
    return [*words, *(["--bus", bus] if bus else [])]


def source_of(given: argparse.Namespace) -> Iterable[bytes]:
    """The lines of the bus. Raises Refused where python-can is not here, or the bus cannot be opened."""
    if given.interface is None:
        return lines_of_file(sys.stdin.fileno())
    try:
        import can
    except ImportError as error:
        raise Refused(f"there is no python-can here ({error}): pip install 'hidzgula[can]', apt-get install python3-can") from error
    channel = given.channel or "can0"
    more = {} if given.bitrate is None else {"bitrate": given.bitrate}
    try:
        return lines_of_bus(can.Bus(channel=channel, interface=given.interface, **more), channel)
    except Exception as error:  # (each interface has errors of its own)
        raise OSError(f"the bus cannot be opened: {plain(str(error))}") from error


def run(given: argparse.Namespace) -> int:
    """Serves until it is ended."""
    try:
        is_for_all = not ipaddress.ip_address(given.host).is_loopback
    except ValueError:
        raise Refused(f"--host {plain(given.host)} is no address") from None
    if not (0 <= given.port < 65536 and given.most > 0 and given.seconds > 0):
        raise Refused("--port is 0 to 65535, --most and --seconds are 1 or more")
    if not given.live and (given.interface or given.channel or given.bitrate):
        raise Refused("--interface, --channel and --bitrate are of --live")
    program, words = find_program(given.program), words_for_watch(given)
    version_of(program)
    live = Live(program, words, source_of(given)) if given.live else None
    with Server(given.host, given.port, Settings(program, words, given.most << 20, given.seconds, live)) as server:
        host = f"[{given.host}]" if ":" in given.host else given.host
        print(f"http://{host}:{server.server_port}/", flush=True)
        if is_for_all:
            print("hidzgula.serve: whoever reaches this address sees it: there is no password, and nothing is encrypted", file=sys.stderr, flush=True)
        try:
            server.serve_forever()
        finally:
            if live:
                live.close()
    return 0


def main(words: Sequence[str]) -> int:
    try:
        return run(parser().parse_args(words))
    except (Refused, NoProgram) as error:
        print(f"hidzgula.serve: {error}", file=sys.stderr)
        return 2
    except OSError as error:
        print(f"hidzgula.serve: {plain(str(error))}", file=sys.stderr)
        return 1
    except KeyboardInterrupt:
        return 0


if __name__ == "__main__":
    sys.exit(main(sys.argv[1:]))
