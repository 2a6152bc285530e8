"""The server: what it answers, to whom, and within which limits. Nothing of a request is a path, and no file is kept."""

import html
import http.server
import ipaddress
import math
import pathlib
import re
import socket
import threading
import time
from typing import Any, Dict, List, NamedTuple, Optional, Sequence

from ..program import CutOff, plain
from .form import BadForm, boundary_of, file_of
from .live import Live
from .watching import TooLong, log_of, watched

MOST_CONNECTIONS = 48
MOST_FOLLOWERS = 16
"""The most browsers that follow a bus at once."""
MOST_RUNS = 2
"""The most logs that are read at once."""
HEAD_SECONDS = 20.0
"""Seconds within which a request says what it wants, and a browser takes what it is sent."""
OUR_PAGES = "default-src 'none'; script-src 'self'; style-src 'self'; connect-src 'self'; form-action 'self'; frame-ancestors 'none'; base-uri 'none'"
WATCH_PAGE = "default-src 'none'; style-src 'unsafe-inline'; form-action 'none'; frame-ancestors 'none'; base-uri 'none'"
_PAGES = pathlib.Path(__file__).with_name("pages")


class Asset(NamedTuple):
    """A file of the package that is served."""

    type: str
    content: bytes


def asset(name: str, type: str) -> Asset:
    return Asset(type, (_PAGES / name).read_bytes())


class Settings(NamedTuple):
    """What is served, and within which limits."""

    program: str
    words: Sequence[str]
    """Words for `watch`."""
    most: int
    """The most bytes of a log, as it is sent and unpacked."""
    seconds: float
    """The most seconds for a log."""
    live: Optional[Live]


class Server(http.server.ThreadingHTTPServer):
    """Answers browsers, each in a thread of its own, of which there are only so many."""

    daemon_threads = True

    def __init__(self, host: str, port: int, settings: Settings) -> None:
        self.settings = settings
        self.runs = threading.BoundedSemaphore(MOST_RUNS)
        self.followers = threading.BoundedSemaphore(MOST_FOLLOWERS)
        self.is_for_all = not ipaddress.ip_address(host).is_loopback
        self.assets = {
            "/": asset("live.html" if settings.live else "drop.html", "text/html; charset=utf-8"),
            "/page.css": asset("page.css", "text/css; charset=utf-8"),
            "/drop.js": asset("drop.js", "text/javascript; charset=utf-8"),
            "/live.js": asset("live.js", "text/javascript; charset=utf-8"),
        }
        drop = self.assets["/"].content.replace(b"MOST_MB", b"%d" % (settings.most >> 20))
        self.assets["/"] = self.assets["/"]._replace(content=drop)
        self.address_family = socket.AF_INET6 if ":" in host else socket.AF_INET
        # (the connections that are open, and until when each may last)
        self._until: Dict[socket.socket, float] = {}
        super().__init__((host, port), Handler)
        threading.Thread(target=self._sweep, daemon=True).start()

    def let(self, connection: socket.socket, seconds: float) -> None:
        """Lets a connection last so many seconds from now on."""
        self._until[connection] = time.monotonic() + seconds

    def process_request(self, request: Any, client_address: Any) -> None:
        if len(self._until) >= MOST_CONNECTIONS:
            self.shutdown_request(request)
            return
        self.let(request, HEAD_SECONDS)
        super().process_request(request, client_address)

    def shutdown_request(self, request: Any) -> None:
        self._until.pop(request, None)
        super().shutdown_request(request)

    def handle_error(self, request: Any, client_address: Any) -> None:
        """A browser that is gone is nothing to tell of."""

    def _sweep(self) -> None:
        """Ends connections that last too long."""
        while True:
            time.sleep(0.5)
            now = time.monotonic()
            for connection, until in list(self._until.items()):
                if until < now:
                    try:
                        connection.shutdown(socket.SHUT_RDWR)
                    except OSError:
                        pass


class Handler(http.server.BaseHTTPRequestHandler):
    """Answers one request."""

    server: Server
    server_version, sys_version = "hidzgula", ""
    protocol_version = "HTTP/1.1"
    timeout = HEAD_SECONDS

    def log_message(self, format: str, *args: Any) -> None:
        """Nothing of a request is written anywhere."""

    def do_GET(self) -> None:
        if not self._may_ask():
            return
        if self.path == "/events" and self.server.settings.live:
            self._follow(self.server.settings.live)
        elif self.path in self.server.assets:
            found = self.server.assets[self.path]
            self._send(200, found.content, found.type, OUR_PAGES)
        else:
            self._tell(404, ["there is no such page"])

    do_HEAD = do_GET

    def do_POST(self) -> None:
        if not self._may_ask():
            return
        if self.path != "/watch" or self.server.settings.live:
            return self._tell(404, ["there is no such page"])
        most = self.server.settings.most
        try:
            boundary = boundary_of(self.headers.get("Content-Type"))
            length = int(self.headers.get("Content-Length", ""))
        except (BadForm, ValueError):
            return self._tell(400, ["a form with a file is wanted, and how long it is"])
        if not 0 <= length <= most + (64 << 10):
            return self._refuse_long(length, [f"the log has more than {most >> 20} MB"])
        if not self.server.runs.acquire(timeout=1.0):
            return self._refuse_long(length, ["other logs are being read: try again in a moment"], 503)
        try:
            self._watch(length, boundary)
        finally:
            self.server.runs.release()

    def _may_ask(self) -> bool:
        """Whether a page of this server asks, or none; it is told where not. By another name an address may be some stranger's (DNS rebinding)."""
        hosts = self.headers.get_all("Host") or []
        origin = self.headers.get("Origin")
        sites = self.headers.get("Sec-Fetch-Site", "none")
        if len(hosts) != 1 or not is_own(hosts[0], self.server.is_for_all):
            self._tell(421, ["this server has no such name: call it by its address"])
        elif self.command != "GET" and origin not in (None, f"http://{hosts[0]}") or sites not in ("none", "same-origin"):
            # (a page elsewhere may link to the first page, and nothing more)
            if self.command == "GET" and self.path == "/" and self.headers.get("Sec-Fetch-Mode") == "navigate":
                return True
            self._tell(403, ["another site asks"])
        else:
            return True
        return False

    def _watch(self, length: int, boundary: bytes) -> None:
        """Answers with the page of a log."""
        settings = self.server.settings
        # (the program is ended some time before the connection is)
        self.server.let(self.connection, settings.seconds + HEAD_SECONDS)
        try:
            name, pieces = file_of(self.rfile, length, boundary)
            run = watched(settings.program, settings.words, log_of(pieces), settings.most, settings.seconds)
        except TooLong as error:
            return self._refuse_long(length, [str(error)])
        except (BadForm, CutOff) as error:
            return self._tell(400, [str(error)])
        if run.status not in (0, 3) or not run.page:
            return self._tell(500, [f"the program ended with status {run.status}", *run.remarks])
        self._send(200, with_remarks(run.page, [plain(name), *run.remarks]), "text/html; charset=utf-8", WATCH_PAGE)

    def _follow(self, live: Live) -> None:
        """Sends each new picture of the bus, as long as the browser takes them."""
        if not self.server.followers.acquire(blocking=False):
            return self._tell(503, ["too many browsers follow this bus"])
        try:
            self.server.let(self.connection, math.inf)
            self._head(200, "text/event-stream; charset=utf-8", OUR_PAGES)
            self.end_headers()
            number = 0
            while self.command == "GET":
                number = live.wait(number, 5.0)
                self.wfile.write(b"data: " + live.text + b"\n\n")
        except OSError:
            pass
        finally:
            self.server.followers.release()

    def _refuse_long(self, length: int, lines: List[str], status: int = 413) -> None:
        """Tells why a log is not read, and then reads on for a moment: a browser that still sends would not see the answer."""
        self.server.let(self.connection, HEAD_SECONDS)
        self._tell(status, lines)
        self.wfile.flush()
        try:
            self.connection.shutdown(socket.SHUT_WR)
            until = time.monotonic() + 5.0
            while time.monotonic() < until and self.rfile.read1(1 << 16):
                pass
        except OSError:
            pass

    def _tell(self, status: int, lines: List[str]) -> None:
        """Answers with a page of some lines."""
        text = "".join(f"<p>{html.escape(line)}</p>" for line in lines)
        page = f'<!DOCTYPE html><html lang="en"><head><meta charset="utf-8"/><title>{status}</title><link rel="stylesheet" href="/page.css"/></head><body>{text}<p><a href="/">Back</a></p></body></html>'
        self._send(status, page.encode(), "text/html; charset=utf-8", OUR_PAGES)

    def _send(self, status: int, content: bytes, type: str, policy: str) -> None:
        self._head(status, type, policy)
        self.send_header("Content-Length", str(len(content)))
        self.end_headers()
        if self.command != "HEAD":
            self.wfile.write(content)

    def _head(self, status: int, type: str, policy: str) -> None:
        self.close_connection = True
        self.send_response(status)
        for name, value in (
            ("Content-Type", type), ("Content-Security-Policy", policy), ("X-Content-Type-Options", "nosniff"), ("Cache-Control", "no-store"),
            ("Referrer-Policy", "same-origin"), ("Cross-Origin-Opener-Policy", "same-origin"), ("Cross-Origin-Resource-Policy", "same-origin"),
            ("Connection", "close"),
        ):  # fmt: skip
            self.send_header(name, value)


def is_own(host: str, is_for_all: bool) -> bool:
    """Whether a request to this host is for the server: by an address of this machine's own, or where it serves others by any address."""
    found = re.fullmatch(r"(?:\[([0-9A-Fa-f:.]+)\]|([^:\[\]]+))(?::[0-9]{1,5})?", host)
    name = found and (found[1] or found[2])
    if not name or name == "localhost":
        return bool(name)
    try:
        address = ipaddress.ip_address(name)
    except ValueError:
        return False
    return address.is_loopback or is_for_all


def with_remarks(page: bytes, remarks: Sequence[str]) -> bytes:
    """The page of a log, above it its name, and what the program told beside it."""
    text = "".join(f"<p>{html.escape(line)}</p>" for line in remarks)
    body = page.find(b">", page.find(b"<body")) + 1
    return page[:body] + f'<div role="note">{text}</div>'.encode() + page[body:]
