"""journal-collect-page: a page in a browser over what was collected, on a Unix socket.

    ssh -L 8080:/run/journal-collect-page.sock logs.example.org        brings it to http://localhost:8080

Each request has a deadline and a bound of lines, and a few go at once. Whoever may open the socket may read everything.
"""
import argparse
import base64
import hashlib
import json
import os
import re
import signal
import socket
import socketserver
import subprocess
import threading
import time
from concurrent.futures import ThreadPoolExecutor
from contextlib import ExitStack
from http import HTTPStatus
from http.server import BaseHTTPRequestHandler
from pathlib import Path
from typing import Any
from urllib.parse import parse_qs, urlsplit

from ..collector import settings
from . import journalctl, places
from .journalctl import Window
from .places import FOREVER, Places
from .present import sequence_id
from .words import Call

SECONDS, LINES, BARS, AT_ONCE = 10.0, 500, 60, 4
# Of which kind a bar's entries are by their priority: 2, errors; 1, warnings; and else 0.
KINDS = {**dict.fromkeys("0123", 2), "4": 1}
HOSTS = re.compile(r"(localhost|127\.0\.0\.1|\[::1\])(:\d{1,5})?", re.ASCII)
WHOLE, NUMBER = re.compile("[0-9]{1,19}"), re.compile(r"i=([0-9a-f]+)")
MATCH = re.compile(r"[A-Z_][A-Z0-9_]{0,63}=.*", re.DOTALL | re.ASCII)
OWN = re.compile(b"<style>(.*)</style>.*<script>(.*)</script>", re.DOTALL)


class Refused(Exception):
    """The request isn't answered: the status that says so, and why."""


def policy(page: bytes) -> str:
    """What a browser is to run of the page: its own script and style, and nothing else."""
    style, script = (base64.b64encode(hashlib.sha256(each).digest()).decode() for each in OWN.findall(page)[0])
    return (f"default-src 'none'; script-src 'sha256-{script}'; style-src 'sha256-{style}'; connect-src 'self'; "
            "img-src data:; base-uri 'none'; form-action 'none'; frame-ancestors 'none'")


class Asked:
    """What is asked for, and until when it is to be answered. Each answer is an object of JSON."""

    def __init__(self, places: Places, query: str) -> None:
        self.places, self.values, self.end = places, parse_qs(query), time.monotonic() + SECONDS

    def number(self, name: str, otherwise: int) -> int:
        said = self.values.get(name, [str(otherwise)])[-1]
        if not WHOLE.fullmatch(said):
            raise Refused(HTTPStatus.BAD_REQUEST, f"{name} isn't a whole number")
        return int(said)

    def call(self) -> Call:
        machines = [f"_COLLECTED_FROM={name}" for name in self.values.get("machine", [])]
        call = Call([("unit", unit) for unit in self.values.get("unit", [])], machines + self.values.get("match", []))
        if not all(map(MATCH.fullmatch, call.matches)):
            raise Refused(HTTPStatus.BAD_REQUEST, "match isn't FIELD=VALUE")
        if (priority := self.number("priority", 8)) < 8:
            call = call.plus(priority=str(priority))
        for words in self.values.get("words", []):
            call = call.plus(grep=re.escape(words), case_sensitive="no" if words == words.lower() else "yes")
        return call

    def windows(self, opened: ExitStack, since: int = 0, until: int = FOREVER, many: int = 0) -> list[Window]:
        """Spans of a time, the oldest first."""
        files = [file for file in self.places.standing(opened) if file.has(since, until)]
        return journalctl.windows(files, since, until, many or len(files) // 32 + 1)

    def entries(self) -> Any:
        """The newest entries, the newest first."""
        lines, tail = min(self.number("lines", 100), LINES), self.places.tail()
        with ExitStack() as opened:
            windows = self.windows(opened, self.number("since", 0), self.number("until", FOREVER))
            found = journalctl.newest(windows, self.call(), lines, end=self.end)
        return {"entries": found, "tail": tail, "is_cut": time.monotonic() > self.end, "has_more": len(found) == lines}

    def live(self) -> Any:
        """What came after a number of the present, in the order in which it came."""
        after, tail = self.number("tail", 0), self.places.tail()
        call = self.call().plus(cursor=f"s={sequence_id()};i={after + 1:x}", lines=str(LINES))
        with ExitStack() as opened:
            files = places.open_all(self.places.live() if tail > after else [], opened)
            found = list(journalctl.entries(Window(files), call, end=self.end)) if files else []
        reached = [int(part[1], 16) for each in found if (part := NUMBER.search(each["__CURSOR"]))]
        return {"entries": found, "tail": max(reached) if len(found) == LINES else max([tail, *reached])}

    def histogram(self) -> Any:
        """How many entries each part of a span has, warnings and errors among them; and from when on that is so."""
        since, until = self.number("since", 0), self.number("until", time.time_ns() // 1000)
        with ExitStack() as opened, ThreadPoolExecutor(journalctl.PROCESSORS) as pool:
            windows = self.windows(opened, since, until, 16)[::-1]
            since = since or min((file.header.head_realtime for window in windows for file in window.files),
                                 default=until)
            step, bars, counted_from = max((until - since) // BARS, 1), [[0, 0, 0] for _ in range(BARS)], since
            counted = pool.map(lambda window: (
                journalctl.count_one(window, self.call(), ("PRIORITY",), since, step, self.end),
                time.monotonic() < self.end), windows)
            for window, (counts, is_whole) in zip(windows, counted):
                for (place, (priority,)), many in counts.items():
                    bars[min(max(place, 0), BARS - 1)][KINDS.get(priority, 0)] += many
                if not is_whole:
                    counted_from = max(counted_from, min(window.until, until))
        return {"since": since, "step": step, "bars": bars, "counted_from": counted_from}

    def names(self) -> Any:
        """The machines, and the units of the newest files, to complete what is typed."""
        units: set[str] = set()
        with ExitStack() as opened:
            for window in self.windows(opened)[-2:]:
                ended = subprocess.run(window.words(Call([("field", "_SYSTEMD_UNIT")])), capture_output=True, text=True,
                                       errors="replace", check=False, timeout=SECONDS, pass_fds=window.handles)
                units.update(ended.stdout.splitlines())
        return {"machines": sorted(filter(None, self.places.about().boots)), "units": sorted(units)[:2000]}


class Handler(BaseHTTPRequestHandler):
    """One request. Only a browser that was told to come here by its own name for this is answered."""
    server: "Server"
    server_version, sys_version, timeout = "journal-collect-page", "", 30

    def do_GET(self) -> None:
        try:
            status, kind, body = self.answer()
        except (Refused, OSError, ValueError) as error:
            status, why = error.args if isinstance(error, Refused) else (HTTPStatus.INTERNAL_SERVER_ERROR, error)
            kind, body = "text/plain; charset=utf-8", f"{why}\n".encode()
        self.send_response(status)
        for name, value in (("Content-Type", kind), ("Content-Length", str(len(body))), ("Cache-Control", "no-store"),
                            ("Content-Security-Policy", self.server.policy), ("X-Content-Type-Options", "nosniff"),
                            ("Referrer-Policy", "no-referrer"), ("Cross-Origin-Resource-Policy", "same-origin")):
            self.send_header(name, value)
        self.end_headers()
        self.wfile.write(body)

    def answer(self) -> tuple[HTTPStatus, str, bytes]:
        host = self.headers.get("Host", "")
        if not HOSTS.fullmatch(host) and host != self.server.host:
            raise Refused(HTTPStatus.MISDIRECTED_REQUEST, "this page isn't reached by that name")
        if self.headers.get("Sec-Fetch-Site", "same-origin") not in ("same-origin", "none"):
            raise Refused(HTTPStatus.FORBIDDEN, "another page asks")
        asked = urlsplit(self.path)
        if asked.path == "/":
            return HTTPStatus.OK, "text/html; charset=utf-8", self.server.page
        if asked.path not in CALLS:
            raise Refused(HTTPStatus.NOT_FOUND, "there is nothing here")
        if not self.server.turns.acquire(timeout=SECONDS):
            raise Refused(HTTPStatus.SERVICE_UNAVAILABLE, "too many requests are under way")
        try:
            found = CALLS[asked.path](Asked(self.server.places, asked.query))
        finally:
            self.server.turns.release()
        return HTTPStatus.OK, "application/json", json.dumps(found, separators=(",", ":")).encode()

    def log_message(self, *_: Any) -> None:
        """What is asked for stays between who asks and the journal."""


CALLS = {"/entries": Asked.entries, "/live": Asked.live, "/histogram": Asked.histogram, "/names": Asked.names}


class Server(socketserver.ThreadingMixIn, socketserver.UnixStreamServer):
    """A thread for each connection, a few of which read at once."""
    daemon_threads = True

    def __init__(self, listening: socket.socket, folder: Path, host: str | None) -> None:
        socketserver.BaseServer.__init__(self, "", Handler)
        self.socket, self.places, self.host = listening, Places(folder), host
        self.turns, self.page = threading.BoundedSemaphore(AT_ONCE), Path(__file__).with_name("page.html").read_bytes()
        self.policy = policy(self.page)


def main() -> int:
    parser = argparse.ArgumentParser(prog="journal-collect-page", description=__doc__,
                                     formatter_class=argparse.RawDescriptionHelpFormatter)
    parser.add_argument("--host", help="the name under which a proxy, which says who reads, is reached")
    asked = parser.parse_args()
    if os.environ.get("LISTEN_FDS") != "1":
        parser.error("journal-collect-page.socket starts it: it takes the socket that systemd hands over")
    signal.signal(signal.SIGTERM, lambda *_: os._exit(0))
    Server(socket.socket(fileno=3), Path(settings.read().folder), asked.host).serve_forever()
    return 0
