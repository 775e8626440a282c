"""The connection to the collector, whose other end is this machine's socket there."""
import os
import select
import shlex
import socket
import subprocess
import time

from journalcollect.common import protocol
from journalcollect.common.settings import FOLDER
from journalcollect.machine.settings import Settings

KEY, KNOWN_HOSTS = FOLDER / "key", FOLDER / "known_hosts"
LOGIN = "journal-collect-login"
OPTIONS = ("BatchMode=yes", "ConnectTimeout=20", "ServerAliveInterval=15", "ServerAliveCountMax=4",
           "IdentitiesOnly=yes", "StrictHostKeyChecking=yes", "ControlPath=none")
# ssh itself sees within a minute that the other side is gone; a collector that is busy may take longer to answer.
PATIENCE, PIECE = 300.0, 1 << 16
# What ssh or the collector's side says, and what it means.
REASONS = (
    ("Host key verification failed", f"the collector's host key isn't the one in {KNOWN_HOSTS}: compare them before "
     "you change that file; this machine's own key plays no part"),
    ("Permission denied", f"the collector doesn't take this machine's key: admit {KEY}.pub there"),
    ("Load key", f"this machine's key {KEY} can't be read"),
    ("not accessible", f"this machine's key {KEY} can't be read"),
    ("nc.openbsd: ", "the collector's sshd takes this machine's key, and its service doesn't run"),
)


class Lost(OSError):
    """There is no connection, or it ended before an answer came; `went_out` is how much of the question did."""

    def __init__(self, why: str, went_out: int = 0) -> None:
        super().__init__(why)
        self.went_out = went_out


def command(settings: Settings) -> list[str]:
    if settings.connect:
        return shlex.split(settings.connect)
    user, at, rest = settings.collector.rpartition("@")
    host, colon, port = rest.rpartition(":")
    has_port = bool(colon) and port.isdigit() and ":" not in host
    options = [*OPTIONS, f"UserKnownHostsFile={KNOWN_HOSTS}", *([f"Port={port}"] if has_port else [])]
    return ["ssh", "-T", "-i", str(KEY), *(word for option in options for word in ("-o", option)),
            f"{user if at else LOGIN}@{host if has_port else rest}"]


class Link:
    def __init__(self, settings: Settings) -> None:
        self.settings, self.used = settings, 0.0
        self.process: subprocess.Popen[bytes] | None = None

    @property
    def is_open(self) -> bool:
        """There is a connection that hasn't ended: the other side says nothing unless it is asked."""
        if self.process and select.select([self.socket], [], [], 0)[0]:
            self.close()
        return self.process is not None

    def open(self) -> protocol.Greeting:
        self.errors = open(os.memfd_create("errors"), "w+b")
        self.socket, theirs = socket.socketpair()
        self.socket.settimeout(PATIENCE)
        with theirs:
            self.process = subprocess.Popen(command(self.settings), stdin=theirs.fileno(), stdout=theirs.fileno(),
                                            stderr=self.errors)
        try:
            return protocol.greeting(self.line(b""))
        except protocol.NotALine as error:
            raise self.lost(f"it greets with {error}") from None

    def ask(self, question: protocol.Question, body: bytes = b"") -> protocol.Reply:
        try:
            return protocol.reply(self.line(protocol.encoded(question) + body))
        except protocol.NotALine as error:
            raise self.lost(f"it answers with {error}") from None

    def line(self, data: bytes) -> str:
        """Sends some bytes, all of which are read there whatever is answered, and reads a line."""
        left, line = memoryview(data), b""
        try:
            while left:
                left = left[self.socket.send(left[:PIECE]):]
            while not line.endswith(b"\n"):
                if not (piece := self.socket.recv(protocol.LONGEST_LINE + 1 - len(line))):
                    raise ConnectionError("the connection ended")
                line += piece
        except TimeoutError:
            raise self.lost(f"nothing came for {PATIENCE:.0f} s", len(data) - len(left)) from None
        except OSError as error:
            raise self.lost(error.strerror or str(error), len(data) - len(left)) from None
        self.used = time.monotonic()
        return protocol.decoded(line)

    def lost(self, why: str, went_out: int = 0) -> Lost:
        """Closes the connection; why it was of no use."""
        said = self.close()
        told = [text for sign, text in REASONS if sign in said][:1] or [why]
        return Lost(": ".join(["no connection to the collector", *told, *said.strip().splitlines()[-1:]]), went_out)

    def close(self) -> str:
        """What was said on its standard error."""
        process, self.process = self.process, None
        if not process:
            return ""
        self.socket.close()
        try:
            process.wait(1)
        except subprocess.TimeoutExpired:
            process.kill()
            process.wait()
        self.errors.seek(0)
        with self.errors:
            return self.errors.read().decode(errors="replace")

    def close_if_idle(self) -> None:
        if self.process and time.monotonic() - self.used >= self.settings.idle_seconds:
            self.close()
