"""The process of the program that stores in one database."""
import contextlib
import os
import re
import resource
import select
import signal
import subprocess
import tempfile
import threading
import time
from collections.abc import Iterator, Sequence
from pathlib import Path

from ..common import program, protocol
from .settings import CPU_SECONDS, MEMORY, Folder

# So long it may take for its next answer, and to note what a database has.
PATIENCE, LONGEST = 180.0, 3600.0
# The signals that end a program by its own doing, or since it took too long on a processor.
OWN = {signal.SIGXCPU, signal.SIGSEGV, signal.SIGABRT, signal.SIGBUS, signal.SIGILL, signal.SIGFPE, signal.SIGTRAP}
WINDOW = re.compile(r"([0-9a-f]{32})/([0-9]{1,16})")


class Ended(Exception):
    """The process ended, or its database failed, before all was answered: by which signal, or 0."""

    def __init__(self, why: str, by_signal: int = 0) -> None:
        super().__init__(why)
        self.by_signal = by_signal


class Process:
    def __init__(self, folder: Folder, path: Path, lock: int, names: str = "-") -> None:
        self.path, self.begun, self.output = path, time.monotonic(), b""
        self.errors = tempfile.TemporaryFile()
        self.process = subprocess.Popen(
            program.collecting(folder.sequences, path, names), stdin=subprocess.PIPE,
            stdout=subprocess.PIPE, stderr=self.errors, bufsize=0, start_new_session=True, pass_fds=[lock])
        self.bound(resource.RLIMIT_AS, MEMORY)

    def bound(self, kind: int, most: int) -> None:
        """Bounds what it may take. One that has ended takes nothing."""
        with contextlib.suppress(ProcessLookupError):
            resource.prlimit(self.process.pid, kind, (most, resource.prlimit(self.process.pid, kind)[1]))

    def processor_seconds(self) -> float:
        with contextlib.suppress(FileNotFoundError, ProcessLookupError):
            words = Path(f"/proc/{self.process.pid}/stat").read_text().rpartition(")")[2].split()
            return (int(words[11]) + int(words[12])) / os.sysconf("SC_CLK_TCK")
        return 0.0

    def ask(self, uploads: Sequence[tuple[str, Path]]) -> Iterator[protocol.Answer]:
        """Has uploads stored, all handed over at once; the answer to each, in order, which says what is on the disk."""
        assert self.process.stdin
        self.bound(resource.RLIMIT_CPU, int(self.processor_seconds()) + 1 + CPU_SECONDS)
        data = "".join(f"{machine}\t{path}\n" for machine, path in uploads).encode()
        try:
            while data:
                data = data[self.process.stdin.write(data):]
        except OSError as error:
            raise self.ended(str(error), PATIENCE) from error
        for _ in uploads:
            line = self.line()
            try:
                answer = protocol.answer(line)
            except protocol.NotALine:
                raise self.ended(f"said {line!r}") from None
            if answer.code in (program.Code.STORE_FAILED, program.Code.OUT_OF_MEMORY):
                raise self.ended(line)
            yield answer

    def line(self) -> str:
        assert self.process.stdout
        end, poll = time.monotonic() + PATIENCE, select.poll()
        poll.register(self.process.stdout, select.POLLIN)
        while b"\n" not in self.output:
            if not poll.poll(max(0.0, end - time.monotonic()) * 1000):
                raise Ended(f"{self.path.name}: no answer for {PATIENCE:.0f} s")
            piece = os.read(self.process.stdout.fileno(), 1 << 16)
            if not piece:
                raise self.ended("no answer", PATIENCE)
            self.output += piece
        line, _, self.output = self.output.partition(b"\n")
        return line.decode("ascii", "replace")

    def ended(self, why: str, seconds: float = 0.3) -> Ended:
        """What is to be said of a process that failed. It has so long to end: how it does says what is to be done."""
        with contextlib.suppress(subprocess.TimeoutExpired):
            self.process.wait(seconds)
        status = self.process.returncode
        return Ended(f"{self.path.name}: {why}: {self.said() or f'status {status}'}", max(0, -(status or 0)))

    def said(self) -> str:
        self.errors.seek(0)
        return " ".join(self.errors.read(4096).decode(errors="replace").split())

    def finish(self, stops: threading.Event | None = None) -> int | None:
        """Lets it close its database; its status, or None if it had to be ended since all stops."""
        assert self.process.stdin
        with contextlib.suppress(OSError):
            self.process.stdin.close()
        self.bound(resource.RLIMIT_CPU, resource.RLIM_INFINITY)
        end = time.monotonic() + LONGEST
        while time.monotonic() < end and not (stops and stops.is_set()):
            with contextlib.suppress(subprocess.TimeoutExpired):
                return self.process.wait(0.2)
        self.kill()
        return None

    def kill(self) -> None:
        self.process.kill()
        self.process.wait()
