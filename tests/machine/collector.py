"""A collector: the protocol's lines over a socket, and the real program behind them.

What it does beside that can be told: answers in place of the program's, cuts, and slowness. It shares with the service
of the collector the lines, which docs/FORMATS.md has, and what the service hands to the program.
"""
from __future__ import annotations

import hashlib
import os
import socket
import subprocess
import sys
import threading
import time
from collections.abc import Callable
from pathlib import Path
from typing import BinaryIO

sys.path.insert(0, str(Path(__file__).resolve().parents[2] / "deploy"))
from journalcollect.collector.gate import Gate  # noqa: E402
from journalcollect.collector.notes import Unnoted  # noqa: E402
from journalcollect.collector.settings import Folder, Settings  # noqa: E402
from journalcollect.collector.state import State  # noqa: E402
from journalcollect.common.protocol import Put  # noqa: E402

PROGRAM = os.environ["JOURNAL_COLLECT"]


class Cut(Exception):
    """The connection is to end now."""


class Collector:
    """`before` gets each upload's bytes, and gives an answer in place of the program's, or none. `takes` gets how many
    bytes of an upload came so far and how many there are, and may wait, or raise a Cut."""

    def __init__(self, folder: Path, name: str = "web") -> None:
        self.folder, self.name = folder, name
        folder.mkdir(exist_ok=True)
        self.socket = folder / "socket"
        self.gate = Gate(Settings(), State(Folder(folder)), Unnoted())
        self.before: Callable[[bytes], str | None] = lambda data: None
        self.takes: Callable[[int, int], None] = lambda came, size: None
        self.greeting: Callable[[], str] = lambda: f"journal-collect 1 {time.time_ns() // 1000} -"
        self.knows: Callable[[str, int], bool] = lambda sequence, number: True
        self.heard: list[str] = []
        self.answers: list[str] = []
        self.uploads: list[bytes] = []
        self.databases = 0
        self.program: subprocess.Popen[bytes] | None = None
        self.lock = threading.Lock()
        self.server = socket.socket(socket.AF_UNIX)
        self.server.bind(str(self.socket))
        self.server.listen(8)
        self.serving = threading.Thread(target=self.serve, daemon=True)
        self.serving.start()

    @property
    def database(self) -> Path:
        return self.folder / f"{self.databases}.db"

    def begin(self) -> subprocess.Popen[bytes]:
        if self.program is None:
            words = ["collect", "--sequences", self.folder / "sequences", "--tables", "3", "--files-from", "-"]
            self.program = subprocess.Popen([PROGRAM, *words, self.database], stdin=subprocess.PIPE,
                                            stdout=subprocess.PIPE, bufsize=0)
        return self.program

    def finish(self) -> None:
        """What is stored can be read, and the next upload goes to another database."""
        with self.lock:
            if self.program:
                assert self.program.stdin
                self.program.stdin.close()
                assert self.program.wait() in (0, 1)        # 1: an upload was refused
                self.program = None
                self.databases += 1

    def close(self) -> None:
        self.server.shutdown(socket.SHUT_RDWR)      # else it waits on, for whoever gets the closed socket's number
        self.serving.join()
        self.server.close()
        self.finish()
        self.gate.state.rows.close()

    def store(self, data: bytes, machine: str) -> str:
        """The program's line, or the service's, if it doesn't hand such an upload to the program."""
        with self.lock:
            path = self.folder / f"{len(self.uploads)}.upload"
            path.write_bytes(data)
            with path.open("rb") as file:
                new_files = self.gate.of_upload(machine, file.fileno(), len(data))
            if isinstance(new_files, Put):
                return str(new_files)
            process = self.begin()
            assert process.stdin and process.stdout
            process.stdin.write(f"{machine}\t{path}\n".encode())
            line = b""
            while not line.endswith(b"\n"):
                piece = process.stdout.read(1)
                assert piece, "the program ended"
                line += piece
            return line.decode().strip()

    def serve(self) -> None:
        while True:
            try:
                connection, _ = self.server.accept()
            except OSError:
                return
            threading.Thread(target=self.talk, args=[connection], daemon=True).start()

    def talk(self, connection: socket.socket) -> None:
        with connection, connection.makefile("rb") as came:
            try:
                connection.sendall(self.greeting().encode() + b"\n")
                while line := came.readline(201):
                    self.heard.append(line.decode().strip())
                    answer = self.answer(line.decode().split(), came)
                    self.answers.append(answer)
                    connection.sendall(answer.encode() + b"\n")
            except (Cut, OSError):
                pass

    def answer(self, words: list[str], came: BinaryIO) -> str:
        if words[0] == "had":
            return "had" if self.knows(words[1], int(words[2])) else "lost"
        assert words[0] == "upload" and abs(int(words[3]) - time.time_ns() // 1000) < 7 * 86_400_000_000
        size, data = int(words[1]), b""
        while len(data) < size:
            piece = came.read1(min(size - len(data), 1 << 14))  # type: ignore[attr-defined]
            if not piece:
                raise Cut
            data += piece
            self.takes(len(data), size)
        assert hashlib.sha256(data).hexdigest() == words[2]
        self.uploads.append(data)
        return self.before(data) or self.store(data, self.name)

    def stored(self) -> list[tuple[str, int, str]]:
        """Sequence, number and message of each entry in all databases."""
        self.finish()
        found = []
        for number in range(self.databases):
            told = subprocess.run([PROGRAM, "show", self.folder / f"{number}.db"], capture_output=True, text=True,
                                  check=True)
            for line in told.stdout.splitlines():
                sequence, seqnum, _, _, message = line.split(" ", 4)
                found.append((sequence, int(seqnum), message.strip()))
        return found

    def messages(self) -> list[str]:
        return sorted(message for _, _, message in self.stored())
