"""What people have the service do, and the socket by which their commands reach it: a request in JSON, and lines of
JSON for an answer, which say what came of it and end with a status.

    {"do": NAME, "words": [..]}        and an open file, of `take`
    {"say": LINE}..  {"status": 0}     or {"status": 1, "no": WHY}
"""
import json
import os
import socket
import subprocess
import sys
import threading
import time
from collections.abc import Iterator, Sequence
from pathlib import Path
from typing import Any

from .. import VERSION
from ..collector import databases
from ..collector.doors import bind
from ..collector.gate import Gate
from ..collector.keeping import Keeping
from ..collector.state import log
from ..collector.store import Store
from ..collector.turns import Waiting
from ..common import files, program
from ..setup import keys

PIECE, LONGEST_REQUEST = 1 << 20, 1 << 16
ASKED = "status", "finish", "rename", "release", "take", "moved", "passed", "head", "check", "rebuild", "journals"
LIBRARY = Path(__file__).resolve().parents[2]
# So long the connections may take to end of a machine whose key is gone.
GONE_SECONDS = 30.0


class No(Exception):
    """What was asked can't be done, and why: nothing was changed."""


class Operations:
    """What may be asked, each a method that gives lines."""

    def __init__(self, store: Store, keeping: Keeping, gate: Gate) -> None:
        self.store, self.keeping, self.gate = store, keeping, gate
        self.folder, self.state = store.folder, store.state

    def do(self, name: str, words: Sequence[str], handles: Sequence[int] = ()) -> Iterator[Any]:
        if name not in ASKED:
            raise No(f"nobody can ask for {name}")
        return getattr(self, name)(*words, *handles) or iter(())

    def status(self) -> Iterator[dict[str, Any]]:
        """What is so at the moment; what outlives the service is in state.sqlite."""
        self.state.flush()
        yield {**self.store.status(), "version": VERSION, "connections": self.gate.count(),
               "is_begun": self.store.is_begun.is_set(), "head": self.store.head()}

    def finish(self) -> None:
        """The present database is finished: all that was acknowledged until now is in finished ones."""
        self.store.alone(lambda: None)

    def rename(self, old: str, new: str) -> None:
        """A machine has another name from now on. It has no key meanwhile, so its connections end."""
        end = time.monotonic() + GONE_SECONDS
        while old in self.gate.count():
            if time.monotonic() > end:
                raise No(f"{old} is connected still")
            time.sleep(0.1)

        def do() -> None:
            program.change_owners(self.folder.sequences, "--rename", old, new)
            self.state.rename(old, new)

        self.store.alone(do)

    def release(self, sequence: str) -> None:
        """A sequence is nobody's, until a machine brings a new entry of it."""
        self.store.alone(lambda: program.change_owners(self.folder.sequences, "--release", sequence))
        self.state.ask("INSERT OR IGNORE INTO sequence VALUES(?, '')", sequence)

    def take(self, machine: str, handle: int) -> Iterator[str]:
        """An upload that came by other means is stored, whatever its size and kind; the answer."""
        if not keys.is_machine(machine):
            raise No(f"{machine} can't be a machine's name")
        with files.unnamed(self.folder.recent) as copy:
            at = 0
            while count := os.sendfile(copy, handle, at, PIECE):
                at += count
            yield str(self.store.ask(Waiting(machine, copy, at)))

    def moved(self, name: str) -> Iterator[str]:
        """A person moves a finished database away: what it had stays acknowledged."""
        name = name.removesuffix(".zst").removesuffix(".db")
        if name not in self.state.names():
            raise No(f"there is no finished database {name}")
        self.state.stands(name, "moved")
        yield f"{name} may be moved away, with all its files: {databases.path_of(self.folder, name)}*"

    def passed(self, days: str) -> Iterator[str]:
        """Days went by that weren't counted."""
        age = self.state.age.grown()
        if not 0 < int(days) <= age.uncounted + 0.01:
            raise No(f"by the clock {age.uncounted:.1f} days went by that weren't counted")
        self.state.age = age.passed(int(days))
        self.state.flush()
        self.state.over("days")
        yield f"{days} days went by"

    def head(self, *heads: str) -> Iterator[str]:
        """Of which day each head is that a machine was told, by the databases that are known now."""
        days = {name[:10] for name, in self.state.ask("SELECT name FROM database WHERE digest IS NOT NULL")}
        known = {self.state.head(day): day for day in days}
        bad = [each for each in heads if each not in known]
        yield from (f"{each} is of {known[each]}" for each in heads if each in known)
        if bad:
            raise No(f"{' '.join(bad)}: no day has this head now: databases of it were changed, removed or added")

    def check(self) -> Iterator[str]:
        """Looks at all notes and all finished databases."""
        bad = [f"{name}: notes weren't as they were, and were made anew" for name in self.keeping.mend_notes()]
        found = self.state.names()
        bad += filter(None, map(self.keeping.check, found))
        yield from bad
        if bad:
            raise No(f"{len(bad)} faults")
        yield f"{len(found)} databases are as they were finished, and agree with their notes"

    def rebuild(self) -> Iterator[str]:
        """All that is known, and all notes, are made anew of the databases; whose each sequence is stays."""
        self.store.alone(self.store.recovery.rebuild)
        yield f"{len(self.state.names())} databases are known, and noted"

    def journals(self) -> Iterator[str]:
        """All journal files are made anew of the databases."""
        words = ["-m", "journalcollect.reading.making", "--anew", str(self.folder.path)]
        making = subprocess.run([sys.executable, "-B", *words], cwd=LIBRARY, capture_output=True, text=True)
        if making.returncode:
            raise No(making.stderr.strip())
        self.state.over("journals")
        yield "journal files are made anew"


class Door(threading.Thread):
    """Listens for commands, each in a thread of its own."""

    def __init__(self, operations: Operations) -> None:
        super().__init__(name="admin", daemon=True)
        self.operations, path = operations, operations.folder.admin
        path.unlink(missing_ok=True)
        self.listening = socket.socket(socket.AF_UNIX)
        bind(self.listening, path)
        path.chmod(0o600)
        self.listening.listen()

    def run(self) -> None:
        while True:
            try:
                threading.Thread(target=self.answer, args=self.listening.accept()[:1], daemon=True).start()
            except (OSError, RuntimeError):
                time.sleep(1.0)                        # there are too many open files, or threads

    def answer(self, one: socket.socket) -> None:
        """Does what a connection asks."""
        with one:
            try:
                for each in self.done(*socket.recv_fds(one, LONGEST_REQUEST, 1)[:2]):
                    one.sendall(json.dumps(each).encode() + b"\n")
            except (OSError, ValueError, KeyError, TypeError) as error:
                log(f"a command: {type(error).__name__}: {error}")

    def done(self, line: bytes, handles: list[int]) -> Iterator[dict[str, object]]:
        try:
            asked = json.loads(line)
            for said in self.operations.do(asked["do"], asked["words"], handles):
                yield {"say": said}
            yield {"status": 0}
        except No as error:
            yield {"status": 1, "no": str(error)}
        except Exception as error:
            yield {"status": 3, "no": f"{type(error).__name__}: {error}"}
        finally:
            for handle in handles:
                os.close(handle)
