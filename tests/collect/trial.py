"""What tests with random choices share: the program that is tried, what a database has to hold, how many mistakes."""
from __future__ import annotations

import os
import random
import shutil
import subprocess
import sys
import tempfile
from collections.abc import Iterable, Sequence
from pathlib import Path
from typing import Any

from model import Journal
from stock import IS_HERE, stock

PROGRAM = os.environ["PROGRAM"]
TABLES = "SELECT sql FROM sqlite_schema WHERE sql IS NOT NULL ORDER BY name"
SCHEMA = """
CREATE TABLE field(seqid BLOB NOT NULL, seqnum INTEGER NOT NULL,
  pos INTEGER NOT NULL, name BLOB NOT NULL, value BLOB NOT NULL,
  PRIMARY KEY(seqid, seqnum, pos),
  FOREIGN KEY(seqid, seqnum) REFERENCES record(seqid, seqnum)) STRICT
CREATE TABLE journal(one INTEGER PRIMARY KEY, version INTEGER NOT NULL) STRICT
CREATE TABLE record(seqid BLOB NOT NULL, seqnum INTEGER NOT NULL,
  realtime INTEGER NOT NULL, monotonic INTEGER NOT NULL,
  PRIMARY KEY(seqid, seqnum)) STRICT
"""
VERSION = "SELECT one || ' ' || version FROM journal"
# the rows of `record`, and before the next one those of `field` under its key
ROWS = """
SELECT line FROM (
    SELECT seqid, seqnum, -1 AS pos,
           lower(hex(seqid)) || ' ' || seqnum || ' ' || realtime || ' ' || monotonic AS line FROM record
    UNION ALL
    SELECT seqid, seqnum, pos,
           lower(hex(seqid)) || ' ' || seqnum || ' ' || pos || ' ' || lower(hex(name)) || ' ' || lower(hex(value))
    FROM field
) ORDER BY seqid, seqnum, pos
"""
# How many mistakes of a script are printed.
SHOWN = 10


def start(*words: str, **options: Any) -> subprocess.Popen[bytes]:
    """The program, running. Its outputs are pipes without a buffer of their own."""
    return subprocess.Popen([PROGRAM, *words], stdout=subprocess.PIPE, stderr=subprocess.PIPE, bufsize=0, **options)


def run(*words: str, stdin: bytes = b"", **options: Any) -> tuple[bytes, str, int]:
    """The standard output, the standard error and the status of the program."""
    told = subprocess.run([PROGRAM, *words], input=stdin, stdout=subprocess.PIPE, stderr=subprocess.PIPE, check=False,
                          timeout=600, **options)
    return told.stdout, told.stderr.decode(), told.returncode


def status_of(lines: Iterable[str]) -> int:
    """The status of a `collect` that printed these lines: those of failures go before those of refusals."""
    codes = {line.split(" ")[3] for line in lines if line.startswith("no ")}
    return 3 if {"61", "62", "63"} & codes else 1 if codes else 0


def as_output(lines: Iterable[str]) -> bytes:
    return "".join(line + "\n" for line in lines).encode()


def answers(journal: Journal, uploads: Iterable[bytes]) -> tuple[bytes, str, int]:
    """What a run over a journal prints, which then has what is accepted, and its status."""
    lines = [journal.take(upload) for upload in uploads]
    return as_output(lines), "", status_of(lines)


class Trial:
    """One script's trials, in a folder of their own, with the random choices of a seed that is printed."""

    def __init__(self, name: str, seed: int | None = None) -> None:
        self.name = name
        self.seed = int(os.environ.get("SEED", "7")) if seed is None else seed
        self.dice = random.Random(self.seed)
        self.mistakes = 0
        self.marks: set[int] = set()
        self.base = tempfile.mkdtemp()
        if not IS_HERE:
            print(f"{name}: there is no stock sqlite3 of 3.37 or later, so what it reads isn't tried")

    def __enter__(self) -> Trial:
        return self

    def __exit__(self, *_: object) -> None:
        shutil.rmtree(self.base)

    def expect(self, what: str, got: object, wanted: object) -> bool:
        if got != wanted:
            self.mistakes += 1
            if self.mistakes <= SHOWN:
                print(f"{self.name}: {what}: {short(got)}, not {short(wanted)} (SEED={self.seed})", file=sys.stderr)
        return got == wanted

    def folder(self) -> str:
        return tempfile.mkdtemp(dir=self.base)

    def database(self) -> str:
        """The path of a database that isn't there yet."""
        return os.path.join(self.folder(), "db")

    def put(self, uploads: Sequence[bytes]) -> list[str]:
        """The uploads as files."""
        folder = self.folder()
        names = [os.path.join(folder, f"upload-{number}") for number in range(len(uploads))]
        for name, upload in zip(names, uploads):
            Path(name).write_bytes(upload)
        return names

    def copy(self, database: str) -> str:
        """The database's files copied as they lie, so that whoever reads the copy changes nothing."""
        name = self.database()
        for end in ("", "-wal"):
            if os.path.exists(database + end):
                shutil.copyfile(database + end, name + end)
        return name

    def is_new(self, folder: str, *more: object) -> bool:
        """Whether no folder was asked about before with the same files, and whose run had the same of what counts."""
        mark = hash((files_in(folder), *more))
        if mark in self.marks:
            return False
        self.marks.add(mark)
        return True

    def holds(self, what: str, database: str, journal: Journal) -> None:
        """The database is read by the program and by the stock sqlite3, and each finds just this journal."""
        for command, wanted in (("export", journal.text()), ("show", journal.lines())):
            self.expect(f"{what}: {command}", run(command, self.copy(database)), (wanted, "", 0))
        self.holds_rows(what, database, journal)

    def holds_rows(self, what: str, database: str, journal: Journal) -> None:
        if IS_HERE:
            copied = self.copy(database)
            self.expect(f"{what}: tables", (stock(copied, TABLES) or "").split(), SCHEMA.split())
            self.expect(f"{what}: version", stock(copied, VERSION), "1 2\n")
            self.expect(f"{what}: rows", stock(copied, ROWS), journal.rows())
            self.expect(f"{what}: integrity", stock(copied, "PRAGMA integrity_check"), "ok\n")

    def left(self, what: str, database: str, journals: Iterable[Journal]) -> int | None:
        """Which of these journals the database holds; None if it has no table yet, or if that is a mistake."""
        copied = self.copy(database)
        told = run("export", copied)
        if told == (b"", f"cannot open {copied}\n", 3):
            self.expect(f"{what}: tables", IS_HERE and stock(self.copy(database), TABLES) or "", "")
            return None
        for number, journal in enumerate(journals):
            if told == (journal.text(), "", 0):
                self.holds_rows(what, database, journal)
                return number
        self.expect(f"{what}: export", told, "one of the journals that may be there")
        return None

    def tell(self, *counts: str) -> None:
        print(f"{self.name}: {', '.join(counts)}; SEED={self.seed}", flush=True)

    def finish(self, *counts: str) -> None:
        self.tell(*counts)
        sys.exit(self.mistakes > 0)


def files_in(folder: str) -> frozenset[tuple[str, bytes | None]]:
    """The files and folders below a folder, by their paths from there."""
    found: set[tuple[str, bytes | None]] = set()
    for at, folders, names in os.walk(folder):
        found.update((os.path.relpath(os.path.join(at, name), folder), None) for name in folders)
        for path in (os.path.join(at, name) for name in names):
            with open(path, "rb") as file:
                found.add((os.path.relpath(path, folder), file.read()))
    return frozenset(found)


def short(value: object) -> str:
    """A value for a message, without the middle of a long one."""
    text = repr(value)
    return text if len(text) <= 600 else f"{text[:300]} .. {text[-300:]}"
