"""What the rows over tables of either kind share, which are run as: python3 NAME.py PROGRAM FOLDER

Databases are looked at, changed and made by the sqlite3 of Python.
"""
from __future__ import annotations

import contextlib
import sqlite3
import subprocess
import sys
from collections.abc import Callable, Iterator

from samples import H1, entry_text, stream

PROGRAM, FOLDER = sys.argv[1:]
SOURCE = "a0a1a2a3a4a5a6a7a8a9aaabacadaeaf"
ACK = f"ack {SOURCE} 0 {{}} {{}} 0\n"
mistakes = 0
rows = 0


def expect(what: str, got: object, wanted: object) -> None:
    global mistakes, rows
    rows += 1
    if got != wanted:
        mistakes += 1
        print(f"{what}: {got}, not {wanted}", file=sys.stderr)


def run(*words: str, upload: bytes = b"") -> tuple[int, str]:
    """The status of a command, and what it printed on both outputs."""
    told = subprocess.run([PROGRAM, *words], input=upload, capture_output=True, check=False)
    return told.returncode, told.stdout.decode() + told.stderr.decode()


def collect(path: str, *entries: bytes, tables: str) -> tuple[int, str]:
    """An upload of these entries is collected, with no option if `tables` is empty."""
    options = ("--tables", tables) if tables else ()
    return run("collect", *options, path, upload=stream(*entries))


@contextlib.contextmanager
def stock(path: str) -> Iterator[sqlite3.Connection]:
    """A database as the stock SQLite has it; what is changed is committed."""
    connection = sqlite3.connect(path)
    with connection:
        yield connection
    connection.close()


def schema(path: str) -> list[str]:
    """The statements that made the tables, in the order in which they were made."""
    with stock(path) as connection:
        return [text for text, in connection.execute(
            "SELECT sql FROM sqlite_schema WHERE sql IS NOT NULL ORDER BY rootpage")]


def new(name: str) -> str:
    return f"{FOLDER}/{name}"


def with_two(number: int) -> bytes:
    """An entry of two fields."""
    return entry_text(number).replace(b"MESSAGE=hi\n", b"MESSAGE=hi\nPRIORITY=6\n")


def hostile(tables: str, changes: dict[str, tuple[str, str]], table: str = "record") -> None:
    """Changes that somebody else made of three entries with two fields each, and what `check` says then: the first bad
    row in the order of keys is told, and nothing is stored over it."""
    for number, (what, (change, says)) in enumerate(changes.items()):
        path = new(f"hostile-{number}")
        collect(path, *map(with_two, (1, 2, 3)), tables=tables)
        with stock(path) as connection:
            connection.executescript(change)
            left, = connection.execute(f"SELECT count(*) FROM {table}").fetchone()
        good = says.startswith("ok")
        expect(what, run("check", path), (0 if good else 1, says + "\n"))
        expect(f"{what}: collect", collect(path, with_two(4), tables=tables)[0], 0 if good else 1)
        with stock(path) as connection:
            stored, = connection.execute(f"SELECT count(*) FROM {table}").fetchone()
        expect(f"{what}: what is stored", stored, left + good)


def in_another_order(tables: str, changes: dict[str, str]) -> None:
    """Changes of three entries with two fields each that leave the same journal: all entries are there, a repeat stores
    none, another entry under a key is a conflict, and more are stored."""
    one, two, three, four = map(with_two, (1, 2, 3, 4))
    for number, (what, change) in enumerate(changes.items()):
        path = new(f"order-{number}")
        collect(path, one, two, three, tables=tables)
        listed = run("export", path), run("show", path)
        with stock(path) as connection:
            connection.executescript(change)
        expect(what, run("check", path), (0, "ok 3\n"))
        expect(f"{what}: what is listed", (run("export", path), run("show", path)), listed)
        expect(f"{what}: again", collect(path, three, one, two, tables=tables), (0, ACK.format(3, 0)))
        expect(f"{what}: in order", collect(path, one, two, three, tables=tables), (0, ACK.format(3, 0)))
        expect(f"{what}: one more", collect(path, two, four, tables=tables), (0, ACK.format(2, 1)))
        expect(f"{what}: a conflict", collect(path, H1, tables=tables), (1, f"no {SOURCE} 0 60 0\n"))
        expect(f"{what}: then", run("check", path), (0, "ok 4\n"))


def run_all(parts: tuple[Callable[[], None], ...]) -> None:
    """Runs the parts, and ends with status 1 if a row of one is wrong."""
    for part in parts:
        part()
    print(f"{rows} rows, {mistakes} mistakes")
    sys.exit(mistakes > 0)
