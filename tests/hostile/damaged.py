"""Databases that were damaged: a byte is changed at one place after another of a database and of a write-ahead log that
a kill left, and pages are emptied, exchanged and cut off.

Every command then refuses the database with one line, or works on entries that the file has. In a database a value's
bytes have no checksum, so a change within one shows as another value; no entry is lost, and none under a key that
wasn't stored comes up. A log has checksums: it is taken to end before what is damaged, so the journal is one that stood
after some of the uploads.
"""
from __future__ import annotations

import collections
import os
import random
import shutil
import subprocess
from collections.abc import Iterator
from concurrent.futures import ThreadPoolExecutor
from typing import NamedTuple

import samples
from pathlib import Path
from make import Machine
from model import Bad, Entry, Journal, read_stream
from stock import IS_HERE, stock
from trial import ROWS, Trial, answers, as_output, run, start

PAGE = 4096
MASKS = (0xff, 0x01, 0x80)
STRIDE = 37
LARGE_STRIDE = 1511
LOG_STRIDE = 1531
REFUSALS = ("bad 64 0\n", "bad 65 ", "store failed\n")
Told = tuple[bytes, str, int]


class Stored(NamedTuple):
    """A database as its files' bytes, the journals that it may hold, and uploads that are collected into it again."""
    file: bytes
    log: bytes
    journals: list[Journal]
    uploads: list[bytes]
    names: list[str]

    def put(self, trial: Trial) -> str:
        database = trial.database()
        for end, data in (("", self.file), ("-wal", self.log)):
            Path(database + end).write_bytes(data)
        return database


# What it is called, the database, the part and the place in it, and the bytes there; without any it is cut off there.
Damage = tuple[str, Stored, str, int, bytes | None]


def files_of(database: str) -> tuple[bytes, bytes]:
    """The database and its log."""
    return Path(database).read_bytes(), Path(database + "-wal").read_bytes()


def entries_in(text: bytes) -> list[Entry] | None:
    try:
        return list(read_stream(text))
    except Bad:
        return None


def may_be_read(trial: Trial, what: str, stored: Stored, database: str, text: bytes) -> tuple[Journal, str]:
    """The journal that an export of a damaged database shows, if it is one that may be shown."""
    entries = entries_in(text)
    journal = Journal(entries or [])
    trial.expect(f"{what}: a canonical export", (entries is not None, text), (True, journal.text()))
    if any(journal.entries == one.entries for one in stored.journals):
        return journal, "as before"
    trial.expect(f"{what}: keys", sorted(journal.entries), sorted(stored.journals[-1].entries))
    changed = [key for key, entry in journal.entries.items() if stored.journals[-1].entries.get(key) != entry]
    trial.expect(f"{what}: entries that are others", len(changed), 1)
    if IS_HERE:
        trial.expect(f"{what}: the stock sqlite3", stock(trial.copy(database), ROWS), journal.rows())
    return journal, "another value"


def judge(trial: Trial, what: str, stored: Stored, part: str, place: int, new: bytes | None) -> str:
    """Every command over a database with other bytes at a place, or none from there on; answers what became of it."""
    data = getattr(stored, part)
    stored = stored._replace(**{part: data[:place] + (new + data[place + len(new):] if new else b"")})
    database = stored.put(trial)
    exported = run("export", database)
    if exported[2] == 0:
        journal, outcome = may_be_read(trial, what, stored, database, exported[0])
        trial.expect(f"{what}: check", run("check", database), (as_output([f"ok {len(journal.entries)}"]), "", 0))
        goes_on(trial, what, stored, database, journal)
    elif part == "log" and exported == (b"", f"cannot open {database}\n", 3):
        outcome = "no tables"
        goes_on(trial, what, stored, database, Journal())
    else:
        outcome = refused(trial, what, stored, database, exported)
    shutil.rmtree(os.path.dirname(database))
    return outcome


def goes_on(trial: Trial, what: str, stored: Stored, database: str, journal: Journal) -> None:
    """Uploads are collected as over a sound database with this journal."""
    wanted = answers(journal, stored.uploads)
    trial.expect(f"{what}: collect", run("collect", database, *stored.names), wanted)
    trial.expect(f"{what}: export then", run("export", database), (journal.text(), "", 0))


def refused(trial: Trial, what: str, stored: Stored, database: str, exported: Told) -> str:
    """Each command refuses the database as the export does, and nothing is written; answers how."""
    output, errors, status = exported
    is_bad = errors.startswith("bad")
    trial.expect(what, (output, status), (b"", 1 if is_bad else 3))
    trial.expect(f"{what}: {errors}", errors.startswith(REFUSALS), True)
    trial.expect(f"{what}: check", run("check", database), (errors.encode(), "", 1) if is_bad else (b"", errors, 3))
    trial.expect(f"{what}: collect", run("collect", database, *stored.names), exported)
    trial.expect(f"{what}: the file stays", Path(database).read_bytes() == stored.file, True)
    return " ".join(errors.split()[:2])


def flips(what: str, stored: Stored, part: str, stride: int) -> Iterator[Damage]:
    """A byte changed at one place after another. What is made of a place is made when it is tried."""
    data = getattr(stored, part)
    for place in range(0, len(data), stride):
        byte = bytes([data[place] ^ MASKS[place % len(MASKS)]])
        yield f"{what} {place}", stored, part, place, byte


def small(trial: Trial) -> Stored:
    """A closed database of three entries."""
    upload = samples.stream(samples.E1, samples.E2, samples.E3)
    journal = Journal()
    line = journal.take(upload)
    database = trial.database()
    again = [upload, samples.stream(samples.H1)]
    names = trial.put(again)
    trial.expect("a small database", run("collect", database, names[0]), (as_output([line]), "", 0))
    return Stored(*files_of(database), [journal], again, names)


def large(trial: Trial) -> tuple[Stored, Stored]:
    """A database with tables of several pages and such a value, closed; and one that a kill left, all in its log."""
    machine = Machine(trial.dice, 40)
    machine.entries.append(machine.entry(41)._replace(pairs=frozenset({(b"LONG", b"x" * 20_000)})))
    uploads = [machine.stream(0, 10), machine.stream(10, 30), machine.stream(30, 41)]
    names = trial.put(uploads)
    journal = Journal()
    journals = [journal.copy()]
    lines = []
    for upload in uploads:
        lines.append(journal.take(upload))
        journals.append(journal.copy())
    database = trial.database()
    with start("collect", database, *names, "/dev/stdin", stdin=subprocess.PIPE) as process:
        told = [process.stdout.readline() for _ in uploads]
        process.kill()
    trial.expect("a large database", b"".join(told), as_output(lines))
    killed = Stored(*files_of(database), journals, uploads, names)
    again = [journal.copy().take(upload) for upload in uploads]
    trial.expect("a large database, closed", run("collect", database, *names), (as_output(again), "", 0))
    return Stored(*files_of(database), journals[-1:], uploads, names), killed


def page_damage(dice: random.Random, stored: Stored) -> Iterator[Damage]:
    """A page emptied, filled, put in the place of another, and the file cut off within it."""
    data = stored.file
    for first in range(0, len(data), PAGE):
        other = dice.randrange(len(data) // PAGE) * PAGE
        yield f"page at {first} emptied", stored, "file", first, bytes(PAGE)
        yield f"page at {first} filled", stored, "file", first, dice.randbytes(PAGE)
        yield f"page at {first} from {other}", stored, "file", first, data[other:other + PAGE]
        for more in (100, 512, 4095):
            yield f"cut to {first + more}", stored, "file", first + more, None


def main() -> None:
    with Trial("damaged databases") as trial, ThreadPoolExecutor(os.cpu_count()) as pool:
        few, (many, killed) = small(trial), large(trial)
        cases = [*flips("byte", few, "file", STRIDE), *flips("byte of many", many, "file", LARGE_STRIDE),
                 *flips("byte of the log", killed, "log", LOG_STRIDE), *page_damage(trial.dice, many)]
        outcomes = collections.Counter(pool.map(lambda case: judge(trial, *case), cases))
        told = ", ".join(f"{count} times '{outcome}'" for outcome, count in outcomes.most_common())
        print("damaged databases:", told)
        trial.finish(f"{len(cases)} kinds of damage")


if __name__ == "__main__":
    main()
