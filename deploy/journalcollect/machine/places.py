"""How far each journal file went, forks, and what else a machine keeps: the file places.sqlite.

All of it may be lost: then everything that the journal has goes out once more, which changes nothing at the collector.
So places needn't be on the disk at once; only forks are, before an entry goes out in one, and that all goes once more.

The table `place` has each journal file, `fork` the sequences that go on as others, and since which number; `try` how
often an upload went out in vain, and until when it rests; `machine` the machine-ids that this machine had; `head` the
collector's daily heads, and when each was first told; `told` what somebody has to look at; `value`, by name, the time
that SINCE was (`since`) and that a first list of files was seen (`begun`); what was asked for by hand (`again`,
`answers`); how many bytes of an upload the link carries and how often in a row it was cut (`bound`, `cuts`); how far
the collector's clock was ahead (`skew`); when it answered and acknowledged last (`answered`, `acknowledged`), and why
nothing goes out (`trouble`).
"""
import os
import sqlite3
import time
from collections.abc import Iterable, Sequence
from contextlib import suppress
from dataclasses import astuple, dataclass
from pathlib import Path

from journalcollect.common import files
from journalcollect.common.report import LOOK, Report
from journalcollect.machine.journal import JournalFile, cursor_parts, from_number

VERSION = 1
TABLES = f"""
BEGIN IMMEDIATE;
CREATE TABLE place(file TEXT PRIMARY KEY NOT NULL, sequence TEXT NOT NULL, kind TEXT NOT NULL, number INT NOT NULL,
    cursor TEXT NOT NULL, count INT NOT NULL, tail INT NOT NULL, is_archived INT NOT NULL, since TEXT NOT NULL) STRICT;
CREATE TABLE fork(sequence TEXT NOT NULL, number INT NOT NULL, new TEXT NOT NULL, time INT NOT NULL) STRICT;
CREATE TABLE try(upload INTEGER PRIMARY KEY, count INT NOT NULL, until REAL NOT NULL) STRICT;
CREATE TABLE machine(id TEXT PRIMARY KEY NOT NULL) STRICT;
CREATE TABLE head(time INT NOT NULL, head TEXT NOT NULL) STRICT;
CREATE TABLE told(time INT NOT NULL, status INT NOT NULL, text TEXT NOT NULL) STRICT;
CREATE TABLE value(name TEXT PRIMARY KEY NOT NULL, value TEXT NOT NULL) STRICT;
PRAGMA user_version={VERSION};
COMMIT;
"""
# How often an upload went out in vain, and until when it rests, if it didn't yet; how long one rests at most.
NEVER, LONGEST_REST = (0, 0.0), 300.0


@dataclass
class Place:
    """How far one journal file was gathered: the number and the cursor of the last entry, and how many were seen, or -1
    if it wasn't read from its beginning; its last number when all of it was, and whether it was archived then."""
    file: str
    sequence: str
    kind: str
    number: int = 0
    cursor: str = ""
    count: int = 0
    tail: int = 0
    is_archived: int = 0
    # The time with which its reading begins, if nothing was gathered.
    since: str = ""

    @classmethod
    def first(cls, file: JournalFile, since: str) -> "Place":
        return cls(file.id, file.sequence, file.kind, count=-1 if since else 0, since=since)

    def options(self) -> list[str]:
        """What journalctl takes to show what comes from this place on, and perhaps the entry before it."""
        if self.number:
            return from_number(self.sequence, self.number)
        return [f"--since={self.since}"] if self.since else []

    def is_other(self, file: JournalFile) -> bool:
        """The file has other entries than were gathered: it was set back."""
        return self.number > file.tail or (self.number == file.tail and self.realtime != file.tail_realtime)

    def is_at_end(self, file: JournalFile, is_whole: bool) -> bool:
        """All that the file had when it was opened was shown. Its last number may be one that no entry got, and of a
        time since which nothing was logged nothing is shown."""
        is_nothing = not self.number and bool(self.since)
        return self.number >= file.tail or (is_whole and (is_nothing or self.realtime == file.tail_realtime))

    def see(self, count: int) -> None:
        self.count += count if self.count >= 0 else 0

    @property
    def realtime(self) -> int:
        return cursor_parts(self.cursor)[1]


def newest(folder: Path) -> Path:
    """The file of places that is used, behind those that could neither be read nor moved."""
    return max(folder.glob("places*.sqlite"), default=folder / "places.sqlite")


class Places:
    def __init__(self, folder: Path, report: Report) -> None:
        # One that can't be opened is none, and what is said is noted in it.
        self.path, self.database, self.report = newest(folder), sqlite3.connect(":memory:"), report
        report.note = self.tell
        try:
            self.open()
        except sqlite3.DatabaseError as error:
            if not self.mend(error):
                raise

    def open(self) -> None:
        self.database = sqlite3.connect(self.path)
        self.database.execute("PRAGMA journal_mode=WAL")
        version = self.database.execute("PRAGMA user_version").fetchone()[0]
        if version == 0:
            self.database.executescript(TABLES)
        elif version != VERSION:
            raise sqlite3.DatabaseError(f"its tables are of version {version}, and this program knows {VERSION}")
        if (checked := self.database.execute("PRAGMA quick_check(1)").fetchone()[0]) != "ok":
            raise sqlite3.DatabaseError(checked)
        self.forks: list[tuple[str, int, str]] = self.database.execute(
            "SELECT sequence, number, new FROM fork ORDER BY number, rowid").fetchall()

    def mend(self, error: sqlite3.DatabaseError) -> bool:
        """Puts aside a file that isn't what was made here or can't be read, and begins another; whether it is such."""
        if not (files.is_damaged(error) or self.is_unreadable()):
            return False
        self.database.close()
        old, aside = self.path, self.path.parent / "refused" / f"places-{time.time_ns()}"
        try:
            aside.mkdir(parents=True)
            with files.reading():
                for part in self.parts():
                    files.move(part, aside / part.name)
            told = f"is put aside in {aside}"
        except files.Unreadable:
            with suppress(OSError):
                aside.rmdir()
            self.path = old.with_name(f"places_{time.time_ns()}.sqlite")
            told = f"can't be moved either, so {self.path.name} takes its place"
        self.open()
        self.report.say(LOOK, f"{old} can't be used ({error}), and {told}. What the journal has goes out once more, "
                        "and is stored once")
        return True

    def parts(self) -> list[Path]:
        """The file itself, and what SQLite has beside it."""
        return sorted(self.path.parent.glob(f"{self.path.name}*"))

    def is_unreadable(self) -> bool:
        """The disk can't read something of it any more: by its own word, since of a full disk SQLite says the same."""
        try:
            with files.reading():
                for part in self.parts():
                    part.read_bytes()
        except OSError as error:
            return isinstance(error, files.Unreadable)
        return False

    def do(self, statement: str, rows: Iterable[Sequence[object]] = ((),), is_synced: bool = False) -> None:
        self.database.execute(f"PRAGMA synchronous={'FULL' if is_synced else 'NORMAL'}")
        with self.database:
            self.database.executemany(statement, rows)

    def all(self) -> dict[str, Place]:
        return {row[0]: Place(*row) for row in self.database.execute("SELECT * FROM place")}

    def move(self, places: Iterable[Place]) -> None:
        self.do("INSERT OR REPLACE INTO place VALUES(?, ?, ?, ?, ?, ?, ?, ?, ?)", map(astuple, places))

    def forget(self, places: Iterable[Place]) -> None:
        self.do("DELETE FROM place WHERE file = ?", [[each.file] for each in places])

    def forget_all(self) -> None:
        """What the journal has goes out once more."""
        self.do("DELETE FROM place")
        self.do("DELETE FROM value WHERE name = 'begun'", is_synced=True)

    def go_back(self, since: str) -> None:
        """What the journal has since a time goes out once more."""
        self.do("UPDATE place SET number = 0, cursor = '', count = -1, tail = 0, since = ?", [[since]])
        self.set(again="")

    def forked(self, sequence: str, number: int) -> str:
        """The sequence that an entry goes out in: its own, or the last fork of those that begin nearest before it."""
        for _ in self.forks:
            begun = [new for own, first, new in self.forks if own == sequence and first <= number]
            if not begun:
                break
            sequence = begun[-1]
        return sequence

    def fork(self, sequence: str, number: int) -> str:
        """From this number on a sequence goes on under a new id, or under that with which it does from a later one on.
        The disk has that before anything goes out under it."""
        later = [new for own, first, new in self.forks if own == sequence and first > number]
        new = later[0] if later else os.urandom(16).hex()
        self.do("INSERT INTO fork VALUES(?, ?, ?, ?)", [[sequence, number, new, int(time.time())]], is_synced=True)
        self.forks = sorted([*self.forks, (sequence, number, new)], key=lambda fork: fork[1])
        return new

    def tries(self) -> dict[int, tuple[int, float]]:
        return {upload: (count, until) for upload, count, until in self.database.execute("SELECT * FROM try")}

    def tried(self, upload: int, seconds: float) -> None:
        """An upload went out in vain, and rests, each time for twice as long."""
        count = self.tries().get(upload, NEVER)[0] + 1
        until = time.time() + min(seconds * 2 ** min(count - 1, 12), LONGEST_REST)
        self.do("INSERT OR REPLACE INTO try VALUES(?, ?, ?)", [[upload, count, until]])

    def forget_tries(self, uploads: Iterable[int]) -> None:
        """Only these uploads are there still."""
        self.do("DELETE FROM try WHERE upload = ?", [[each] for each in self.tries().keys() - set(uploads)])

    def value(self, name: str) -> str:
        return str((self.database.execute("SELECT value FROM value WHERE name = ?", [name]).fetchone() or [""])[0])

    def number(self, name: str) -> int:
        """A value that is a number; 0 if it is none."""
        text = self.value(name)
        return int(text) if text.isascii() and text.isdigit() and len(text) < 19 else 0

    def bound(self, most: int) -> int:
        """How many bytes of an upload the link carries, of so many."""
        return min(most, self.number("bound") or most)

    def set(self, **values: object) -> None:
        self.do("INSERT OR REPLACE INTO value VALUES(?, ?)", [(name, str(value)) for name, value in values.items()])

    def is_asked(self) -> bool:
        """Something is to be gathered once more, or answers came by hand."""
        return not self.value("begun") or bool(self.value("again") or self.value("answers"))

    def machines(self) -> list[str]:
        return [row[0] for row in self.database.execute("SELECT id FROM machine")]

    def become(self, machine: str) -> None:
        self.do("INSERT INTO machine VALUES(?)", [[machine]])

    def see_head(self, head: str) -> None:
        if head and self.database.execute("SELECT head FROM head ORDER BY rowid DESC").fetchone() != (head,):
            self.do("INSERT INTO head VALUES(?, ?)", [[int(time.time()), head]])
            self.do("DELETE FROM head WHERE rowid <= (SELECT max(rowid) FROM head) - 400")

    def tell(self, status: int, text: str) -> None:
        """Notes what is said, for `journal-collect-status`; nothing comes of it if it can't be."""
        with suppress(sqlite3.Error):
            self.do("INSERT INTO told VALUES(?, ?, ?)", [[int(time.time()), status, text]])
            self.do("DELETE FROM told WHERE rowid <= (SELECT max(rowid) FROM told) - 50")
