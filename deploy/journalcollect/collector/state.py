"""What the service knows and what has to outlive it, in one SQLite file, which others may read.

All of it can be made anew of the databases, the notes and the keys, but for when each machine was seen last.
"""
import contextlib
import hashlib
import sqlite3
import sys
import threading
import time
from collections.abc import Iterator
from dataclasses import astuple, dataclass
from pathlib import Path
from typing import Any, NamedTuple

from ..common import files
from .databases import Summary
from .settings import Folder

SCHEMA = """
CREATE TABLE IF NOT EXISTS database(id INTEGER PRIMARY KEY, name TEXT NOT NULL UNIQUE, standing TEXT NOT NULL,
    finished REAL, age REAL, first INTEGER, last INTEGER, entries INTEGER, bytes INTEGER, digest TEXT, packed INTEGER,
    checked REAL);
CREATE INDEX IF NOT EXISTS old ON database(standing, age);
CREATE INDEX IF NOT EXISTS unchecked ON database(standing, checked);
CREATE INDEX IF NOT EXISTS unpacked ON database(standing, age) WHERE packed IS NULL;
CREATE TABLE IF NOT EXISTS machine(name TEXT PRIMARY KEY, seen REAL, stored REAL, entries INTEGER, refused INTEGER,
    skew REAL, day TEXT, bytes INTEGER, windows INTEGER) WITHOUT ROWID;
CREATE TABLE IF NOT EXISTS sequence(id TEXT, machine TEXT, PRIMARY KEY(id, machine)) WITHOUT ROWID;
CREATE TABLE IF NOT EXISTS noted(sequence TEXT, window INTEGER, notes INTEGER, sum TEXT, written INTEGER, age REAL,
    first INTEGER, last INTEGER, PRIMARY KEY(sequence, window)) WITHOUT ROWID;
CREATE TABLE IF NOT EXISTS told(cause TEXT PRIMARY KEY, text TEXT, first REAL, last REAL, count INTEGER) WITHOUT ROWID;
CREATE TABLE IF NOT EXISTS clock(one INTEGER PRIMARY KEY CHECK(one = 1), days REAL, boot TEXT, running REAL, wall REAL,
    uncounted REAL);
"""
DAY = 86400.0
TOLD_AGAIN, TOLD_SECONDS = DAY, 7 * DAY
# While nothing comes, the age is written so often.
IDLE_DAYS = 60 / DAY
BOOT_ID = Path("/proc/sys/kernel/random/boot_id")


def log(text: str) -> None:
    print(text, file=sys.stderr, flush=True)


@dataclass
class Machine:
    """What is known of a machine: when it was seen and something new of it stored, how many entries were, how many
    uploads were refused, by how many seconds its clock goes ahead; and the bytes and new files of notes of a day."""
    name: str
    seen: float = 0.0
    stored: float = 0.0
    entries: int = 0
    refused: int = 0
    skew: float = 0.0
    day: str = ""
    bytes: int = 0
    windows: int = 0


@dataclass
class Told:
    """A cause that people were told of: the words, when it was so first and last, and how often."""
    cause: str
    text: str
    first: float
    last: float
    count: int


class Window(NamedTuple):
    """A window's notes of finished databases: how many, their digest, and when its file was written before that."""
    sequence: str
    window: int
    notes: int
    sum: str
    written: int


class Age(NamedTuple):
    """For how many days the collector ran, at which moment: what is deleted in time goes by these, so that no clock
    deletes anything. They grow by the clock that counts while the computer runs, within one start of it. By so many
    more the clock of the day went on, which may be wrong: they don't count until a person says that they went by."""
    days: float
    boot: str
    running: float
    wall: float
    uncounted: float = 0.0

    @classmethod
    def now(cls) -> "Age":
        return cls(0.0, BOOT_ID.read_text().strip(), time.clock_gettime(time.CLOCK_MONOTONIC_RAW), time.time())

    def grown(self) -> "Age":
        now = Age.now()
        ran = max(0.0, now.running - self.running) if now.boot == self.boot else 0.0
        return now._replace(days=self.days + ran / DAY,
                            uncounted=max(0.0, self.uncounted + (now.wall - self.wall - ran) / DAY))

    def passed(self, days: float) -> "Age":
        """The age, if a person says that days went by that weren't counted."""
        return self._replace(days=self.days + days, uncounted=self.uncounted - days)


class State:
    """The file, and what is kept in memory of it. Every thread may ask."""

    def __init__(self, folder: Folder) -> None:
        self.folder, self.lock, self.rows_lock = folder, threading.Lock(), threading.RLock()
        try:
            self.open()
        except sqlite3.DatabaseError as error:
            if not files.is_damaged(error):
                raise
            log(f"{folder.state}: {error}: it is put aside, and made anew")
            self.rows.close()
            files.move(folder.state, folder.quarantine / f"state.sqlite-{time.time_ns()}")
            self.open()

    def open(self) -> None:
        self.rows = sqlite3.connect(self.folder.state, isolation_level=None, check_same_thread=False, timeout=30.0)
        self.folder.state.chmod(0o640)
        self.rows.executescript("PRAGMA synchronous=NORMAL;" + SCHEMA)
        if self.rows.execute("PRAGMA quick_check").fetchone() != ("ok",):
            raise sqlite3.DatabaseError("it is damaged")
        self.machines = {row[0]: Machine(*row) for row in self.rows.execute("SELECT * FROM machine")}
        self.told = {row[0]: Told(*row) for row in self.rows.execute("SELECT * FROM told")}
        self.is_changed = False
        found = self.rows.execute("SELECT days, boot, running, wall, uncounted FROM clock").fetchone()
        self.age = Age(*found) if found else Age.now()

    def ask(self, text: str, *values: Any) -> list[Any]:
        with self.rows_lock:
            return self.rows.execute(text, values).fetchall()

    @contextlib.contextmanager
    def transaction(self) -> Iterator[None]:
        """What is changed meanwhile is changed at once, or not at all."""
        with self.rows_lock, self.rows:
            self.rows.execute("BEGIN IMMEDIATE")
            yield

    def flush(self) -> None:
        """Writes what is in memory alone, if it changed, and the age. That it can't be written costs no answer."""
        age = self.age.grown()
        with self.lock:
            if not self.is_changed and age.days - self.age.days < IDLE_DAYS:
                return
            self.age, self.is_changed = age, False
            machines = [astuple(each) for each in list(self.machines.values())]
            self.told = {cause: each for cause, each in self.told.items() if time.time() - each.last < TOLD_SECONDS}
            told = [astuple(each) for each in self.told.values()]
        try:
            with self.transaction():
                self.ask("DELETE FROM told")
                self.rows.executemany("INSERT OR REPLACE INTO machine VALUES(?, ?, ?, ?, ?, ?, ?, ?, ?)", machines)
                self.rows.executemany("INSERT INTO told VALUES(?, ?, ?, ?, ?)", told)
                self.ask("INSERT OR REPLACE INTO clock VALUES(1, ?, ?, ?, ?, ?)", *age)
            self.over("state")
        except sqlite3.Error as error:
            self.tell("state", f"{self.folder.state} can't be written: {error}: look at its disk")

    def tell(self, cause: str, text: str) -> None:
        """Tells people of a cause once a day; it is in the table as long as it is so, and a week longer."""
        now = time.time()
        with self.lock:
            known = self.told.get(cause)
            if known is None or now - known.first > TOLD_AGAIN:
                log(text)
                known = self.told[cause] = Told(cause, text, now, now, 0)
            known.text, known.last, known.count, self.is_changed = text, now, known.count + 1, True

    def over(self, cause: str) -> None:
        with self.lock:
            if self.told.pop(cause, None):
                self.is_changed = True
                log(f"over: {cause}")

    def machine(self, name: str) -> Machine:
        """What is known of a machine, of today; whoever changes it says so by `saw`."""
        today = time.strftime("%Y-%m-%d", time.gmtime())
        found = self.machines.setdefault(name, Machine(name))
        if found.day != today:
            found.day, found.bytes, found.windows = today, 0, 0
        return found

    def saw(self, name: str) -> Machine:
        with self.lock:
            found = self.machine(name)
            found.seen, self.is_changed = time.time(), True
            return found

    def rename(self, old: str, new: str) -> None:
        with self.transaction():
            self.ask("UPDATE OR REPLACE machine SET name = ? WHERE name = ?", new, old)
            self.ask("UPDATE OR IGNORE sequence SET machine = ? WHERE machine = ?", new, old)
            self.ask("DELETE FROM sequence WHERE machine = ?", old)
        with self.lock:
            if found := self.machines.pop(old, None):
                found.name, self.machines[new], self.is_changed = new, found, True

    def is_known(self, name: str) -> bool:
        return bool(self.ask("SELECT 1 FROM database WHERE name = ?", name))

    def names(self, standing: str = "finished") -> list[str]:
        """The databases that stand so, in the order in which they were finished."""
        return [name for name, in self.ask("SELECT name FROM database WHERE standing = ? ORDER BY id", standing)]

    def stands(self, name: str, standing: str) -> None:
        self.ask("INSERT INTO database(name, standing) VALUES(?1, ?2) "
                 "ON CONFLICT(name) DO UPDATE SET standing = ?2", name, standing)

    def finished(self, name: str, had: Summary, windows: list[Window], owners: dict[str, str]) -> None:
        """A database was finished: what it has, how its windows are now, and whose its sequences are."""
        age = self.age.grown().days
        with self.transaction():
            self.ask("DELETE FROM database WHERE name = ?", name)
            (number,), = self.ask(
                "INSERT INTO database(name, standing, finished, age, checked, first, last, entries, bytes, digest, "
                "packed) VALUES(?1, 'finished', ?2, ?3, ?3, ?4, ?5, ?6, ?7, ?8, ?9) RETURNING id", name, time.time(),
                age, had.first, had.last, had.entries, had.bytes, had.digest, had.packed)
            for each in windows:
                self.ask("INSERT INTO noted VALUES(?1, ?2, ?3, ?4, ?5, ?6, ?7, ?7) ON CONFLICT DO UPDATE SET "
                         "notes = ?3, sum = ?4, written = ?5, age = ?6, last = ?7", *each, age, number)
            for sequence in {each.sequence for each in windows} & owners.keys():
                self.ask("INSERT OR IGNORE INTO sequence VALUES(?, ?)", sequence, owners[sequence])
                self.ask("DELETE FROM sequence WHERE id = ? AND machine = ''", sequence)

    def came_with(self, sequence: str) -> set[str]:
        """The machines with which entries of a sequence came; an empty name among them if it was released."""
        return {machine for machine, in self.ask("SELECT machine FROM sequence WHERE id = ?", sequence)}

    def head(self, day: str) -> str | None:
        """The digest over the digests of all databases that were begun on a day (UTC); None if there are none. It is
        that of the files NAME.db.sha256 one after the other: `cat 2026-12-01T*.db.sha256 | sha256sum`. Machines keep
        what they are told: whoever changes a database later, and all that is known here, has that against him."""
        found = self.ask("SELECT name, digest FROM database WHERE name > ?1 || 'T' AND name < ?1 || 'U' "
                         "AND digest IS NOT NULL ORDER BY name", day)
        text = "".join(f"{digest}  {name}.db\n" for name, digest in found)
        return hashlib.sha256(text.encode("ascii")).hexdigest() if found else None

    def windows(self) -> Iterator[Window]:
        """All windows, some at a time: there may be many."""
        last = ("", -1)
        while rows := self.ask("SELECT sequence, window, notes, sum, written FROM noted "
                               "WHERE (sequence, window) > (?, ?) ORDER BY sequence, window LIMIT 1000", *last):
            yield from (Window(*row) for row in rows)
            last = rows[-1][:2]

    def notes_of(self, sequence: str, window: int) -> int:
        """How many notes of finished databases a window has."""
        return int(self.ask("SELECT total(notes) FROM noted WHERE sequence = ? AND window = ?", sequence, window)[0][0])

    def forget(self) -> None:
        """Nothing is known any more of what databases have; what was deleted or moved away stays so."""
        with self.transaction():
            self.ask("DELETE FROM database WHERE standing NOT IN ('deleted', 'moved')")
            self.ask("DELETE FROM noted")
