"""The files of notes, sequences/SEQUENCE/WINDOW: whether each is as it was when its databases were finished.

The program alone writes notes, and says what they are. Here is known that a file is a row of blocks of 41 bytes with
one byte behind them, that it is only added to, and that it has the notes of one database after the other. So what
finished databases were noted in is told by a number of notes and a digest of their bytes, and they are made anew by
opening databases.
"""
import contextlib
import hashlib
import shutil
import stat
import threading
import time
from collections import OrderedDict
from collections.abc import Iterable, Iterator
from pathlib import Path

from ..common import files, program
from ..common.protocol import WINDOW
from . import databases
from .process import Process
from .state import State, Window, log

# A note's bytes, the first of which says that it is one. What is a machine's is noted in a window of its own.
NOTE, OPEN, OWNED = 41, b"\1", str(2**63 // WINDOW)
# In place of the digest of a window that has to be made anew.
UNMADE = ""
# The program notes all once so many notes wait, and each upload with something new has one: so the latest are enough.
MOST_UNNOTED = 50_000

Name = tuple[str, int]


class Notes:
    """The notes of a collector. What changes them is called only while no process of the program stores."""

    def __init__(self, state: State, lock: int, stops: threading.Event) -> None:
        self.folder, self.state, self.lock, self.stops = state.folder, state, lock, stops

    def path(self, sequence: str, window: int) -> Path:
        return self.folder.sequences / sequence / str(window)

    def measured(self, sequence: str, window: int, notes: int) -> Window:
        """A window that ought to have so many notes of finished databases, as it is. It has no digest if it has less,
        or if a gate is closed before the last one."""
        data, (size, written) = b"", self.looked_at(sequence, window)
        with contextlib.suppress(OSError):
            if size >= 0:
                with open(self.path(sequence, window), "rb") as file:
                    data = file.read(NOTE * notes)
        is_whole = len(data) == NOTE * notes and data[::NOTE] == OPEN * notes
        return Window(sequence, window, notes, hashlib.sha256(data).hexdigest() if is_whole else UNMADE, written)

    def looked_at(self, sequence: str, window: int) -> tuple[int, int]:
        """How many bytes the file of a window has, and when it was written to; -1 if it is none."""
        with contextlib.suppress(OSError):
            told = self.path(sequence, window).lstat()
            if stat.S_ISREG(told.st_mode):
                return told.st_size, told.st_mtime_ns
        return -1, -1

    def size(self, sequence: str, window: int) -> int:
        return self.looked_at(sequence, window)[0]

    def unlike(self, windows: Iterable[Window]) -> list[Name]:
        """The windows with other notes than finished databases have entries, asked while no other one is there."""
        return [(each.sequence, each.window) for each in windows
                if each.sum == UNMADE or self.size(each.sequence, each.window) != NOTE * each.notes + 1]

    def lost(self) -> list[Name]:
        """The windows that are gone, cut or overwritten, or were being made anew when that was stopped. Only those are
        read that were written to since: what the program adds isn't in their digests yet."""
        found = []
        for each in self.state.windows():
            size, written = self.looked_at(each.sequence, each.window)
            if each.sum == UNMADE or size < NOTE * each.notes or written != each.written and self.is_changed(each):
                found.append((each.sequence, each.window))
        return found

    def is_changed(self, window: Window) -> bool:
        """Whether what finished databases were noted in isn't what it was."""
        return self.measured(window.sequence, window.window, window.notes).sum != window.sum

    def changed(self, rest: float) -> list[Name]:
        """The windows whose bytes aren't what they were; after each there is so many times as long of rest."""
        found = []
        for each in self.state.windows():
            begun = time.monotonic()
            # it may have gone for its age meanwhile, or have been made anew
            if self.is_changed(each) and self.state.ask(
                    "SELECT 1 FROM noted WHERE sequence = ? AND window = ? AND notes = ? AND sum = ?", *each[:4]):
                found.append((each.sequence, each.window))
            if self.stops.wait(rest * (time.monotonic() - begun)):
                return []
        return found

    def forget(self) -> None:
        """Only notes of finished databases stay, which stand first in each file."""
        found = {(path.parent.name, int(path.name)) for path in self.files()}
        known = [(*name, self.state.notes_of(*name)) for name in found]
        if more := [each for each in known if self.size(*each[:2]) > NOTE * each[2] + 1]:
            program.forget_after(self.folder.sequences, more)

    def files(self) -> Iterator[Path]:
        """All files of notes but those that say whose a sequence is."""
        return (path for path in self.folder.sequences.glob("*/*")
                if path.name.isascii() and path.name.isdigit() and path.name != OWNED)

    def make_anew(self, names: Iterable[Name], why: str) -> None:
        """Windows that aren't as they were are put aside, and made anew of the databases that were noted in them. If
        that is stopped, nothing is stored until it is done: they have no digest until then."""
        if not (names := sorted(names)):
            return
        others = f", and so are {len(names) - 1} others" if len(names) > 1 else ""
        first, wanted = self.path(*names[0]), dict[int, str]()
        self.state.tell(f"notes {first}", f"{first}: {why}: it is put aside, and made anew of databases{others}")
        with self.state.transaction():
            for name in names:
                self.state.ask("UPDATE noted SET sum = ? WHERE sequence = ? AND window = ?", UNMADE, *name)
        for name in names:
            path = self.path(*name)
            if path.is_symlink() or path.exists():
                files.move(path, self.folder.quarantine / f"notes-{name[0]}-{name[1]}-{time.time_ns()}")
            wanted |= self.state.ask("SELECT database.id, name FROM noted JOIN database ON database.id BETWEEN "
                                     "noted.first AND noted.last WHERE sequence = ? AND window = ? "
                                     "AND standing = 'finished'", *name)
        for _, database in sorted(wanted.items()):
            self.note(database)
        for name in names:
            notes = max(0, self.size(*name) // NOTE)
            made = self.measured(*name, notes)
            self.state.ask("UPDATE noted SET notes = ?, sum = ?, written = ? WHERE sequence = ? AND window = ?",
                           notes, made.sum, made.written, *name)

    def note(self, database: str) -> None:
        """Notes what a finished database has, and isn't noted."""
        try:
            with databases.unpacked(self.folder, database) as copy:
                process = Process(self.folder, copy, self.lock, "/dev/null")
                status, said = process.finish(self.stops), process.said()
        except databases.Damaged as error:
            status, said = program.REFUSED, str(error)
        if status not in (program.OK, program.REFUSED):
            why = "the service stops" if self.stops.is_set() else said or f"status {status}"
            raise databases.Unrecovered(f"{database} isn't noted: {why}")
        if status:
            self.state.stands(database, "damaged")
            self.state.tell(f"damaged {database}", f"{database} can't be noted: {said}: restore it from a backup")

    def expire(self, age: float) -> None:
        """The windows go in which nothing was noted since an age, and with the last one of a sequence whose it is."""
        old = self.state.ask("SELECT sequence, window FROM noted WHERE age < ?", age)
        for sequence, window in old:
            self.path(sequence, window).unlink(missing_ok=True)
            self.state.ask("DELETE FROM noted WHERE sequence = ? AND window = ?", sequence, window)
        for sequence in {sequence for sequence, _ in old}:
            folder = self.folder.sequences / sequence
            if [path.name for path in folder.glob("*") if path.name.isdigit()] == [OWNED]:
                shutil.rmtree(folder)
                self.state.ask("DELETE FROM sequence WHERE id = ?", sequence)
        if old:
            log(f"notes of {len(old)} windows went, their days are over")


class Unnoted:
    """Keys, or windows, by the machines that brought them since the present database began. They may be in no file of
    notes yet: the program notes what it stores as it ends its database. Every thread may ask."""

    def __init__(self) -> None:
        self.lock, self.count = threading.Lock(), 0
        self.machines: dict[str, OrderedDict[Name, None]] = {}

    def __len__(self) -> int:
        return self.count

    def add(self, machine: str, sequence: str, number: int) -> bool:
        """Whether it wasn't there. If there are too many, the machine with the most loses its oldest, and no other."""
        with self.lock:
            there = self.machines.setdefault(machine, OrderedDict())
            if (sequence, number) in there:
                return False
            there[sequence, number] = None
            if self.count < MOST_UNNOTED:
                self.count += 1
            else:
                max(self.machines.values(), key=len).popitem(last=False)
            return True

    def has(self, machine: str, sequence: str, number: int) -> bool:
        with self.lock:
            return (sequence, number) in self.machines.get(machine, {})

    def forget(self) -> None:
        with self.lock:
            self.machines.clear()
            self.count = 0
