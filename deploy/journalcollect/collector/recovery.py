"""What becomes of a database that nobody stores in any more: it is sealed and known, or set aside.

What a stop or a failure left is taken up here. All of it is called while no process of the program stores.
"""
import contextlib
import hashlib
import threading
import time
from collections.abc import Iterator
from pathlib import Path

from ..common import files, program
from ..common.settings import FOLDER
from ..reading.present import Present
from ..setup import keys
from . import databases
from .notes import UNMADE, Notes
from .process import WINDOW, Process
from .settings import Settings
from .state import State, log

TRIES, REFUSED = 5, 1


class Recovery:
    def __init__(self, settings: Settings, state: State, lock: int, present: Present) -> None:
        self.settings, self.state, self.lock, self.present = settings, state, lock, present
        self.folder, self.stops = state.folder, threading.Event()
        self.notes = Notes(state, lock, self.stops)

    def seal(self, path: Path) -> None:
        """A closed database gets its digest; its uploads needn't be kept any more. One with nothing goes."""
        if databases.has_nothing(path):
            databases.delete(self.folder, path.stem)
        else:
            self.adopt(path.stem, databases.finish(path))
        self.present.turn(path.stem)

    def adopt(self, name: str, digest: str, is_alone: bool = True) -> None:
        """A database that has its digest is known from now on. If it is alone, all notes are those of finished ones."""
        try:
            had = databases.summary(self.folder, name, digest)
        except (databases.Damaged, files.Unreadable) as error:
            self.state.stands(name, "damaged")
            self.state.tell(f"damaged {name}", f"{error}: restore it from a backup")
            return
        if not had.entries:
            return databases.delete(self.folder, name)
        windows = [self.notes.measured(*each, self.state.notes_of(*each) + new) for each, new in had.windows.items()]
        sequences = {each.sequence for each in windows}
        is_lacking = any("" in (known := self.state.came_with(each)) or not known for each in sequences)
        owners = self.owners() if is_lacking else {}
        self.state.finished(name, had, windows, owners)
        log(f"finished: {name} with {had.entries} entries")
        if is_alone:
            self.notes.make_anew(self.notes.unlike(windows), "it has other notes than databases have entries")

    def owners(self) -> dict[str, str]:
        """Whose each sequence is, by name, as far as the machine is known."""
        known = {*keys.machines(FOLDER), *self.state.machines}
        digests = {hashlib.sha256(name.encode("ascii")).hexdigest(): name for name in known}
        found = program.owners(self.folder.sequences)
        return {sequence: digests[digest] for sequence, digest in found.items() if digest in digests}

    def start(self) -> None:
        """What is there, and what is known, are made to agree: databases, and how long files of notes are."""
        there = {path.name.removesuffix(".zst").removesuffix(".db") for path in self.folder.databases.iterdir()
                 if path.name.endswith((".db", ".db.zst"))}
        for name in there.intersection(self.state.names("deleted")):
            databases.delete(self.folder, name)
        finished, gone = set(self.state.names()), {*self.state.names("deleted"), *self.state.names("moved")}
        for name in sorted(there - finished - gone):
            if digest := databases.told_digest(databases.path_of(self.folder, name)):
                if self.state.is_known(name):
                    self.notes.note(name)
                self.adopt(name, digest, is_alone=False)
        for name in sorted(finished - there):
            self.missing(name)
        self.notes.make_anew(self.notes.lost(), "it isn't as it was")

    def missing(self, name: str) -> None:
        """A database is gone that nobody deleted or moved: what it had isn't acknowledged any more."""
        self.state.tell(f"missing {name}", f"{name} is missing: what it had isn't acknowledged any more, and is stored "
                        "if its machine has it still; restore it from a backup")
        windows = self.state.ask("UPDATE noted SET sum = ? FROM database WHERE name = ? AND database.id BETWEEN "
                                 "noted.first AND noted.last RETURNING sequence, window", UNMADE, name)
        self.state.stands(name, "missing")
        self.notes.make_anew(windows, f"{name}, which it notes, is missing")

    def rebuild(self) -> None:
        """Makes all anew that is known of databases, and all notes but whose each sequence is."""
        for path in list(self.notes.files()):
            path.unlink()
        self.state.forget()
        for name in sorted(databases.finished(self.folder)):
            self.notes.note(name)
            self.adopt(name, databases.told_digest(databases.path_of(self.folder, name)) or "")

    def recover(self, path: Path) -> list[tuple[str, Path]]:
        """Takes up a database; if it has to be set aside, the uploads to be stored again, with their machines."""
        try:
            fault = self.take_up(path)
        except files.Unreadable as error:
            fault = str(error)
        return self.quarantine(path, fault) if fault else []

    def take_up(self, path: Path) -> str | None:
        """Why a database has to be set aside; None if it is sealed."""
        if path.stem in self.state.names("quarantined"):
            return "it was to be set aside"
        if databases.has_nothing(path):
            self.seal(path)
            return None
        databases.own(path)
        for _ in range(TRIES):
            process = Process(self.folder, path, self.lock, "/dev/null")
            status = process.finish(self.stops)
            if status == 0:
                self.seal(path)
                return None
            if self.stops.is_set():
                raise databases.Unrecovered("the service stops")
            is_mended = self.mend(process.said())
            if status == REFUSED and not is_mended:
                break
            time.sleep(0.0 if is_mended else 1.0)
        if status != REFUSED and (why := self.folder.room(self.settings)):
            raise databases.Unrecovered(why)
        return process.said() or f"status {status}"

    def mend(self, said: str) -> bool:
        """What failed may be a file of notes, and no fault of the database: whether one was made anew."""
        bad = {(sequence, int(window)) for sequence, window in WINDOW.findall(said)}.union(self.notes.lost())
        self.notes.make_anew(bad, "it can't be read, or isn't as it was")
        return bool(bad)

    def quarantine(self, path: Path, why: str) -> list[tuple[str, Path]]:
        """A database that can't be opened is set aside, and the notes forget what it had. Its uploads come again."""
        for each in (databases.beside(path), path):
            with contextlib.suppress(FileNotFoundError), self.left(each):
                files.move(each, self.folder.quarantine / each.name)
        self.state.stands(path.stem, "quarantined")
        self.state.tell(f"quarantined {path.stem}", f"{path.name} can't be opened, and is set aside in "
                        f"{self.folder.quarantine}: {why}: look at the disk; its uploads are stored again")
        self.notes.forget()
        return self.uploads(path.stem)

    @contextlib.contextmanager
    def left(self, path: Path) -> Iterator[None]:
        """What the disk can't read is told, and stays where it is until a start at which it can be read."""
        try:
            with files.reading():
                yield
        except files.Unreadable as error:
            self.state.tell(f"unreadable {path}", f"{error}: what was acknowledged of it may be missing: stop the "
                            "service, let fsck mend the disk, and start it")

    def uploads(self, name: str) -> list[tuple[str, Path]]:
        """The uploads that were stored in a database that isn't finished, with their machines, in order."""
        folder, found = self.folder.recent / name, list[tuple[str, Path]]()
        with self.left(folder):
            for path in sorted(folder.glob("*.*")):
                with self.left(path), files.opened(path):
                    found.append((path.name.partition(".")[2], path))
        return found

    def again(self) -> list[tuple[str, Path]]:
        """The uploads of databases that were set aside which aren't all stored again yet; those of others go."""
        quarantined = set(self.state.names("quarantined"))
        uploads = []
        for folder in sorted(self.folder.recent.iterdir()):
            if folder.name in quarantined or not self.state.is_known(folder.name):
                uploads += self.uploads(folder.name)
            else:
                self.present.turn(folder.name)
        return uploads
