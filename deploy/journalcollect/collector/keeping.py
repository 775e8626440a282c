"""What is done now and then beside storing: old databases go, and finished ones are packed and looked at."""
import os
import subprocess
import threading
import time

from ..common import program
from ..reading import remote
from ..reading.places import Places
from . import databases
from .settings import Settings
from .state import log
from .store import Store

ROUND_SECONDS = 30.0
# A look at a database is followed by so many times as long of rest: all takes a fourth of a processor at most.
REST = 3.0


class Keeping(threading.Thread):
    def __init__(self, settings: Settings, store: Store) -> None:
        super().__init__(name="keeping", daemon=True)
        self.settings, self.store = settings, store
        self.folder, self.state, self.notes = store.folder, store.state, store.recovery.notes
        self.notes_day = int(store.state.age.days)

    def run(self) -> None:
        self.store.is_begun.wait()
        rest = 0.0
        while not self.store.stops.wait(rest):
            rest = ROUND_SECONDS
            try:
                self.round()
                self.state.over("keeping")
            except Exception as error:
                self.state.tell("keeping", f"old databases, packing and checks: {error}")

    def round(self) -> None:
        age = self.state.age.grown()
        if age.uncounted >= 1:
            self.state.tell("days", f"by the clock {age.uncounted:.0f} days more went by than the collector ran: they "
                            f"don't count. If they went by: journal-collect-admin passed {int(age.uncounted)}")
        if not self.folder.is_roomy(self.settings):
            self.drop_journals()
        if (lock := self.folder.locked("backup.lock")) is not None:
            try:
                self.delete_old(age.days)
                self.pack(age.days)
            finally:
                os.close(lock)
        if int(age.days) != self.notes_day:
            self.notes_day = int(age.days)
            self.mend_notes(REST)
        self.check_databases(age.days - 1)

    def drop_journals(self) -> None:
        """Journal files go, of the oldest days first, until there is room. That they were made stays known."""
        places, finished = Places(self.folder.path), set(databases.finished(self.folder))
        for path in sorted(places.journals.glob("[!.]*/*.journal")):
            if self.folder.is_roomy(self.settings):
                break
            if path.parent != places.present or remote.stem(path) in finished:
                path.unlink(missing_ok=True)
        self.state.tell("journals", "not twice FREE_BYTES were free: no journal files were made, and the oldest went: "
                        "make room; then journal-collect-admin rebuild --journals")

    def delete_old(self, age: float) -> None:
        """Databases go KEEP_DAYS after they were finished, and the oldest if all have over KEEP_BYTES."""
        for name, since in self.state.ask("SELECT name, age FROM database WHERE standing = 'finished' AND age < ? "
                                          "ORDER BY id", age - self.settings.keep_days):
            self.delete(name, f"{age - since:.1f} days after it was finished")
        if self.settings.keep_bytes:
            for name, in self.state.ask(
                    "SELECT name FROM (SELECT id, name, sum(coalesce(packed, bytes)) OVER (ORDER BY id DESC) AS total "
                    "FROM database WHERE standing = 'finished') WHERE total > ? ORDER BY id", self.settings.keep_bytes):
                self.delete(name, "as all have over KEEP_BYTES")

    def delete(self, name: str, why: str) -> None:
        with self.store.notes:
            self.state.stands(name, "deleted")
            databases.delete(self.folder, name)
        log(f"deleted: {name}, {why}")

    def pack(self, age: float) -> None:
        """Finished databases are packed PACK_DAYS after, once journal files are made of them."""
        due = self.state.ask("SELECT name, digest FROM database WHERE standing = 'finished' AND packed IS NULL "
                             "AND age < ? ORDER BY id", age - self.settings.pack_days)
        shown = Places(self.folder.path).made() if due else {}
        for name, digest in due:
            if self.store.stops.is_set():
                return
            if name not in shown and self.folder.is_roomy(self.settings):
                continue
            try:
                size = databases.pack(databases.path_of(self.folder, name), digest)
            except (databases.Damaged, OSError, subprocess.SubprocessError):
                if not self.check(name):
                    raise
                continue
            self.state.ask("UPDATE database SET packed = ? WHERE name = ?", size, name)

    def mend_notes(self, rest: float = 0.0) -> list[str]:
        """Makes notes anew that aren't what they were; which. Done once a day of the collector."""
        self.look_at_owners()
        bad = sorted({*self.notes.lost(), *self.notes.changed(rest)})
        if bad:
            self.store.alone(lambda: self.notes.make_anew(bad, "it isn't as it was"))
        return [f"{sequence}/{window}" for sequence, window in bad]

    def look_at_owners(self) -> None:
        """Whose a sequence is stands in its notes alone, and can't be made anew: the next that comes has it."""
        known = dict(self.state.ask("SELECT id, machine FROM sequence GROUP BY id HAVING count(*) = 1"))
        if gone := sorted(known.keys() - program.owners(self.folder.sequences).keys()):
            self.state.tell("owners", f"whose sequences are isn't noted any more, as {known[gone[0]]}'s {gone[0]}, of "
                            f"{len(gone)}: {self.folder.sequences} was damaged: put it back from a backup")

    def check_databases(self, last: float) -> None:
        """Looks at each database that wasn't looked at since an age."""
        for name, in self.state.ask("SELECT name FROM database WHERE standing = 'finished' AND checked < ? "
                                    "ORDER BY checked", last):
            begun = time.monotonic()
            self.check(name)
            if self.store.stops.wait(REST * (time.monotonic() - begun)):
                return

    def check(self, name: str) -> str | None:
        """Looks whether a finished database is as it was, and agrees with its notes: what is wrong, which is told."""
        if fault := self.fault(name):
            with self.store.notes:                     # nothing goes or is made anew meanwhile
                fault = self.fault(name)
        if fault:
            self.state.tell(f"damaged {name}", f"{fault}: restore it from a backup")
        else:
            self.state.over(f"damaged {name}")
        self.state.ask("UPDATE database SET checked = ? WHERE name = ?", self.state.age.grown().days, name)
        return fault

    def fault(self, name: str) -> str | None:
        path, found = databases.path_of(self.folder, name), self.state.ask(
            "SELECT digest FROM database WHERE name = ? AND standing = 'finished'", name)
        if not found:
            return None
        digest, = found[0]
        try:
            with databases.unpacked(self.folder, name) as copy:
                if databases.digest_of(copy) != digest:
                    return f"{path} isn't as it was finished"
                if databases.told_digest(path) != digest:
                    return f"{databases.beside(path, '.sha256')} isn't as it was finished"
                if differs := program.differs(self.folder.sequences, copy):
                    return f"{path} differs from what is noted of it: {differs}"
        except (OSError, databases.Damaged) as error:
            return str(error)
        return None
