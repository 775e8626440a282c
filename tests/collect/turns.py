"""Databases that take turns, with what is noted of their entries in one folder.

Every line is the one that a single database with all their entries would answer, and each key stands in one of them.
So it is over any uploads of machines that share sequences, over turns, runs that are killed within any call, databases
that are deleted, and notes that are made anew from the databases that are there. A sequence belongs to the machine that
first brought a new entry of it, whatever comes between, until a person says another thing.
"""
from __future__ import annotations

import os
import shutil
import signal
import sys
from pathlib import Path

from brought import NAMES, Brought, Machines, listed
from model import Entry, Journal, read_stream
from note_files import OWNER, Notes, give, lose_notes, noted, notes_of, release
from trial import PROGRAM, Trial, as_output, run, status_of

sys.path.insert(0, os.path.join(os.path.dirname(os.path.abspath(__file__)), "..", "stops"))
import device  # noqa: E402

ROUNDS = int(os.environ.get("ROUNDS", "30"))
STEPS = 25
# Calls that change a file, as device.c names them: the first to be the last, those before an upload, those for each.
CALLS = {"": (1, 30, 18), "o": (1, 4, 14), "l": (15, 20, 3)}
Entries = dict[tuple[bytes, int], Entry]


class Union:
    """Databases, the folder of what is noted, and the journal that they have together."""

    def __init__(self, trial: Trial, what: str) -> None:
        self.trial, self.dice, self.what = trial, trial.dice, what
        self.base = trial.folder()
        self.sequences = os.path.join(self.base, "sequences")
        self.databases: list[str] = []
        # The files of databases, and the entries that the program found in them.
        self.read: dict[str, tuple[list[bytes], list[Entry]]] = {}
        self.journal = Journal()
        # Entries that are known, though their database was deleted.
        self.gone: Entries = {}
        self.machines = Machines(self.dice)
        self.stops = self.turns = self.others = 0
        # A stop may have left entries that aren't noted.
        self.is_noted = True
        self.turn()

    def turn(self) -> None:
        """Another database is the present one. The one before it has been closed, and all of it is noted."""
        if not self.is_noted:
            self.note()
        if not self.databases or os.path.exists(self.databases[-1]):
            self.turns += 1
            folder = os.path.join(self.base, f"{self.turns}")
            os.mkdir(folder)
            self.databases.append(os.path.join(folder, "db"))

    def words(self, brought: list[Brought]) -> list[str]:
        """A run over the present database with these uploads."""
        path = listed(self.dice, self.base, brought)
        return ["collect", "--sequences", self.sequences, "--tables", self.dice.choice("23"), "--files-from", path,
                self.databases[-1]]

    def take(self, each: Brought) -> str:
        """The line that answers an upload."""
        line = self.journal.take(each.upload, each.machine)
        self.others += line.split(" ")[3] == "71"
        return line

    def collect(self, what: str, brought: list[Brought]) -> None:
        lines = [self.take(each) for each in brought]
        told = run(*self.words(brought))
        self.trial.expect(f"{self.what}: {what}", told, (as_output(lines), "", status_of(lines)))
        self.is_noted = True

    def check_notes(self, what: str) -> None:
        """All is noted, and nothing else."""
        self.trial.expect(f"{self.what}: {what}: notes", notes_of(self.sequences) == noted(self.journal), True)

    def answer(self) -> None:
        self.collect("answers", self.machines.some())
        self.check_notes("answers")

    def stop(self) -> None:
        """A run is killed before or within a call that changes a file."""
        brought = self.machines.some()
        journals, lines = [self.journal.copy()], []
        for each in brought:
            lines.append(self.take(each))
            journals.append(self.journal.copy())
        words = [PROGRAM, *self.words(brought)]
        mode, only = self.dice.choice("kh"), self.dice.choice(list(CALLS))
        first, before, each = CALLS[only]
        number = self.dice.randint(first, before + each * len(brought))
        (output, errors, status), calls = device.run(self.trial.library, mode, number, 10**12, words, only=only)
        ends = ("", -signal.SIGKILL) if calls else ("", status_of(lines))
        self.trial.expect(f"{self.what}: a run that is stopped", (as_output(lines).startswith(output), errors, status),
                          (True, *ends))
        self.stops += bool(calls)
        self.is_noted = False
        told = output.count(b"\n")
        self.found(f"{self.what}: stopped within call {number} {only} of mode {mode}", journals[told:])

    def found(self, what: str, journals: list[Journal]) -> None:
        """All that the run acknowledged is stored, and the first of the next uploads may be, each whole. Sequences of
        these may be their machines' though they aren't stored, but not the other way round."""
        stored, owners = self.stored(), owners_in(notes_of(self.sequences))
        claimed = journals[-1].owners.items()
        for journal in journals:
            if stored == self.there(journal) and journal.owners.items() <= owners.items() <= claimed:
                self.journal = Journal(journal.entries.values(), owners)
                return
        self.trial.expect(what, (stored, owners), "what was told")

    def note(self) -> None:
        """What a stop left stored, but not noted, is noted."""
        self.collect("noted", [])

    def there(self, journal: Journal) -> Entries:
        """What the databases that weren't deleted have of a journal."""
        return {key: entry for key, entry in journal.entries.items() if key not in self.gone}

    def stored(self) -> Entries:
        """The entries of all databases. No key stands in two of them."""
        found: Entries = {}
        for database in self.databases:
            for entry in self.entries_in(database):
                self.trial.expect(f"{self.what}: a key that stands twice", entry.key in found, False)
                found[entry.key] = entry
        return found

    def entries_in(self, database: str) -> list[Entry]:
        """What a database has. The program reads it again if its files have changed."""
        copied = self.trial.copy(database)
        files = [path.read_bytes() for path in sorted(Path(copied).parent.iterdir())]
        if database not in self.read or self.read[database][0] != files:
            self.read[database] = files, self.exported(database, copied)
        shutil.rmtree(os.path.dirname(copied))
        return self.read[database][1]

    def exported(self, database: str, copied: str) -> list[Entry]:
        output, errors, status = run("export", copied)
        if (errors, status) == (f"cannot open {copied}\n", 3) and database == self.databases[-1]:
            return []
        self.trial.expect(f"{self.what}: export", (errors, status), ("", 0))
        return list(read_stream(output))

    def delete(self) -> None:
        """A database is deleted. What it had stays known."""
        if len(self.databases) > 1:
            database = self.databases.pop(self.dice.randrange(len(self.databases) - 1))
            self.gone |= {entry.key: entry for entry in self.entries_in(database)}
            shutil.rmtree(os.path.dirname(database))

    def note_anew(self) -> None:
        """The notes are lost, and are made anew from the databases, in any order. What the deleted ones had isn't known
        any more. Whose a sequence is stays known, or is lost, too."""
        if self.dice.random() < 0.7:
            lose_notes(self.sequences)
        else:
            shutil.rmtree(self.sequences, ignore_errors=True)
            self.journal.owners = {}
        present = self.databases[-1]
        for database in self.dice.sample(self.databases, len(self.databases)):
            if os.path.exists(database):
                self.databases.append(database)
                self.note()
                self.databases.pop()
        self.trial.expect(f"{self.what}: the present database", self.databases[-1], present)
        for key in self.gone:
            del self.journal.entries[key]
        self.gone = {}
        self.check_notes("made anew")

    def say_whose(self) -> None:
        """A person says that a sequence is nobody's, or another machine's."""
        if owners := self.journal.owners:
            sequence, machine = self.dice.choice(sorted(owners)), self.dice.choice((None, *NAMES))
            if machine is None:
                release(self.sequences, sequence)
                del owners[sequence]
            else:
                give(self.sequences, sequence, machine)
                owners[sequence] = machine

    def step(self) -> None:
        steps = [self.answer] * 6 + [self.stop] * 4 + [self.turn] * 2
        self.dice.choice([*steps, self.delete, self.note_anew, *[self.say_whose] * 2])()

    def end(self) -> None:
        """All machines send all that they have, and then all that was sent comes once more."""
        self.collect("at its end", self.machines.all())
        self.collect("once more", self.machines.again())
        self.check_notes("at its end")
        self.trial.expect(f"{self.what}: what is stored", self.stored() == self.there(self.journal), True)


def owners_in(notes: Notes) -> dict[bytes, str]:
    """The machine of each sequence that is somebody's."""
    named = {noted(Journal((), {b"": name}))[b"", OWNER]: name for name in NAMES}
    return {sequence: named[digest] for (sequence, number), digest in notes.items() if number == OWNER}


def main() -> None:
    with Trial("turns") as trial:
        trial.library = device.built(trial.base)
        counts = [0, 0, 0]
        for number in range(ROUNDS):
            union = Union(trial, f"round {number}")
            for _ in range(STEPS):
                union.step()
                if trial.mistakes:
                    break
            union.end()
            counts = [before + now for before, now in zip(counts, (union.stops, union.turns, union.others))]
            shutil.rmtree(union.base)
        stops, databases, others = counts
        trial.finish(f"{ROUNDS} rounds", f"{stops} stops", f"{databases} databases",
                     f"{others} uploads with entries of another machine's sequence")


if __name__ == "__main__":
    main()
