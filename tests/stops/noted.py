"""Power is lost between any two calls of `collect --sequences` that change a file or a folder, as the service runs it:
machines are named, tables are of version 3, databases take turns over one folder of notes.

What wasn't synced is gone, or there in part, as losses.py says; and names that were made or removed are as they were
before, if their folder wasn't synced. Then all that was sent is sent again, over the database that was the present one.
What was acknowledged before the loss isn't new, nor perhaps the first of what wasn't, and afterwards each entry stands
in one database and is noted. A sequence of which an acknowledged upload brought entries belongs to its machine: a
stranger's entry is refused with 71 before anything else is sent. In some courses a run was killed before that, so that
notes lag behind, and what the next run reads may be in the system's cache alone.
"""
from __future__ import annotations

import functools
import itertools
import os
import shutil
import signal
from collections.abc import Iterator, Sequence
from concurrent.futures import Executor
from random import Random
from typing import NamedTuple

import device
import folders
import samples
from brought import LONG, Brought, as_lines, stranger, take, take_all
from make import Machine
from model import Entry, Journal, read_stream
from note_files import noted, notes_of
from trial import PROGRAM, Trial, as_output, run, status_of

# How often power is lost at one place, and where a note or its file isn't synced.
LOSSES = 1
LOSSES_OF_NOTES = 5
# So many courses have a run that is killed anywhere, and so many one that is killed before it syncs what it wrote last.
# In each of them power is lost at so many places of the next run, and of the one after that.
KILLS = 1
KILLS_UNSYNCED = 3
PLACES = 16
# So many losses are looked at before more are made.
AT_ONCE = 64


class Run(NamedTuple):
    """A run over a database, with the uploads from one to before another; killed after so many calls, if not 0."""
    database: str
    first: int
    last: int
    killed: int = 0


class Loss(NamedTuple):
    """What a loss of power left: how many uploads were acknowledged, and the database that was the present one."""
    what: str
    acknowledged: int
    database: str
    content: folders.Content


class Again(NamedTuple):
    """Uploads that are sent again, their files, and what a run over them may tell."""
    names: list[str]
    uploads: list[Brought]
    may_be: list[tuple[bytes, str, int]]


class Course:
    """Runs one after the other, in each of which, or in the last ones, power may be lost."""

    def __init__(
        self, trial: Trial, name: str, uploads: Sequence[Brought], runs: Sequence[Run], spared: int = 0
    ) -> None:
        self.trial = trial
        self.name = name
        self.uploads = uploads
        self.names = trial.put([brought.upload for brought in uploads])
        self.runs = runs
        self.spared = spared
        # the journals after none of the uploads, after the first, and so on
        self.journals = [Journal()]
        for brought in uploads:
            self.journals.append(self.journals[-1].copy())
            take(self.journals[-1], brought)
        self.strangers = {sequence: stranger(sequence) for sequence in self.journals[-1].owners}
        put = trial.put([brought.upload for brought in self.strangers.values()])
        self.of_strangers = dict(zip(self.strangers, put))
        # by how many uploads were acknowledged
        self.again = [self.sent_again(acknowledged) for acknowledged in range(len(self.journals))]
        self.complete = self.journals[-1].in_order(), noted(self.journals[-1])
        self.databases = sorted({each.database for each in runs})
        self.finished = {}
        self.calls = []
        self.record()

    def words(self, root: str, database: str, names: Sequence[str], uploads: Sequence[Brought]) -> list[str]:
        path, = self.trial.put([as_lines(names, uploads)])
        return ["collect", "--sequences", os.path.join(root, "sequences"), "--tables", "3", "--files-from", path,
                os.path.join(root, database, "db")]

    def may_answer(self, acknowledged: int, uploads: Sequence[Brought]) -> list[list[str]]:
        """The lines that answer these uploads once others were acknowledged; the next ones may be stored, too."""
        return [take_all(journal.copy(), uploads) for journal in self.journals[acknowledged:]]

    def sent_again(self, acknowledged: int) -> Again:
        """All uploads, behind those of strangers whose sequences are known to be others', and before the rest."""
        first, last = sorted(self.journals[acknowledged].owners), sorted(self.strangers)
        uploads = [*map(self.strangers.__getitem__, first), *self.uploads, *map(self.strangers.__getitem__, last)]
        names = [*map(self.of_strangers.__getitem__, first), *self.names, *map(self.of_strangers.__getitem__, last)]
        answers = self.may_answer(acknowledged, uploads)
        return Again(names, uploads, [(as_output(lines), "", status_of(lines)) for lines in answers])

    def record(self) -> None:
        """Takes the runs, and keeps their calls, with how many uploads are acknowledged behind each."""
        self.root = os.path.realpath(self.trial.folder())
        for database in self.databases:
            os.mkdir(os.path.join(self.root, database))
        acknowledged = 0
        for each in self.runs:
            answered = each.first
            self.calls.append([(None, acknowledged)])
            for call in self.run(each, acknowledged):
                answered += call.data.count(b"\n") if call.kind == b"1" else 0
                acknowledged = max(acknowledged, answered)
                self.calls[-1].append((call, acknowledged))
        shutil.rmtree(self.root)

    def run(self, each: Run, acknowledged: int) -> list[device.Call]:
        """The calls of a run, which answers as it may."""
        uploads = self.uploads[each.first:each.last]
        words = self.words(self.root, each.database, self.names[each.first:each.last], uploads)
        (output, errors, status), calls = device.run(self.trial.library, "n", 0, each.killed, [PROGRAM, *words])
        may_be = [as_output(lines) for lines in self.may_answer(acknowledged, uploads)]
        if each.killed:
            is_usual = any(lines.startswith(output) for lines in may_be) and (errors, status) == ("", -signal.SIGKILL)
        else:
            is_usual = output in may_be and (errors, status) == ("", status_of(output.decode().splitlines()))
        self.trial.expect(f"{self.name}: {output, errors, status}, a run over {each.database}", is_usual, True)
        return calls

    def moments(self) -> Iterator[tuple[folders.Folder, int, str]]:
        """The folder at each place between two calls of the runs that aren't spared, how many uploads are acknowledged
        there, and the present database."""
        tree = folders.Folder()
        tree.synced = {database: folders.Folder() for database in self.databases}
        for number, (each, calls) in enumerate(zip(self.runs, self.calls)):
            for call, acknowledged in calls:
                if call and call.kind != b"1":
                    tree.take(call, os.path.normpath(call.path).removeprefix(self.root))
                if number >= self.spared:
                    yield tree, acknowledged, each.database

    def losses(self, dice: Random) -> Iterator[Loss]:
        """What losses of power leave at each place, or at some, that no earlier one left."""
        chosen = set(self.places(dice))
        found = set()
        for place, (tree, acknowledged, database) in enumerate(self.moments()):
            for time in range(losses_at(tree)) if place in chosen else ():
                content = tree.after_loss(dice)
                mark = hash((acknowledged, database, frozen(content)))
                if mark not in found:
                    found.add(mark)
                    yield Loss(f"{self.name}, power lost at place {place}, {time}", acknowledged, database, content)

    def places(self, dice: Random) -> Iterator[int]:
        start = 0
        for calls in self.calls[self.spared:]:
            places = range(start, start + len(calls))
            yield from dice.sample(places, min(PLACES, len(places))) if self.spared else places
            start += len(calls)

    def judge(self, loss: Loss) -> None:
        root = os.path.join(self.trial.folder(), "root")
        folders.write(loss.content, root)
        again = self.again[loss.acknowledged]
        told = run(*self.words(root, loss.database, again.names, again.uploads))
        self.trial.expect(f"{loss.what}: {told}, all sent again", told in again.may_be, True)
        self.hold(loss, root)
        shutil.rmtree(os.path.dirname(root))

    def hold(self, loss: Loss, root: str) -> None:
        """Each entry stands in one database, and all is noted."""
        stored: list[Entry] = []
        for database in filter(lambda database: database <= loss.database, self.databases):
            output, *end = self.exported(loss, root, database)
            self.trial.expect(f"{loss.what}: the end of export {database}", end, ["", 0])
            stored += entries_of(output)
        entries, notes = self.complete
        self.trial.expect(f"{loss.what}: what is stored", sorted(stored, key=lambda entry: entry.key), entries)
        self.trial.expect(f"{loss.what}: what is noted", notes_of(os.path.join(root, "sequences")), notes)

    def exported(self, loss: Loss, root: str, database: str) -> tuple[bytes, str, int]:
        """What is exported; of a finished database that was exported as it is, what that was."""
        words = ["export", os.path.join(root, database, "db")]
        if database == loss.database:
            return run(*words)
        mark = hash(frozen(loss.content[database]))
        if mark not in self.finished:
            self.finished[mark] = run(*words)
        return self.finished[mark]

    def sweep(self, pool: Executor) -> int:
        count, losses = 0, self.losses(self.trial.dice)
        while batch := list(itertools.islice(losses, AT_ONCE)):
            list(pool.map(self.judge, batch))
            count += len(batch)
        print(f"noted: {self.name}: {count} losses of power", flush=True)
        return count


@functools.cache
def entries_of(output: bytes) -> tuple[Entry, ...]:
    """What an export reads as."""
    return tuple(read_stream(output))


def losses_at(tree: folders.Folder) -> int:
    """How often power is lost here."""
    notes = tree.seen().get("sequences")
    if notes and notes.is_unsynced():
        return LOSSES_OF_NOTES
    return LOSSES if tree.is_unsynced() else 1


def frozen(content: folders.Content) -> object:
    if isinstance(content, bytes):
        return content
    return frozenset((name, frozen(below)) for name, below in content.items())


def uploads_of(dice: Random) -> list[Brought]:
    """Those of two machines. The name of one is so long that uploads are stored in several groups. The other one has
    two sequences, of which one has entries in two windows, and both come in one upload. One upload has the other
    machine's sequence, and some come for the second time in part."""
    web, other, mail = Machine(dice, 6), Machine(dice, 3), Machine(dice, 5)
    web.entries = [entry._replace(seqnum=entry.seqnum + 4093) for entry in web.entries]
    both = web.stream(2, 4) + other.stream(0, 2)[samples.HEAD:]
    return [Brought("web", web.stream(0, 2)), Brought(LONG, mail.stream(0, 3)), Brought("web", both),
            Brought(LONG, web.stream(4, 5)), Brought("web", web.stream(1, 6)), Brought(LONG, mail.stream(1, 5)),
            Brought("web", other.stream(0, 3))]


def courses(trial: Trial) -> Iterator[Course]:
    uploads = uploads_of(trial.dice)
    turning = Course(trial, "another database", uploads, [Run("1", 0, 4), Run("2", 4, 7)])
    yield turning
    calls = [call for call, _ in turning.calls[0]]
    # what is written last, as a commit or a note, is a byte that makes it count
    unsynced = [place for place, call in enumerate(calls) if call and call.data == b"\1"]
    killed = trial.dice.sample(range(2, len(calls) - 1), KILLS) + trial.dice.sample(unsynced, KILLS_UNSYNCED)
    # the first call makes the folder of notes
    for number in [1, *sorted(killed)]:
        runs = [Run("1", 0, 4, number), Run("1", 0, 4), Run("2", 4, 7)]
        yield Course(trial, f"killed after {number} calls", uploads, runs, 1)


def main() -> None:
    with device.trial_of("noted") as (trial, pool):
        trial.finish(f"{sum(course.sweep(pool) for course in courses(trial))} losses of power")


if __name__ == "__main__":
    main()
