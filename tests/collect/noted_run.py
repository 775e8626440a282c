"""A run of `collect --sequences` for named machines that may end early, or fail at some uploads: what it may leave."""
from __future__ import annotations

import os
import shutil
from collections.abc import Sequence

import samples
from brought import Brought, as_lines, stranger, take, take_all
from model import Journal, named, read_stream
from note_files import NOTE, file_of, noted, notes_of
from trial import Trial, as_output, run, status_of

LISTED = ["--tables", "3", "--files-from", "-"]


class MayBe:
    """The journals that a run may leave, by its lines so far: those with what was acknowledged, and those with the
    first of the uploads that failed since then, too. One that failed may have claimed its sequences. One that was
    refused memory may not be one of these uploads. One that can't be read leaves all as it is."""

    def __init__(self, journal: Journal) -> None:
        self.journals = [journal.copy()]
        self.with_failed: list[Journal] = []
        # those of them that have all that failed and was taken up
        self.with_all: list[Journal] = []

    def take(self, line: str, brought: Brought) -> None:
        whose = named(brought.upload)
        if line in (f"no {whose} 62 0", f"no {whose} 63 0"):
            self.fail(brought, line.endswith(" 62 0"))
        elif line not in (f"no {whose} 61 0", "no - - 61 0"):
            self.journals = [journal for journal in self.journals if take(journal, brought) == line]
            # a refusal needs no store
            failed = [] if line.startswith("ack ") else self.with_failed
            self.with_failed = [journal for journal in failed if take(journal, brought) == line]
            self.with_all = [journal for journal in self.with_all if journal in self.with_failed]

    def fail(self, brought: Brought, is_taken_up: bool = True) -> None:
        claimed = [journal.copy() for journal in self.journals]
        for journal in claimed:
            with_upload = journal.copy()
            take(with_upload, brought)
            journal.owners = with_upload.owners
        before = self.with_all or self.journals
        stored = [journal.copy() for journal in before]
        for journal in stored:
            take(journal, brought)
        self.with_all = stored if is_taken_up else [*stored, *before]
        self.with_failed += stored
        self.journals += claimed

    def all(self) -> list[Journal]:
        return self.journals + self.with_failed


class NotedRun:
    """Uploads, and a database and a folder of notes, which have some others already or aren't there. The last `unnoted`
    entries of the first sequence may be stored, but not noted."""

    def __init__(
        self, trial: Trial, name: str, uploads: Sequence[Brought], before: Sequence[Brought] = (), unnoted: int = 0
    ) -> None:
        self.trial = trial
        self.uploads = uploads
        self.start = Journal()
        self.base = trial.folder()
        lines = take_all(self.start, before)
        told = run(*words_in(self.base), stdin=listed(trial, before))
        trial.expect(f"{name}: before", told, (as_output(lines), "", status_of(lines)))
        if unnoted:
            path = file_of(os.path.join(self.base, "sequences"), samples.SEQNUM_ID, 1)
            os.truncate(path, os.path.getsize(path) // NOTE.size * NOTE.size - unnoted * NOTE.size)
        elif not before:
            shutil.rmtree(self.base)
            os.mkdir(self.base)
        complete = self.start.copy()
        lines = take_all(complete, uploads)
        self.strangers = {sequence: stranger(sequence) for sequence in complete.owners}
        self.usual = as_output(lines), "", status_of(lines)
        self.stdin = listed(trial, uploads)
        self.list, = trial.put([self.stdin])

    def prepare(self, folder: str) -> list[str]:
        """Puts the database and the notes into a folder, and answers the words of a run over them."""
        shutil.copytree(self.base, folder, dirs_exist_ok=True)
        return words_in(folder)

    def may_be(self, what: str, lines: Sequence[str]) -> MayBe | None:
        """What a run with these lines may leave; None if they are none that it may print."""
        may_be = MayBe(self.start)
        for line, brought in zip(lines, self.uploads):
            may_be.take(line, brought)
            if not self.trial.expect(f"{what}: {lines}, up to {line}", bool(may_be.journals), True):
                return None
        for brought in self.uploads[len(lines):]:
            may_be.fail(brought)
        return may_be

    def left(self, what: str, folder: str, may_be: MayBe) -> None:
        """What was acknowledged is there, the first of those that failed may be if none behind was acknowledged, and a
        next run takes all uploads. A machine whose upload failed may find that its sequence was another's meanwhile."""
        journals = may_be.all()
        first = set.intersection(*(set(journal.owners) for journal in journals))
        uploads = [*(self.strangers[sequence] for sequence in sorted(first)), *self.uploads, *self.strangers.values()]
        told = run(*words_in(folder), stdin=listed(self.trial, uploads))
        for journal in journals:
            lines = take_all(journal, uploads)
            if told == (as_output(lines), "", status_of(lines)):
                self.hold(what, folder, journal)
                return
        self.trial.expect(f"{what}: {told}, all sent again", False, True)

    def hold(self, what: str, folder: str, journal: Journal) -> None:
        output, *end = run("export", os.path.join(folder, "db"))
        self.trial.expect(f"{what}: export", (end, list(read_stream(output))), (["", 0], journal.in_order()))
        notes = notes_of(os.path.join(folder, "sequences"))
        self.trial.expect(f"{what}: what is noted", notes, noted(journal))


def words_in(folder: str) -> list[str]:
    return ["collect", "--sequences", os.path.join(folder, "sequences"), *LISTED, os.path.join(folder, "db")]


def listed(trial: Trial, uploads: Sequence[Brought]) -> bytes:
    return as_lines(trial.put([brought.upload for brought in uploads]), uploads)
