"""Uploads that are collected in one run over a device that stops or fails, and what the journal has to hold then."""
from __future__ import annotations

import os
import re
import shutil
from collections.abc import Sequence
from typing import Any

import device
from model import Journal
from trial import PROGRAM, Trial, answers, run, status_of

WORDS = ("collect",)
# What a run over a list says that couldn't go on, and of uploads, a list, a database or notes that it couldn't open.
WHY = re.compile(r"(cannot open .*\n)*((read|write|store) failed\n)?")


def of_a_list(trial: Trial, what: str, told: tuple[bytes, str, int], count: int) -> list[str]:
    """The lines of a run over a list of so many uploads that ended by itself."""
    output, errors, status = told
    lines = output.decode().splitlines()
    trial.expect(f"{what}: {errors!r}", WHY.fullmatch(errors) is not None, True)
    trial.expect(f"{what}: status", status, 3 if errors else status_of(lines))
    trial.expect(f"{what}: all are answered", bool(errors) or len(lines) == count, True)
    return lines


class Collecting:
    """Uploads, the words that collect them, and a database that has some entries already or isn't there."""

    # So many uploads may be stored before they are answered.
    together = 1

    def __init__(
        self, trial: Trial, name: str, uploads: list[bytes], before: Sequence[bytes] = (), words: Sequence[str] = WORDS
    ) -> None:
        self.trial = trial
        self.name = name
        self.words = words
        self.uploads = uploads
        self.names = trial.put(uploads)
        self.base = None
        journal = Journal()
        if before:
            self.base = trial.database()
            told = answers(journal, before)
            trial.expect(f"{name}: before", run(*words, self.base, *trial.put(before)), told)
        # the journals after none of the uploads, after the first, and so on
        self.journals = [journal.copy()]
        for upload in uploads:
            journal.take(upload)
            self.journals.append(journal.copy())
        self.usual = answers(self.journals[0].copy(), uploads)

    def prepare(self) -> str:
        database = self.trial.database()
        if self.base:
            for end in ("", "-wal"):
                shutil.copyfile(self.base + end, database + end)
        return database

    def run(
        self, mode: str, first: int, last: int, **how: Any
    ) -> tuple[str, tuple[bytes, str, int], list[device.Call]]:
        """The database, what the run printed, and the calls."""
        database = self.prepare()
        words = [PROGRAM, *self.words, database, *self.names]
        return database, *device.run(self.trial.library, mode, first, last, words, **how)

    def left(self, what: str, database: str, answered: int) -> None:
        """What a run leaves that ended after this many answers: all of those uploads, and none or all of the next
        one, or the first of the next ones."""
        self.holds_one_of(what, database, self.journals[answered:answered + 1 + self.together])

    def failed(self, what: str, database: str, told: tuple[bytes, str, int]) -> None:
        """What a run prints and leaves whose device failed."""
        self.holds_one_of(what, database, self.told(what, database, told))

    def told(self, what: str, database: str, told: tuple[bytes, str, int]) -> list[Journal]:
        """What a run prints whose device failed, and the journals that it may leave."""
        output, errors, status = told
        lines = output.decode().splitlines()
        if lines:
            self.trial.expect(f"{what}: number of lines", len(lines), len(self.uploads))
            self.trial.expect(f"{what}: {errors!r}", errors in ("", "store failed\n"), True)
            self.trial.expect(f"{what}: status", status, 3 if errors else status_of(lines))
        else:
            may_be = {f"cannot open {name}\n" for name in (database, *self.names)} | {"store failed\n", "read failed\n"}
            self.trial.expect(f"{what}: {errors!r}", errors in may_be, True)
            self.trial.expect(f"{what}: status", status, 3)
        return self.after_failures(what, lines)

    def after_failures(self, what: str, lines: list[str]) -> list[Journal]:
        """The journals that a run with these answers may leave: all that is acknowledged, and with it perhaps the first
        upload that is answered by a failure of the store."""
        journal = self.journals[0].copy()
        failed = []
        for line, upload in zip(lines, self.uploads):
            after = journal.copy()
            answer = after.take(upload)
            whose = " ".join(answer.split(" ")[1:3])
            if line == f"no {whose} 62 0":
                failed.append(upload)
            elif line not in (f"no {whose} 61 0", "no - - 61 0"):
                self.trial.expect(f"{what}: line", line, answer)
                journal = after
        return journal.perhaps_with(failed)

    def holds_one_of(self, what: str, database: str, journals: list[Journal]) -> None:
        """The database holds one of some journals, and the same uploads complete it. If there was none before the run,
        and one may be empty, there may be none yet. One that an earlier run left so, to the byte, was looked at
        then."""
        folder = os.path.dirname(database)
        if self.trial.is_new(folder, self.name, *(frozenset(journal.entries.values()) for journal in journals)):
            self.look(what, database, journals)
        shutil.rmtree(folder)

    def look(self, what: str, database: str, journals: list[Journal]) -> None:
        trial = self.trial
        told = run("export", database)
        found = [journal for journal in journals if told == (journal.text(), "", 0)]
        if told == (b"", f"cannot open {database}\n", 3) and not self.base and not journals[0].entries:
            found = [Journal()]
        if trial.expect(f"{what}: {told} is one of the journals that may be there", bool(found), True):
            journal = found[0].copy()
            again = answers(journal, self.uploads)
            trial.expect(f"{what}: again", run(*self.words, database, *self.names), again)
            trial.expect(f"{what}: complete", run("export", database), (journal.text(), "", 0))


class Listed(Collecting):
    """Uploads that a list names, whose answers come together."""

    def __init__(self, trial: Trial, name: str, uploads: list[bytes], words: Sequence[str]) -> None:
        super().__init__(trial, name, uploads)
        self.together = len(uploads)
        path, = trial.put(["".join(f"{name}\n" for name in self.names).encode()])
        self.words, self.names = (*words, "--files-from", path), []

    def told(self, what: str, database: str, told: tuple[bytes, str, int]) -> list[Journal]:
        return self.after_failures(what, of_a_list(self.trial, what, told, len(self.uploads)))
