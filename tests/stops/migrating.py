"""A journal that goes over to tables of another kind on a device that stops or fails: it is whole then, in the tables
of one kind or of the other."""
from __future__ import annotations

import os
import shutil
from collections.abc import Iterator
from typing import Any

import device
import older
from trial import PROGRAM, Trial, run

IS_OVER = (b"bad 64 0\n", "", 1)


class Migrating:
    """A database, and the words by which its journal goes over."""

    def __init__(self, trial: Trial, name: str, base: str, words: tuple[str, ...] = ("migrate",)) -> None:
        self.trial = trial
        self.name = name
        self.words = words
        self.journal = older.earlier_journal()
        self.base = base
        self.usual = older.usual(self.journal)
        self.whole = (self.journal.text(), "", 0)
        self.unread = run("export", trial.copy(base))

    def run(
        self, mode: str, first: int, last: int, **how: Any
    ) -> tuple[str, tuple[bytes, str, int], list[device.Call]]:
        """The database, what the run printed, and the calls."""
        database = self.trial.copy(self.base)
        return database, *device.run(self.trial.library, mode, first, last, [PROGRAM, *self.words, database], **how)

    def left(self, what: str, database: str, answered: int) -> None:
        """The journal is over once that was printed. If it isn't, the same words take it over. It is whole before and
        after that. A database that an earlier run left so, to the byte, was looked at then."""
        folder = os.path.dirname(database)
        if self.trial.is_new(folder, self.name, answered > 0):
            self.look(what, database, answered)
        shutil.rmtree(folder)

    def look(self, what: str, database: str, answered: int) -> None:
        found = run("export", self.trial.copy(database))
        self.trial.expect(f"{what}: {found[1:]}", found in (self.whole, *(() if answered else (self.unread,))), True)
        again = run(*self.words, database)
        if answered or found != self.unread:
            may_be = [IS_OVER]
        else:
            may_be = [self.usual, *([IS_OVER] if found == self.whole else [])]
        self.trial.expect(f"{what}: {again}, once more", again in may_be, True)
        self.trial.expect(f"{what}: once more, then", run(*self.words, database), IS_OVER)
        self.trial.expect(f"{what}: export", run("export", database), self.whole)

    def failed(self, what: str, database: str, told: tuple[bytes, str, int]) -> None:
        """What a run prints and leaves whose device failed."""
        if told != self.usual:
            may_be = [(b"", f"{why}\n", 3) for why in (f"cannot open {database}", "store failed")]
            self.trial.expect(f"{what}: {told}", told in may_be, True)
        self.left(what, database, told[0].count(b"\n"))


def migrations(trial: Trial) -> Iterator[Migrating]:
    """From tables of version 1, as an earlier program left them, and from tables by key, made so or of those."""
    for name in older.EARLIER:
        yield Migrating(trial, f"migrate, {name}", older.earlier(trial, name))
    of_version_3 = ("migrate", "--tables", "3")
    for name, base in (("made by key", older.by_key(trial)), ("by key, of version 1", older.migrated(trial))):
        yield Migrating(trial, f"migrate to version 3, {name}", base, of_version_3)
