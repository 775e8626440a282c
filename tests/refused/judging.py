"""Judges the edits of a crate: many in one check, each by what the check says of its own function."""

from __future__ import annotations

from collections.abc import Callable, Container
from contextlib import AbstractContextManager, nullcontext
from dataclasses import dataclass, field, replace
from typing import Any

from checking import check
from edits import Edit, Sources, read_edits
from libraries import is_current
from verdicts import Kind, Report, Ruling


# What a check waits for, and holds while it runs.
Turn = Callable[[], AbstractContextManager[None]]


@dataclass(frozen=True)
class Outcome:
    """What is reported of an edit, or of the crate if it has no edit's name."""

    name: str
    is_well: bool
    text: str


@dataclass(frozen=True)
class Waiting:
    """An edit that is still to be judged, apart from edits of these functions, or with no other edit."""

    edit: Edit
    apart: frozenset[str] = field(default=frozenset())
    alone: bool = False

    def again(self, hidden_by: frozenset[str]) -> Waiting:
        """The edit after a check in which these functions hid it: apart from them, and the next time alone."""
        return replace(self, apart=hidden_by, alone=bool(self.apart))

    def goes_with(self, other: Waiting) -> bool:
        mine, its = self.edit.function.symbols, other.edit.function.symbols
        is_apart = mine == its or other.apart.intersection(mine) or self.apart.intersection(its)
        return not (is_apart or self.alone or other.alone)


def next_batch(waiting: list[Waiting]) -> list[Waiting]:
    """As many of the edits as one check can judge, the first among them."""
    batch: list[Waiting] = []
    for it in waiting:
        if all(it.goes_with(other) for other in batch):
            batch.append(it)
    return batch


class Judge:
    """Judges a crate's edits over its libraries as they are built, each check in a turn of its own."""

    def __init__(self, crate: Any, turn: Turn, say: Callable[[str], None], standing: Container[str]) -> None:
        self.crate = crate
        # the crates whose libraries are known to be built from the sources as they are
        self.standing = standing
        self.turn = turn
        self.say = say
        self.sources = Sources(crate)
        # functions that weren't proved in a check though they weren't edited
        self.refused: set[str] = set()

    def outcomes(self, edits: list[Edit]) -> list[Outcome]:
        """An outcome for each edit, and if there are any a last one for the crate without them."""
        waiting, outcomes = [Waiting(it) for it in edits], []
        while waiting:
            batch = next_batch(waiting)
            waiting = [it for it in waiting if it not in batch]
            for it, ruling in self._judged(batch):
                if ruling.kind is Kind.HIDDEN and not it.alone:
                    waiting.append(it.again(ruling.hidden_by))
                else:
                    outcomes.append(_outcome(it.edit, ruling))
        return [*outcomes, self._unedited()] if edits else []

    def _judged(self, batch: list[Waiting]) -> list[tuple[Waiting, Ruling]]:
        """What one check says of each edit. If the edited crate can't be read, its halves are checked."""
        report = self._check([it.edit for it in batch])
        unread = report.unread()
        if unread is None:
            self.refused |= set(report.refused_beside([it.edit.function for it in batch]))
            return [(it, report.ruling(it.edit)) for it in batch]
        if len(batch) == 1:
            return [(batch[0], Ruling(Kind.UNREAD, (unread,)))]
        half = len(batch) // 2
        return self._judged(batch[:half]) + self._judged(batch[half:])

    def _unedited(self) -> Outcome:
        """Whether what isn't edited is proved: in each check, and as a crate by its library, which is built only if all
        of it is proved, or else by a check."""
        if self.refused:
            return Outcome("", False, f"beside its edits it is NOT PROVED: {', '.join(sorted(self.refused))}")
        if not is_current(self.crate, self.standing) and not (report := self._check([])).is_proved():
            return Outcome("", False, f"without its edits it is NOT PROVED: {report.lines[-1]}")
        return Outcome("", True, "without its edits it is proved")

    def _check(self, edits: list[Edit]) -> Report:
        """What a check of the edited functions says, in which all others are taken at their word, or one of the whole
        crate if there are no edits."""
        functions = [it.function for it in edits]
        asked = [word for it in functions for word in ("--only", it.asked)]
        others = [it for it in self.sources.functions if it not in functions and len(it.symbols) == 1]
        taken = others if edits else []
        texts = self.sources.with_bodies(edits, taken)
        with self.turn():
            self.say(f"{self.crate.name}: a check {f'of {len(edits)} edits' if edits else 'without edits'}")
            ran = check(self.crate, texts, asked, taken, edits)
        return Report(ran.returncode, ran.stdout, set(texts))


def _outcome(edit: Edit, ruling: Ruling) -> Outcome:
    goals = ", ".join(ruling.goals)[:1000]
    if ruling.kind is Kind.REFUSED:
        return Outcome(edit.name, True, f"refused, as it must be: {goals}")
    return Outcome(edit.name, False, f"NOT REFUSED: {ruling.kind.value}" + (f": {goals}" if goals else ""))


def judge(
    crate: Any,
    turn: Turn = nullcontext,
    say: Callable[[str], None] = print,
    standing: Container[str] = (),
) -> list[Outcome]:
    """The outcomes of a crate's folder refused/: one for each file in it, and one for the crate without them."""
    it = Judge(crate, turn, say, standing)
    edits, bad = read_edits(it.sources)
    return [Outcome(edit.name, False, f"BAD EDIT: {edit.why}") for edit in bad] + it.outcomes(edits)
