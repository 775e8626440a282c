"""Uploads of named machines that `collect --sequences` takes, with memory refused: what was acknowledged is stored once
and is its machine's, and a next run goes on."""
from __future__ import annotations

from collections.abc import Sequence

import refusal
import samples
from noted_run import NotedRun
from brought import Brought
from sweep import REFUSED, Sweep
from trial import PROGRAM, Trial, status_of

OTHER = bytes(range(64, 80))
# One in this many of the requests is tried with which a run opens its database and its notes.
OPENING = 8


class CollectNoted(Sweep):
    """A run for named machines."""

    def __init__(self, trial: Trial, name: str, noted: NotedRun) -> None:
        self.noted = noted
        super().__init__(trial, name, [], noted.usual, noted.stdin)

    def prepare(self, folder: str) -> list[str]:
        return self.noted.prepare(folder)

    def places(self, sizes: Sequence[int]) -> list[int]:
        """As ever, but for one in OPENING of those before the list is read."""
        words = [PROGRAM, *self.prepare(self.trial.folder())]
        opened = len(refusal.run(self.trial.library, 0, 0, words)[1])
        numbers = super().places(sizes)
        early = [number for number in numbers if number <= opened]
        return early[::OPENING] + numbers[len(early):]

    def judge(self, what: str, folder: str, told: tuple[bytes, str, int]) -> bool:
        output, errors, status = told
        lines = output.decode().splitlines()
        may_be = self.noted.may_be(what, lines)
        if may_be:
            self.ends(what, told, lines)
            self.trial.expect(f"{what}: status", status, 3 if errors else status_of(lines))
            self.trial.expect(f"{what}: {lines}, all read", any(line.endswith(" 61 0") for line in lines), False)
            # what an earlier run left so, to the byte, was looked at then
            if self.trial.is_new(folder, self.name, *lines):
                self.noted.left(what, folder, may_be)
        return told != self.usual

    def ends(self, what: str, told: tuple[bytes, str, int], lines: Sequence[str]) -> None:
        """A run answers all, or is stopped; of its database another word may say that memory was refused."""
        errors, has_failed = told[1], status_of(lines) == 3
        usual = {"", "store failed\n"} if has_failed else {""}
        not_opened = set() if lines else {"store failed\n"}
        may_be = {REFUSED[1]} | not_opened | (usual if len(lines) == len(self.noted.uploads) else set())
        self.trial.expect(f"{what}: {told}", errors in may_be, True)


def noted_sweeps(trial: Trial) -> list[Sweep]:
    one, two, three = samples.E1, samples.E2, samples.E3
    far = samples.entry_text(5000)
    other = samples.entry_text(1).replace(samples.SEQNUM_ID.hex().encode(), OTHER.hex().encode())
    first, second = Brought("web", samples.stream(one)), Brought("web", samples.stream(two, three))
    foreign = Brought("mail", samples.stream(samples.entry_text(4)))
    both, again = Brought("web", samples.stream(far, other)), Brought("web", samples.stream(one, three))
    rows = {"collect --sequences": ([first, foreign, both, again],),
            "collect --sequences over what isn't noted": ([foreign, both], [first, second], 2)}
    return [CollectNoted(trial, name, NotedRun(trial, name, *row)) for name, row in rows.items()]
