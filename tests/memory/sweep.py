"""A command to which memory is refused at one place after another, until it asks for no more."""
from __future__ import annotations

import os
import shutil
from collections.abc import Sequence
from concurrent.futures import Executor

import refusal
from trial import PROGRAM, Trial

REFUSED = (b"", "out of memory\n", 3)
# One in this many places of a sweep is refused together with all later ones.
LATER = 5
NEVER = 10**12


def content(path: str) -> bytes | None:
    """A file's bytes; None if it isn't there."""
    if not os.path.exists(path):
        return None
    with open(path, "rb") as file:
        return file.read()


def put(path: str, data: bytes) -> str:
    with open(path, "wb") as file:
        file.write(data)
    return path


class Sweep:
    """A command that reads files and prints. Its arguments name no file that it writes."""

    # what was around the places of earlier sweeps
    earlier = set()

    def __init__(
        self, trial: Trial, name: str, words: list[str], usual: tuple[bytes, str, int] | None = None, stdin: bytes = b""
    ) -> None:
        self.trial = trial
        self.name = name
        self.words = words
        self.usual = usual
        self.stdin = stdin

    def prepare(self, folder: str) -> list[str]:
        """Puts the files that the command works on into a folder, and answers the command's arguments."""
        return self.words

    def judge(self, what: str, folder: str, told: tuple[bytes, str, int]) -> bool:
        """Holds what a run printed and left against what it may; answers whether the refusal was seen."""
        if self.is_usual(told):
            return False
        # what went out is a beginning of the whole
        self.trial.expect(what, (b"", *told[1:]), REFUSED)
        self.trial.expect(f"{what}: output", self.usual[0].startswith(told[0]), True)
        return True

    def is_usual(self, told: tuple[bytes, str, int]) -> bool:
        return told == self.usual

    def one(self, first: int, last: int) -> tuple[int, bool]:
        """One run: how many requests were refused, and whether that was seen."""
        folder = self.trial.folder()
        words = [PROGRAM, *self.prepare(folder)]
        told, sizes = refusal.run(self.trial.library, first, last, words, self.stdin)
        alone = "alone" if first == last else "and all later"
        seen = self.judge(f"{self.name}, request {first} {alone}", folder, told)
        shutil.rmtree(folder)
        return len(sizes), seen

    def all_sizes(self) -> tuple[int, ...]:
        """The sizes of all requests of an undisturbed run, which has to print what is usual."""
        told, sizes = refusal.run(self.trial.library, 0, 0, [PROGRAM, *self.prepare(self.trial.folder())], self.stdin)
        self.trial.expect(f"{self.name}, undisturbed", told, self.usual)
        return sizes

    def places(self, sizes: Sequence[int]) -> list[int]:
        """The numbers of the requests to refuse. All commands read arguments alike, and open a database alike."""
        numbers = list(refusal.places(sizes))
        chosen = refusal.unlike(sizes, numbers, self.earlier)
        self.earlier.update(refusal.around(sizes, number) for number in numbers)
        return chosen

    def sweep(self, pool: Executor) -> int:
        sizes = self.all_sizes()
        numbers = self.places(sizes)
        alone = list(pool.map(lambda number: self.one(number, number), numbers))
        later = list(pool.map(lambda number: self.one(number, NEVER), numbers[::LATER]))
        beyond = len(sizes) + 1
        while self.one(beyond, beyond)[0] > 0:
            beyond += 1
        tried = alone + later
        self.trial.expect(f"{self.name}: places without a refusal", [count for count, _ in tried].count(0), 0)
        unseen = [seen for _, seen in tried].count(False)
        print(f"memory: {self.name}: {len(sizes)} requests, {len(alone)} refused alone, {len(later)} with all later "
              f"ones; {unseen} of these runs went as usual")
        return len(tried)
