"""Devices and sinks that fail once, over journals of each kind."""
from __future__ import annotations

from collections.abc import Iterator
from dataclasses import dataclass

from batches import answer, wanted_by
from journals import NEVER, Journal, outputs, running, storing, taking
from pieces import bytes_of
from samples import E1, E2, stream

KINDS = ("map", "union")
# More reads than an upload takes whose number of reads isn't given.
MOST_READS = 1000


def numbers_and_row(rest: str) -> tuple[list[int], str]:
    numbers, _, row = rest.partition(" ")
    return [int(number) for number in numbers.split(",")], row


@dataclass
class Failing:
    """An upload from a device that gives so many bytes at most at each read, and fails once.

    Behind each number of reads from `first` to before `end` it is answered by `no - - 61 0`, if fewer than `head` were
    read, and else by `no S 0 61 0`. Then nothing is stored, and it gets its answer when it comes again, whole. Behind
    `reads` reads it gets that at once. If these aren't given, they are as many as there are: some, and not very many.
    """
    line: int
    most: int
    upload: bytes
    head: int
    wanted: bytes
    places: tuple[int, ...]

    @classmethod
    def read(cls, line: int, rest: str) -> Failing:
        (most, length, head, *places), row = numbers_and_row(rest)
        pieces, short = wanted_by(row)
        upload = bytes_of(pieces)
        if len(places) not in (0, 3) or len(upload) != length:
            raise ValueError(f"{len(upload)} bytes, and {len(places)} numbers of reads")
        return cls(line, most, upload, head, answer(short), tuple(places))

    def refusal(self, passes: int) -> bytes:
        return answer("no - - 61 0" if passes < self.head else "no S 0 61 0")

    def journals(self) -> Iterator[Journal]:
        for kind in KINDS:
            first, end, reads = self.places or (0, *self.counted(kind))
            for passes in range(first, end):
                yield Journal(kind, "", f", behind {passes} reads", [
                    taking(self.line, self.most, passes, self.upload, self.refusal(passes)),
                    storing(self.line, b""),
                    taking(self.line, NEVER, NEVER, self.upload, self.wanted),
                ])
            yield Journal(kind, "", f", behind all {reads} reads",
                          [taking(self.line, self.most, reads, self.upload, self.wanted)])

    def counted(self, kind: str) -> tuple[int, int]:
        """How many reads there are, twice."""
        tried = [Journal(kind, steps=[taking(self.line, self.most, passes, self.upload, None)])
                 for passes in range(MOST_READS)]
        reads = next((passes for passes, output in enumerate(outputs(tried)) if output == self.wanted), MOST_READS)
        if not 1 < reads < MOST_READS:
            raise ValueError(f"it takes {reads} reads")
        return reads, reads


@dataclass
class Stopping:
    """A run over two uploads, the first of them a space, to a sink that takes one byte at each write and fails after so
    many: so many answers are written whole, and so many bytes of the next one, and these entries are stored. Then the
    first upload isn't new."""
    line: int
    writes: int
    done: int
    written: int
    stores: bytes

    @classmethod
    def read(cls, line: int, rest: str) -> Stopping:
        numbers, pieces = numbers_and_row(rest)
        writes, done, written = numbers
        return cls(line, writes, done, written, bytes_of(pieces))

    def journals(self) -> Iterator[Journal]:
        lines = answer("ack S 0 1 1 0") * 2
        front = lines[:45 * self.done + self.written]
        for kind in KINDS:
            yield Journal(kind, "", f", behind {self.writes} writes", [
                running(self.line, self.writes, (stream(E1), stream(E2)), (0, NEVER),
                        front + b"stopped %d %d" % (self.done, self.written)),
                storing(self.line, self.stores),
                taking(self.line, 100, NEVER, stream(E1), answer("ack S 0 1 0 0")),
            ])
