"""Machines, and the uploads that they make: all chosen by a generator of random numbers that the caller seeds."""
from __future__ import annotations

import os
import sys
from random import Random

import samples
from model import KNOWN, Entry, spelled

sys.path.insert(0, os.path.join(os.path.dirname(os.path.abspath(__file__)), "..", "..", "bench"))
from make_file import Journal as JournalFile  # noqa: E402

NAMES = [b"MESSAGE", b"PRIORITY", b"_PID", b"_COMM", b"A", b"AB", b"B", b"UNIT", "GRÖSSE".encode()]
VALUES = [b"", b"hi", b"=", b"a=b", b"tab\there", b"two\nlines", b"\x00\x01", b"\xff\xfe", "größer".encode(), b"\x7f",
          b"x" * 900]


class Machine:
    """A source of entries under one sequence id. The entry at index i has the number i + 1."""

    def __init__(self, dice: Random, entries: int) -> None:
        self.dice = dice
        self.source = dice.randbytes(16)
        self.seqnum_id = dice.randbytes(16)
        self.boot_id = dice.randbytes(16)
        self.entries = [self.entry(number) for number in range(1, entries + 1)]

    def entry(self, number: int) -> Entry:
        pairs = {(self.dice.choice(NAMES), self.dice.choice(VALUES)) for _ in range(self.dice.randint(0, 12))}
        pairs.add((b"NOTE", b"%d:" % number + self.dice.randbytes(self.dice.choice((4, 40, 400)))))
        pairs.add((b"_BOOT_ID", self.boot_id.hex().encode()))
        return Entry(self.seqnum_id, number, self.dice.randrange(2**50), self.dice.choice((0, 2**63 - 1, number)),
                     frozenset(pairs))

    def stream(self, first: int, last: int) -> bytes:
        """An upload of the entries from one index to before another."""
        texts = [loose_text(self.dice, entry) for entry in self.entries[first:last]]
        return samples.head(1, first, self.source) + b"".join(texts)

    def file(self, last: int) -> bytes:
        """An upload of a journal file that has the entries before an index."""
        journal = JournalFile()
        for entry in self.entries[:last]:
            payloads = [name + b"=" + value for name, value in sorted(entry.pairs)]
            self.dice.shuffle(payloads)
            journal.add(entry.seqnum, entry.realtime, entry.monotonic, self.boot_id, payloads)
        return samples.head(2, 0, self.source) + b"".join(journal.pieces(self.seqnum_id))

    def other(self, index: int) -> bytes:
        """An upload of an entry that says another thing under the number of one of this machine's."""
        entry = self.entries[index]
        return samples.head(1, index, self.source) + entry._replace(realtime=entry.realtime + 1).text()


def loose_text(dice: Random, entry: Entry) -> bytes:
    """One of the many texts that read as an entry."""
    number = lambda value: b"%0*d" % (dice.choice((0, 19)), value)
    digits = entry.seqnum_id.hex()
    meta = zip(KNOWN, (number(entry.realtime), number(entry.monotonic), number(entry.seqnum),
                       dice.choice((digits, digits.upper())).encode()))
    pairs = sorted(entry.pairs)
    fields = [*meta, *pairs, *dice.choices(pairs, k=dice.randint(0, 2)), (b"__CURSOR", b"s=1;i=2"), (b"__X", b"\n")]
    dice.shuffle(fields)
    texts = (spelled(name, value, b"\n" not in value and dice.random() < 0.7) for name, value in fields)
    return b"\n" * dice.choice((0, 0, 1, 3)) + b"".join(texts) + b"\n"
