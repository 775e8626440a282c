"""Uploads, each with the machine that brings it: machines that share a sequence, copies of machines, machines that were
set back, and uploads with entries of several machines."""
from __future__ import annotations

import copy
import os
from collections.abc import Iterable, Sequence
from random import Random
from typing import NamedTuple

import samples
from pathlib import Path
from make import Machine
from model import Journal

# What machines are named. A line of a list may name one that has no letters.
NAMES = ("web", "web2", "größe/7", "", "a" * 5000)
# Longer than what is read of a list at once, so what stands behind it isn't there yet when the line before is read.
LONG = "mail" * 2500
# How many of the uploads of named machines another machine brings.
OTHERS = 0.1
MIXED = 0.3
# How often a machine begins another sequence before uploads come.
BEGINS = 0.3
# Folders of uploads. What is behind the first tab of a line that names a machine is the upload's path, tabs and all.
FOLDER, WITH_TAB = "uploads", "up\tloads"


class Brought(NamedTuple):
    """An upload, and the machine that brings it, if one is named."""
    machine: str | None
    upload: bytes


def stranger(sequence: bytes) -> Brought:
    """An upload of a machine that has no sequence, with an entry that nobody has."""
    text = samples.entry_text(50000).replace(samples.SEQNUM_ID.hex().encode(), sequence.hex().encode())
    return Brought("stranger", samples.stream(text))


def take(journal: Journal, brought: Brought) -> str:
    """The line that answers an upload; what is accepted is stored, and claimed."""
    return journal.take(brought.upload, brought.machine)


def take_all(journal: Journal, uploads: Iterable[Brought]) -> list[str]:
    return [take(journal, brought) for brought in uploads]


def as_lines(names: Sequence[str], uploads: Sequence[Brought]) -> bytes:
    """The list that names the files of these uploads, with the machine of each."""
    return "".join(name + "\n" if brought.machine is None else f"{brought.machine}\t{name}\n"
                   for name, brought in zip(names, uploads)).encode()


def delivery(dice: Random, machines: list[Machine], made: list[bytes]) -> bytes:
    """An upload, often one that is harmed or was made before."""
    machine = dice.choice(machines)
    count = len(machine.entries)
    first, last = sorted(dice.choices(range(count + 1), k=2))
    sound = machine.stream(first, last)
    other = machine.other(dice.randrange(count))
    return dice.choice((
        *[lambda: sound] * 2, *[lambda: machine.file(last)] * 2,
        lambda: sound[:dice.randint(0, len(sound))], lambda: machine.file(last)[:dice.randint(0, 1000)],
        lambda: sound + b"=x\n", lambda: sound + b"A\n" + bytes(8) + b"x", lambda: sound + b"A=1\n\n",
        lambda: other, lambda: sound + other[48:] + b"=x", lambda: b"X" + sound[1:],
        *[lambda: dice.choice(made or [sound])] * 4,
    ))()


def makers(dice: Random) -> list[Machine]:
    """Machines: one whose entries come by two sources; one that was set back, and logged other entries under the
    numbers that it gave before; one beyond the first window of numbers; and some alone."""
    first = Machine(dice, dice.randint(2, 30))
    again, back = copy.copy(first), copy.copy(first)
    again.source, back.source = dice.randbytes(16), dice.choice((first.source, dice.randbytes(16)))
    place = dice.randrange(len(first.entries))
    back.entries = first.entries[:place] + [entry._replace(realtime=entry.realtime ^ 1)
                                            for entry in first.entries[place:]]
    far = Machine(dice, dice.randint(2, 20))
    beyond = 4096 * dice.choice((1, 2, 1 << 40)) - len(far.entries) // 2
    far.entries = [entry._replace(seqnum=entry.seqnum + beyond) for entry in far.entries]
    return [first, again, back, far, *(Machine(dice, dice.randint(1, 12)) for _ in range(3))]


class Machines:
    """The machines of a round, the name of each, and what they sent."""

    def __init__(self, dice: Random) -> None:
        self.dice = dice
        self.makers = makers(dice)
        first, again, back, *rest = self.makers
        self.names = {maker.source: dice.choice(NAMES) for maker in rest}
        # The one that was set back, and the second source, may be copies of the machine.
        own, other = dice.sample(NAMES, 2)
        self.names |= {back.source: dice.choice((own, own, other)), again.source: dice.choice((own, own, other))}
        self.names[first.source] = own
        # How many uploads name the machine that brings them.
        self.share = dice.choice((0, 0.7, 1, 1, 1))
        self.made: list[bytes] = []

    def brought(self, upload: bytes) -> Brought:
        """An upload by the machine whose it is, often, or by another one, or by none that is named."""
        if self.dice.random() >= self.share:
            return Brought(None, upload)
        own = self.names.get(upload[16:32], NAMES[0])
        return Brought(self.dice.choice(NAMES) if self.dice.random() < OTHERS else own, upload)

    def some(self) -> list[Brought]:
        """What comes next."""
        if self.dice.random() < BEGINS:
            self.begin()
        uploads = [self.mixed() if self.dice.random() < MIXED else delivery(self.dice, self.makers, self.made)
                   for _ in range(self.dice.randint(0, 4))]
        self.made += uploads
        return [self.brought(upload) for upload in uploads]

    def begin(self) -> None:
        """A machine begins another sequence."""
        maker = Machine(self.dice, self.dice.randint(1, 12))
        maker.source = self.dice.choice(self.makers).source
        self.makers.append(maker)

    def mixed(self) -> bytes:
        """An upload with entries of several machines, some that say another thing, and perhaps a fault behind them. It
        may have to be whole."""
        dice, count, texts = self.dice, 0, b""
        for _ in range(dice.randint(2, 4)):
            maker = dice.choice(self.makers)
            first = dice.randrange(len(maker.entries))
            last = min(first + dice.randint(1, 4), len(maker.entries))
            upload, added = dice.choice(((maker.stream(first, last), last - first),) * 3 + ((maker.other(first), 1),))
            texts, count = texts + upload[samples.HEAD:], count + added
        source, whole = dice.choice(self.makers).source, dice.random() < 0.5
        head = samples.second_head(0, whole, count + dice.choice((0, 0, 0, 1)), source)
        return head + texts + dice.choice((b"", b"", b"", b"A", b"=x", b"A=1\n\n"))

    def all(self) -> list[Brought]:
        """Each machine sends all that it has."""
        return [self.brought(maker.stream(0, len(maker.entries))) for maker in self.makers]

    def again(self) -> list[Brought]:
        """All that was sent comes once more."""
        return [self.brought(upload) for upload in self.made]


def listed(dice: Random, base: str, brought: list[Brought]) -> str:
    """A list of uploads, each with its machine, below a folder."""
    for folder in (FOLDER, WITH_TAB):
        os.makedirs(os.path.join(base, folder), exist_ok=True)
    paths = []
    for number, (machine, upload) in enumerate(brought):
        folder = FOLDER if machine is None else dice.choice((FOLDER, WITH_TAB))
        paths.append(os.path.join(base, folder, f"{number}"))
        Path(paths[-1]).write_bytes(upload)
    name = os.path.join(base, "list")
    Path(name).write_bytes(as_lines(paths, brought))
    return name
