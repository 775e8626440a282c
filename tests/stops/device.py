"""The program over a device that stops, fails, or notes what is written: a small preloaded library counts the calls."""
from __future__ import annotations

import os
import struct
from collections.abc import Callable, Iterator, Sequence
from concurrent.futures import Executor, ThreadPoolExecutor
from contextlib import contextmanager
from random import Random
from typing import NamedTuple

import preload
from trial import Trial

HEAD = struct.Struct("<ccqQQ")
SECTOR = 512
# The two files of a database, as device.c calls them.
FILES = {"database": "d", "log": "l"}


class Call(NamedTuple):
    """A call on a file: its operation, the file's kind and path, a place or a length, and the bytes that it writes."""
    operation: bytes
    kind: bytes
    path: str
    place: int
    data: bytes


def built(folder: str) -> str:
    """The library, compiled into a folder."""
    return preload.built(os.path.join(os.path.dirname(os.path.abspath(__file__)), "device.c"), folder)


@contextmanager
def trial_of(name: str) -> Iterator[tuple[Trial, Executor]]:
    """A script's trials over the device, and a thread for each processor."""
    with Trial(name) as trial, ThreadPoolExecutor(os.cpu_count()) as pool:
        trial.library = built(trial.base)
        yield trial, pool


def run(
    library: str,
    mode: str,
    first: int,
    last: int,
    words: Sequence[str],
    stdin: bytes = b"",
    reads: bool = False,
    only: str = "",
    steady: bool = False,
) -> tuple[tuple[bytes, str, int], list[Call]]:
    """A run in which the calls from one number to another are interfered with, as device.c says of the mode; those on
    one kind of file, if one is given. What it prints, its status, and those calls; all of them, if the mode is to note
    them. A steady run draws nothing at random, so no other such run was over the same database before it."""
    settings = {"MODE": mode, "FIRST": first, "LAST": last, "READS": int(reads), "ONLY": only, "STEADY": int(steady)}
    *told, noted = preload.run(library, "DEVICE", settings, words, stdin)
    return tuple(told), list(calls_in(noted))


def calls_in(noted: bytes) -> Iterator[Call]:
    at = 0
    while at < len(noted):
        operation, kind, place, length, size = HEAD.unpack_from(noted, at)
        path = at + HEAD.size
        data = path + length
        at = data + size
        yield Call(operation, kind, os.fsdecode(noted[path:data]), place, noted[data:at])


class Disk:
    """What a device has of one file: its bytes as they were last synced, and each change since then."""

    def __init__(self) -> None:
        self.is_there = False
        self.synced = b""
        self.changes = []

    def hold(self, path: str) -> None:
        """Begins with a file as it is."""
        self.is_there = True
        with open(path, "rb") as file:
            self.synced = file.read()

    def take(self, call: Call) -> None:
        """A call changes the file, or syncs it."""
        if call.operation == b"c":
            self.is_there = True
        elif call.operation == b"s":
            self.synced, self.changes = self.seen(), []
        elif call.operation in (b"w", b"t"):
            self.changes.append(call)

    def seen(self) -> bytes:
        data = bytearray(self.synced)
        for call in self.changes:
            change(data, call, [range(len(call.data))], bytes)
        return bytes(data)

    def after_loss(self, dice: Random) -> bytes:
        """What a loss of power may leave: of each change nothing, all, a beginning, or some of its sectors. What lies
        past the end that was synced and wasn't written is zeros or anything."""
        fill = dice.choice((bytes, dice.randbytes))
        data = bytearray(self.synced)
        for call in self.changes:
            length = len(call.data)
            kept = dice.choice(("none", "all", "front", "sectors"))
            if kept == "all" or (kept != "none" and length == 0):
                change(data, call, [range(length)], fill)
            elif kept == "front":
                change(data, call, [range(dice.randrange(length))], fill)
            elif kept == "sectors":
                change(data, call, [part for part in sectors(call) if dice.random() >= 0.5], fill)
        return bytes(data)


def sectors(call: Call) -> Iterator[range]:
    """The parts of a write that lie in one sector each; the last one may be empty."""
    length = len(call.data)
    first = -(call.place % SECTOR)
    yield from (range(max(0, start), min(length, start + SECTOR)) for start in range(first, length + 1, SECTOR))


def change(data: bytearray, call: Call, parts: Sequence[range], fill: Callable[[int], bytes]) -> None:
    """Makes some parts of a change, in their order."""
    parts = [part for part in parts if part]
    if call.operation == b"t":
        del data[call.place:]
        data.extend(bytes(call.place - len(data)))
    elif parts:
        end = call.place + parts[-1].stop
        data.extend(fill(max(0, end - len(data))))
        for part in parts:
            data[call.place + part.start:call.place + part.stop] = call.data[part.start:part.stop]
