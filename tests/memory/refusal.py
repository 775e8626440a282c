"""The program with requests for memory refused: a small library that is preloaded counts them, and refuses some."""
from __future__ import annotations

import itertools
import os
import struct
from collections.abc import Collection, Iterable, Iterator, Sequence
from typing import Any

import preload

# Requests of one size that follow one another are alike (the pages of the store's cache). In a run of more than LONG of
# them the first and the last ENDS are tried, and between them one in STRIDE.
LONG = 64
ENDS = 8
STRIDE = 100
# A request is like an earlier one if it, the AROUND requests before it and those after it have the same sizes. One in
# ALIKE of these is tried.
AROUND = 8
ALIKE = 10


def built(folder: str) -> str:
    """The library, compiled into a folder."""
    return preload.built(os.path.join(os.path.dirname(os.path.abspath(__file__)), "refuse.c"), folder)


def run(
    library: str, first: int, last: int, words: Sequence[str], stdin: bytes = b"", **options: Any
) -> tuple[tuple[bytes, str, int], tuple[int, ...]]:
    """A run in which the requests from one number to another are refused; from 0 to 0, none is. What it prints, its
    status, and the sizes of the requests that were refused, or of all if none was to be."""
    *told, noted = preload.run(library, "REFUSE", {"FIRST": first, "LAST": last}, words, stdin, **options)
    return tuple(told), struct.unpack(f"<{len(noted) // 8}Q", noted)


def places(sizes: Iterable[int]) -> Iterator[int]:
    """The numbers of the requests to refuse, given the sizes of all."""
    number = 1
    for _, alike in itertools.groupby(sizes):
        count = len(list(alike))
        for step in range(count):
            if count <= LONG or step < ENDS or step >= count - ENDS or step % STRIDE == 0:
                yield number + step
        number += count


def around(sizes: Sequence[int], number: int) -> Sequence[int]:
    """The sizes of a request and of those before and after it."""
    return sizes[max(0, number - 1 - AROUND):number + AROUND]


def unlike(sizes: Sequence[int], numbers: Iterable[int], earlier: Collection[Sequence[int]]) -> list[int]:
    """Of the places of these numbers those that aren't like an earlier one, and some of the others."""
    alike = [number for number in numbers if around(sizes, number) in earlier]
    return sorted({*numbers} - {*alike} | {*alike[::ALIKE]})
