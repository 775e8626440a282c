"""Export streams in tests: the fields of each entry of one, and a field in the spelling that takes any bytes."""
from __future__ import annotations

from collections.abc import Iterator
from typing import IO

Pairs = list[tuple[bytes, bytes]]


def pairs_of(stream: IO[bytes]) -> Iterator[Pairs]:
    """The fields of each entry of a stream, in their order, with its metadata. All of its entries have to be whole."""
    pairs: Pairs = []
    for line in stream:
        name, equals, value = line[:-1].partition(b"=")
        if line == b"\n":
            yield pairs
            pairs = []
            continue
        end = line[-1:]
        if not equals:
            length = int.from_bytes(stream.read(8), "little")
            value, end = stream.read(length), stream.read(1)
        if end != b"\n":
            raise ValueError(f"a field isn't whole: {name!r}")
        pairs.append((name, value))
    if pairs:
        raise ValueError(f"an entry isn't whole: {pairs[0]!r}")


def binary(name: bytes, value: bytes) -> bytes:
    """A field in the spelling with a length."""
    return name + b"\n" + len(value).to_bytes(8, "little") + value + b"\n"
