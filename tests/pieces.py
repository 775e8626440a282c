r"""Bytes, as a line of a script names them, by more words than crates/jc_test_samples/src/pieces.rt has, and by files.

A text in quotation marks is itself, with `\n` for a newline. Each other word is one of these:

- `/PATH`, which `@NAME` becomes: the bytes of that file
- the name of a sample, as `ENTRY`
- `head:KIND:START`: the header of an upload
- `entries:FIRST:LAST`: the entries with these numbers
- `byte:N`, `number:N`: one byte, and eight with the least first
- `fill:N:COUNT`: so many bytes, each of them N
- `set:PLACE:N`, `put:PLACE:N`: one byte, or eight, in the place of what is there
- `cut:N`: only the first N bytes of all that was named before
- `again:COUNT:N`: the last COUNT bytes of all that was named before, N times more"""
from __future__ import annotations

import re
import struct
from collections.abc import Callable
from pathlib import Path

from samples import BOOT_ID, E1, E2, E3, FILE, H1, SEQNUM_ID, edited, entry_text, head
from vectors import LATER

METADATA = [entry.removesuffix(b"MESSAGE=hi\n\n") for entry in (E1, E2, E3)]
SAMPLES = {
    "ENTRY": E1,
    "ENTRY_2": E2,
    "ENTRY_3": E3,
    # the first entry's key with another message, and its text under the last of all ids
    "CHANGED_ENTRY": H1,
    "LAST_ENTRY": E1.replace(SEQNUM_ID.hex().encode(), b"f" * 32),
    **dict(zip(("METADATA", "METADATA_2", "METADATA_3"), METADATA)),
    "BOOT_FIELD": b"_BOOT_ID=%s\n" % BOOT_ID.hex().encode(),
    # the name and the length of a field whose value is as long as an entry
    "BINARY_FRONT": b"MESSAGE\n" + struct.pack("<Q", len(E1)),
    # the line that the first entry is shown as
    "SHOWN": b"%s 1 1000000 5 hi\n" % SEQNUM_ID.hex().encode(),
    "JOURNAL_FILE": FILE,
    "LONG_HEADER_FILE": LATER,
}


def put(made: bytes, place: int, new: bytes) -> bytes:
    if place + len(new) > len(made):
        raise ValueError("nothing is at this place")
    return edited(made, {place: new})


def cut(made: bytes, size: int) -> bytes:
    if size > len(made):
        raise ValueError("there are fewer bytes")
    return made[:size]


# What a word with so many numbers makes of all that was named before it.
MADE: dict[tuple[str, int], Callable[..., bytes]] = {
    ("head", 2): lambda made, kind, start: made + head(kind, start),
    ("entries", 2): lambda made, first, last: made + b"".join(map(entry_text, range(first, last + 1))),
    ("byte", 1): lambda made, value: made + bytes([value]),
    ("number", 1): lambda made, value: made + struct.pack("<Q", value),
    ("fill", 2): lambda made, value, count: made + bytes([value]) * count,
    ("set", 2): lambda made, place, value: put(made, place, bytes([value])),
    ("put", 2): lambda made, place, value: put(made, place, struct.pack("<Q", value)),
    ("cut", 1): cut,
    ("again", 2): lambda made, count, times: made + made[max(0, len(made) - count):] * times,
}


def with_word(made: bytes, word: str) -> bytes:
    """What is there after a word."""
    name, *numbers = word.split(":")
    if word.startswith("/"):
        return made + Path(word).read_bytes()
    if word in SAMPLES:
        return made + SAMPLES[word]
    if (name, len(numbers)) not in MADE or not all(re.fullmatch("[0-9]+", it) for it in numbers):
        raise ValueError(f"no piece is {word}")
    try:
        return MADE[name, len(numbers)](made, *map(int, numbers))
    except (ValueError, struct.error) as error:
        raise ValueError(f"{word}: {error}") from error


def bytes_of(pieces: str) -> bytes:
    """The bytes of the pieces of a line, one after the other."""
    made = b""
    is_text = False
    for part in pieces.split('"'):
        if is_text:
            made += part.replace("\\n", "\n").encode()
        else:
            for word in part.split():
                made = with_word(made, word)
        is_text = not is_text
    if not is_text:
        raise ValueError("a quotation mark has no other one")
    return made
