"""The sample entries, journal files and uploads that the scripts share, as docs/FORMATS.md spells them.

samples.py FOLDER NAME=EXPRESSION..: files in a folder, each with the bytes that an expression over these names has.
"""
from __future__ import annotations

import os
import struct
import sys

SOURCE = bytes(range(0xa0, 0xb0))
SEQNUM_ID = bytes(range(16))
BOOT_ID = bytes(range(16, 32))


def entry_text(number: int, message: bytes = b"hi") -> bytes:
    """An entry as an export stream has it."""
    return (b"__REALTIME_TIMESTAMP=1000000\n__MONOTONIC_TIMESTAMP=5\n__SEQNUM=%d\n__SEQNUM_ID=%s\nMESSAGE=%s\n\n"
            % (number, SEQNUM_ID.hex().encode(), message))


# The kinds of uploads, and the bytes of an upload's header.
STREAM, JOURNAL_FILE = 1, 2
HEAD = 48


def head(kind: int, start: int = 0, source: bytes = SOURCE) -> bytes:
    """An upload's header."""
    return b"JCUPLD01" + bytes([kind]) + bytes(7) + source + struct.pack("<QQ", start, 0)


def second_head(start: int, whole: bool, count: int, source: bytes = SOURCE) -> bytes:
    """The header of its second version, of an upload of an export stream with so many entries."""
    return b"JCUPLD02" + bytes([STREAM, whole]) + bytes(6) + source + struct.pack("<QQ", start, count)


def stream(*texts: bytes, start: int = 0) -> bytes:
    """An upload of an export stream."""
    return head(STREAM, start) + b"".join(texts)


def read(path: str) -> bytes:
    """What a file has."""
    with open(path, "rb") as file:
        return file.read()


def edited(data: bytes, edits: dict[int, bytes | int]) -> bytes:
    """Bytes with others put over them at their places; numbers take 8 bytes."""
    made = bytearray(data)
    for place, new in edits.items():
        new = struct.pack("<Q", new) if isinstance(new, int) else new
        made[place:place + len(new)] = new
    return bytes(made)


E1, E2, E3 = map(entry_text, (1, 2, 3))
# The entry of E1's key with another message.
H1 = entry_text(1, b"ho")

# A journal file of 400 bytes: its header of 208, an array of entries at 208, an entry at 240 and its one field at 320.
FILE = edited(bytes(400), {
    0: b"LPKSHHRH",
    24: bytes(range(32, 64)),
    72: SEQNUM_ID,
    88: 208, 96: 192, 136: 320, 144: 3, 152: 1, 160: 1, 168: 1, 176: 208, 184: 1000000, 192: 1000000, 200: 5,
    208: b"\x06", 216: 32, 232: 240,
    240: b"\x03", 248: 80, 256: 1, 264: 1000000, 272: 5, 280: BOOT_ID, 304: 320,
    320: b"\x01", 328: 74, 360: 240, 376: 1, 384: b"MESSAGE=hi",
})


def main(folder: str, *made: str) -> None:
    for name, _, expression in (it.partition("=") for it in made):
        with open(os.path.join(folder, name), "wb") as file:
            file.write(eval(expression))


if __name__ == "__main__":
    main(*sys.argv[1:])
