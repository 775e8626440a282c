"""Streams and journal files, each with what it reads as: `ok <entries> <bytes left>` or `bad <code> <place>`."""
from __future__ import annotations

import struct
from collections.abc import Iterator

from export_streams import binary
from limit_table import USED
from samples import E1, E2, FILE, edited

META = [b"__REALTIME_TIMESTAMP=1000000\n", b"__MONOTONIC_TIMESTAMP=5\n", b"__SEQNUM=1\n",
        b"__SEQNUM_ID=000102030405060708090a0b0c0d0e0f\n"]
M = b"".join(META)
NAME, VALUE, FIELDS, ENTRY, SPACE = USED

# A stream or a file, and its verdict.
Vector = tuple[bytes, str]


def meta(place: int, line: bytes) -> bytes:
    """The four lines with another one at a place."""
    return b"".join(META[:place]) + line + b"".join(META[place + 1:])


def whole(upload: bytes, count: int) -> bytes:
    """An upload as one that is to be whole, with this many entries."""
    return edited(upload, {7: b"2", 9: b"\x01", 40: count})


def streams() -> Iterator[Vector]:
    realtime = b"__REALTIME_TIMESTAMP="
    seqnum_id = b"__SEQNUM_ID="
    yield b"", "ok 0 0"
    yield b"\n\n", "ok 0 0"
    yield b"\n" + E1 + b"\n", "ok 1 0"
    yield M, "ok 0 109"
    yield M + b"\n", "ok 1 0"
    yield E1[:-1], "ok 0 120"
    yield E1 + E2[:1], "ok 1 1"
    yield E1 + b"=x", "bad 10 121"
    yield M + b"=x\n\n", "bad 10 109"
    yield b"=x\n", "bad 10 0"
    yield E1 + M + b"=x", "bad 10 230"
    # names and values at the limits and one byte past them
    yield M + b"A" * NAME, f"ok 0 {109 + NAME}"
    yield M + b"A" * NAME + b"=\n\n", "ok 1 0"
    yield M + b"A" * (NAME + 1), "bad 11 109"
    yield M + b"A=" + b"x" * VALUE + b"\n\n", "ok 1 0"
    yield M + b"A=" + b"x" * (VALUE + 1), "bad 12 109"
    yield M + b"A\n" + struct.pack("<Q", VALUE + 1), "bad 12 109"
    yield M + b"A\n" + struct.pack("<Q", VALUE), "ok 0 119"
    yield M + b"MESSAGE\n" + b"\xff" * 8, "bad 12 109"
    yield M + b"MESSAGE\n" + b"\xff" * 7, "ok 0 124"
    yield M + b"A\n", "ok 0 111"
    yield M + binary(b"A", b"\n\n\n") + b"\n", "ok 1 0"
    yield M + binary(b"MESSAGE", b"hi")[:-1] + b"X", "bad 13 127"
    yield M + binary(b"MESSAGE", E1) + b"\n", "ok 1 0"
    # as many pairs as an entry may have, repeats included, and one more
    yield M + b"A=1\n" * FIELDS + b"\n", "ok 1 0"
    yield M + b"A=1\n" * (FIELDS + 1) + b"\n", f"bad 14 {109 + 4 * FIELDS}"
    yield M + b"__A=1\n" * (2 * FIELDS) + b"\n", "ok 1 0"
    full = b"A=" + b"x" * (VALUE - 1) + b"\n"
    yield M + 2 * full + b"\n", "ok 1 0"
    yield M + 2 * full + b"B=\n", f"bad 15 {109 + 2 * len(full)}"
    yield M + b"__SEQNUM=1\n\n", "bad 20 0"
    yield b"\nMESSAGE=hi\n\n", "bad 21 1"
    for place in range(4):
        yield meta(place, b"") + b"\n", f"bad {21 + place} 0"
    yield E1 + meta(0, b"") + b"\n", "bad 21 121"
    for value in (b"", b"+5", b"9223372036854775808", b"0" * 21, b"x", b" 5", b"5\r"):
        yield meta(0, realtime + value + b"\n") + b"\n", "bad 25 0"
    yield meta(0, realtime + b"00000000000000000001\n") + b"\n", "ok 1 0"
    yield meta(0, realtime + b"9223372036854775807\n") + b"\n", "ok 1 0"
    for value in (b"000102030405060708090a0b0c0d0e0", b"00010203-0405060708090a0b0c0d0e0", b"0" * 33,
                  b"000102030405060708090a0b0c0d0e0x"):
        yield meta(3, seqnum_id + value + b"\n") + b"\n", "bad 26 0"
    yield meta(3, seqnum_id + b"000102030405060708090A0B0C0D0E0F\n") + b"\n", "ok 1 0"
    yield meta(2, b"__SEQNUM=0\n") + b"\n", "bad 27 0"
    # of several faults the smallest code is told
    for fields, code in ((META[1] + b"__SEQNUM=0\n__SEQNUM=x\n", 20), (META[1] + b"__SEQNUM=0\n__SEQNUM_ID=x\n", 21),
                         (realtime + b"x\n" + META[1] + b"__SEQNUM=0\n__SEQNUM_ID=\n", 25),
                         (META[0] + META[1] + b"__SEQNUM=0\n__SEQNUM_ID=\n", 26)):
        yield fields + b"\n", f"bad {code} 0"
    yield meta(0, realtime + b"x\n").replace(b"SEQNUM=1", b"SEQNUM=0") + b"\n", "bad 25 0"


def numbers(code: int, place: int, field: int, *values: int) -> Iterator[Vector]:
    for value in values:
        yield edited(FILE, {field: value}), f"bad {code} {place}"


def flags(code: int, place: int, field: int, *values: int) -> Iterator[Vector]:
    for value in values:
        yield edited(FILE, {field: bytes([value])}), f"bad {code} {place}"


def sound() -> Iterator[Vector]:
    """Edits that leave the file one with one entry."""
    for edits in ({12: b"\x04"}, {8: b"\x02"}, {8: b"\x80"}, {16: b"\x01"}, {16: b"\x02"}, {248: 64}, {256: 2**63 - 1},
                  {328: 80}, {384: b"_BOOT_ID=x"}, {384: b"__X=123456"}):
        yield edited(FILE, edits), "ok 1 0"
    yield FILE + b"\x00", "ok 1 0"
    yield edited(FILE, {152: 0}), "ok 0 0"
    yield LATER, "ok 1 0"


# The file with a longer header, as later versions write one.
LATER = edited(FILE[:208] + bytes(64) + FILE[208:], {
    8: b"\x02", 12: b"\x04", 88: 272, 136: 384, 176: 272, 296: 304, 368: 384, 424: 304})


# Two faults at once, and the one that is told: that of the check that comes first.
TWO_FAULTS = (
    # of a header
    ({0: 0, 88: 200}, "31 0"), ({88: 200, 12: b"\x01"}, "32 88"), ({12: b"\x11"}, "33 12"), ({12: b"\x30"}, "34 12"),
    ({8: b"\x01", 12: b"\x20"}, "35 12"), ({8: b"\x01", 16: b"\x03"}, "36 8"), ({16: b"\x03", 96: 1000}, "37 16"),
    ({96: 1000, 152: 400}, "38 96"), ({152: 4, 176: 0}, "39 152"),
    # of an array, before it and in it
    ({176: 212, 208: b"\x05"}, "41 176"), ({208: b"\x05", 216: 23}, "42 208"), ({216: 23, 232: 0}, "43 208"),
    ({152: 2, 224: 212}, "41 224"), ({152: 2, 224: 200}, "41 224"), ({152: 2, 224: 232}, "44 224"),
    ({152: 2, 224: 240}, "42 240"),
    # of an ENTRY
    ({232: 241, 240: b"\x05"}, "41 232"), ({240: b"\x05", 248: 72}, "42 240"), ({240: b"\x01", 248: 63}, "42 240"),
    ({248: 72, 264: 2**63}, "43 240"), ({256: 0, 264: 2**63}, "25 240"), ({272: 2**63, 304: 0}, "25 240"),
    ({256: 0, 304: 0}, "27 240"),
    # of a DATA object
    ({304: 321, 320: b"\x02"}, "41 304"), ({320: b"\x02", 328: 63}, "42 320"), ({321: b"\x01", 328: 63}, "43 320"),
    ({321: b"\x01", 384: b"="}, "45 320"), ({321: b"\x01", 328: 64}, "45 320"),
)


def files() -> Iterator[Vector]:
    yield FILE, "ok 1 0"
    yield from sound()
    yield FILE[:207], "bad 30 207"
    yield b"", "bad 30 0"
    yield E1, "bad 30 121"
    yield E1 + E1, "bad 31 0"
    yield from flags(31, 0, 0, 0x4d)
    yield from numbers(32, 88, 88, 200, 212)
    yield from flags(33, 12, 12, 1, 2, 8, 24)
    yield from flags(34, 12, 12, 16, 48)
    yield from flags(35, 12, 12, 32)
    yield from flags(36, 8, 8, 1, 4)
    yield from flags(37, 16, 16, 3)
    yield FILE[:399], "bad 38 96"
    yield from numbers(38, 96, 96, 193, 2**64 - 1)
    yield from numbers(39, 152, 152, 4, 2**63, 2**64 - 1)
    yield from numbers(40, 224, 152, 2, 3)
    yield from numbers(40, 176, 176, 0)
    yield from numbers(41, 176, 176, 212, 200, 392, 2**64 - 8)
    yield from numbers(42, 384, 176, 384)
    yield from numbers(43, 208, 216, 23, 25, 200, 2**64 - 8)
    yield edited(FILE, {152: 2, 224: 208}), "bad 44 224"
    yield from numbers(41, 232, 232, 0)
    yield from numbers(42, 320, 232, 320)
    yield from numbers(43, 240, 248, 72, 176, 2**64 - 16)
    for field in (256, 264, 272):
        yield from numbers(25, 240, field, 2**63, 2**64 - 1)
    yield from numbers(27, 240, 256, 0)
    yield from numbers(41, 304, 304, 0, 241)
    yield from numbers(42, 208, 304, 208)
    yield from numbers(43, 320, 328, 63, 81, 2**64 - 1)
    yield from flags(45, 320, 321, 1, 2, 4)
    yield from numbers(46, 320, 328, 64)
    for edits in ({384: b"="}, {386: b"\n"}, {391: b"X"}):
        yield edited(FILE, edits), "bad 46 320"
    for edits, told in TWO_FAULTS:
        yield edited(FILE, edits), f"bad {told}"


def many_arrays() -> bytes:
    """A thousand arrays without items, each naming the next one; the last names none."""
    data = edited(FILE[:208] + bytes(24000), {96: 24000, 136: 0, 176: 208})
    for number in range(1000):
        place = 208 + 24 * number
        data_next = place + 24 if number < 999 else 0
        data = edited(data, {place: b"\x06", place + 8: 24, place + 16: data_next})
    return data


def one_field_again(items: int, payload: bytes = b"MESSAGE=hi") -> tuple[bytes, int]:
    """An entry whose items all name one field."""
    size = 64 + 16 * items
    field = 240 + size
    length = (64 + len(payload) + 7) // 8 * 8
    data = bytearray(FILE[:304] + bytes(16 * items) + FILE[320:384] + payload)
    data += bytes(field + length - len(data))
    data = edited(data, {96: 32 + size + length, 136: field, 248: size, field + 8: 64 + len(payload)})
    return edited(data, {304: b"".join(struct.pack("<QQ", field, 0) for _ in range(items))}), field


def one_entry_twice() -> bytes:
    """An array whose two items name one entry."""
    array = struct.pack("<QQQQQ", 6, 40, 0, 248, 248)
    data = FILE[:208] + array + FILE[240:]
    return edited(data, {96: 200, 136: 328, 152: 2, 312: 328})


def crafted() -> Iterator[Vector]:
    """Files whose parts name one another in unusual ways."""
    yield many_arrays(), "bad 40 24200"
    yield one_field_again(7)[0], "ok 1 0"
    yield one_field_again(FIELDS - 1)[0], "ok 1 0"
    data, field = one_field_again(FIELDS)
    yield data, f"bad 14 {field}"
    yield one_entry_twice(), "ok 2 0"
    # names and values at the limits and one byte past them, and two pairs that are all an entry may have but 40 bytes
    for name in (NAME, NAME + 1):
        data, field = one_field_again(1, b"A" * name + b"=")
        yield data, "ok 1 0" if name == NAME else f"bad 11 {field}"
    for value in (VALUE, VALUE + 1):
        data, field = one_field_again(1, b"A=" + b"x" * value)
        yield data, "ok 1 0" if value == VALUE else f"bad 12 {field}"
    yield one_field_again(2, b"A=" + b"x" * (VALUE - 21))[0], "ok 1 0"
    data, field = one_field_again(2, b"A=" + b"x" * (VALUE - 20))
    yield data, f"bad 15 {field}"
