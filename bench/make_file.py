#!/usr/bin/env python3
"""Writes a journal file with a number of entries: make_file.py ENTRIES > FILE

An entry has 20 fields, _BOOT_ID aside; six are the same in all entries, or in many, and are stored once. The same
number gives the same file. `Journal` makes a file of any entries.
"""
from __future__ import annotations

import struct
import sys
from collections.abc import Iterable

HEADER = 208
SEQNUM_ID = bytes(range(16))
BOOT_ID = bytes(range(16, 32))


def numbers(number: int) -> tuple[int, int, int]:
    """An entry's number, realtime and monotonic."""
    return number, 1_700_000_000_000_000 + number * 1013, number * 211


def fields(number: int) -> list[str]:
    unit = f"service-{number % 37}.service"
    return [
        "_HOSTNAME=host.example.org",
        "_TRANSPORT=journal",
        "_SYSTEMD_SLICE=system.slice",
        f"_SYSTEMD_UNIT={unit}",
        f"PRIORITY={number % 8}",
        "SYSLOG_IDENTIFIER=server",
        f"_PID={1000 + number}",
        f"_SOURCE_REALTIME_TIMESTAMP={1_700_000_000_000_000 + number * 1013}",
        f"_CMDLINE=/usr/bin/server --unit {unit} --request {number}",
        f"MESSAGE=request {number} from 192.0.2.{number % 256} took {number * 7919 % 1000} ms",
        f"REQUEST={number:032x}",
        f"TRACE={number * 104729:032x}",
        f"SPAN={number * 7919:016x}",
        f"CLIENT_PORT={number}",
        f"BYTES_IN={number * 31}",
        f"BYTES_OUT={number * 37}",
        f"STARTED={number * 1013}",
        f"FINISHED={number * 1013 + 977}",
        f"SESSION=session-{number}",
        f"PATH_INFO=/items/{number}/parts/{number % 97}",
    ]


class Journal:
    """A file that grows as journald's does: the DATA objects of an entry that aren't there yet, then the ENTRY, and an
    array of entries whenever the present one is full, each twice as long as the one before. Hashes are zero, since no
    reader here looks at them."""

    def __init__(self) -> None:
        self.parts = []
        self.end = HEADER
        self.stored = {}
        self.arrays = []
        self.count = 0

    def append(self, kind: int, body: bytes) -> int:
        """Puts an object at the end; `body` is all of it after its header of 16 bytes."""
        offset = self.end
        size = 16 + len(body)
        self.parts.append(struct.pack("<B7xQ", kind, size))
        self.parts.append(body)
        self.parts.append(bytes(-size % 8))
        self.end = offset + size + -size % 8
        return offset

    def data(self, payload: bytes) -> int:
        known = self.stored.get(payload)
        if known is not None:
            return known
        offset = self.append(1, bytes(48) + payload)
        self.stored[payload] = offset
        return offset

    def array(self, items: int) -> None:
        """An array is put in place empty, and filled once its entries are known."""
        place = len(self.parts) + 1
        self.arrays.append((place, items, self.append(6, bytes(8 + 8 * items)), []))

    def add(self, number: int, realtime: int, monotonic: int, boot_id: bytes, payloads: Iterable[bytes]) -> None:
        offsets = [self.data(payload) for payload in payloads]
        body = struct.pack("<QQQ", number, realtime, monotonic) + boot_id + bytes(8)
        entry = self.append(3, body + b"".join(struct.pack("<QQ", offset, 0) for offset in offsets))
        if not self.arrays:
            self.array(4)
        elif len(self.arrays[-1][3]) == self.arrays[-1][1]:
            self.array(2 * self.arrays[-1][1])
        self.arrays[-1][3].append(entry)
        self.count += 1

    def header(self, seqnum_id: bytes) -> bytes:
        head = bytearray(HEADER)
        head[:8] = b"LPKSHHRH"
        head[16] = 2
        head[72:88] = seqnum_id
        first = self.arrays[0][2] if self.arrays else 0
        for place, number in ((88, HEADER), (96, self.end - HEADER), (152, self.count), (176, first)):
            struct.pack_into("<Q", head, place, number)
        return bytes(head)

    def pieces(self, seqnum_id: bytes) -> list[bytes]:
        """The file's bytes, in pieces."""
        for index, (place, _, _, filled) in enumerate(self.arrays):
            following = self.arrays[index + 1][2] if index + 1 < len(self.arrays) else 0
            body = struct.pack("<Q", following) + b"".join(struct.pack("<Q", offset) for offset in filled)
            self.parts[place] = body + bytes(len(self.parts[place]) - len(body))
        return [self.header(seqnum_id)] + self.parts


def file_of(entries: int) -> list[bytes]:
    """The file with this number of entries, in pieces."""
    journal = Journal()
    for number in range(1, entries + 1):
        journal.add(*numbers(number), BOOT_ID, [field.encode() for field in fields(number)])
    return journal.pieces(SEQNUM_ID)


def main() -> None:
    sys.stdout.buffer.writelines(file_of(int(sys.argv[1])))


if __name__ == "__main__":
    main()
