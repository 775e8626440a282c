#!/usr/bin/env python3
"""Writes an upload: make_upload.py export FIRST LAST > FILE, or make_upload.py file LAST > FILE

The entries are those of make_file.py, from number FIRST to number LAST, either as an export stream with the lines that
journalctl writes, or as the journal file. Both say the same of an entry. `stream FIRST LAST` writes the export stream
alone. `busy FIRST LAST` and `busy-stream FIRST LAST` do the same with the entries of make_stream.py, of 24 fields.
"""
from __future__ import annotations

import os
import sys

from make_file import BOOT_ID, SEQNUM_ID, fields, file_of, numbers
from make_stream import entry as busy, field

sys.path.insert(0, os.path.join(os.path.dirname(os.path.abspath(__file__)), "..", "tests"))
from samples import JOURNAL_FILE, STREAM, head  # noqa: E402


def text(number: int) -> bytes:
    seqnum, realtime, monotonic = numbers(number)
    lines = [
        f"__CURSOR=s={SEQNUM_ID.hex()};i={seqnum:x};b={BOOT_ID.hex()};m={monotonic:x};t={realtime:x};x=0",
        f"__REALTIME_TIMESTAMP={realtime}",
        f"__MONOTONIC_TIMESTAMP={monotonic}",
        f"__SEQNUM={seqnum}",
        f"__SEQNUM_ID={SEQNUM_ID.hex()}",
        f"_BOOT_ID={BOOT_ID.hex()}",
        *fields(number),
    ]
    return b"".join(field(*line.split("=", 1)) for line in lines) + b"\n"


def main() -> None:
    kind, *bounds = sys.argv[1:]
    if kind == "file":
        sys.stdout.buffer.write(head(JOURNAL_FILE))
        sys.stdout.buffer.writelines(file_of(int(bounds[0])))
    else:
        first, last = map(int, bounds)
        if not kind.endswith("stream"):
            sys.stdout.buffer.write(head(STREAM, first - 1))
        sys.stdout.buffer.writelines(map(busy if kind.startswith("busy") else text, range(first, last + 1)))


if __name__ == "__main__":
    main()
