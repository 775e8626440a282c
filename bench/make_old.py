#!/usr/bin/env python3
"""Writes a database of schema 1: make_old.py LAST > FILE

It has the entries of make_file.py from number 1 to LAST, and is made by the sqlite3 of Python, in pages of 4,096 bytes
and closed.
"""
from __future__ import annotations

import os
import sqlite3
import sys
import tempfile

from make_file import BOOT_ID, SEQNUM_ID, fields, numbers
from make_stream import field

TABLES = """
PRAGMA page_size = 4096;
PRAGMA journal_mode = WAL;
CREATE TABLE journal(one INTEGER PRIMARY KEY, version INTEGER NOT NULL) STRICT;
CREATE TABLE entry(seqid BLOB NOT NULL, seqnum INTEGER NOT NULL,
  realtime INTEGER NOT NULL, monotonic INTEGER NOT NULL,
  body BLOB NOT NULL, PRIMARY KEY(seqid, seqnum)) STRICT;
INSERT INTO journal VALUES (1, 1);
"""


def row(number: int) -> tuple[bytes, int, int, int, bytes]:
    pairs = {tuple(line.split("=", 1)) for line in (f"_BOOT_ID={BOOT_ID.hex()}", *fields(number))}
    return (SEQNUM_ID, *numbers(number), b"".join(field(*pair) for pair in sorted(pairs)))


def main() -> None:
    with tempfile.TemporaryDirectory() as folder:
        path = os.path.join(folder, "db")
        connection = sqlite3.connect(path)
        connection.executescript(TABLES)
        with connection:
            connection.executemany("INSERT INTO entry VALUES (?, ?, ?, ?, ?)", map(row, range(1, int(sys.argv[1]) + 1)))
        connection.close()
        with open(path, "rb") as file:
            sys.stdout.buffer.write(file.read())


if __name__ == "__main__":
    main()
