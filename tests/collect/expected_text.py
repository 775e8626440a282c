#!/usr/bin/env python3
"""Writes what a collector exports that has the entries of a stream and no others: expected_text.py < STREAM > TEXT"""
from __future__ import annotations

import sys

from model import Journal, read_stream


def main() -> None:
    entries = list(read_stream(sys.stdin.buffer.read()))
    sys.stdout.buffer.write(Journal(entries).text())


if __name__ == "__main__":
    main()
