#!/usr/bin/env python3
"""Counts the instructions of programs: instructions.py ENTRIES PROGRAM.. or instructions.py --sequences PROGRAM..

Each program collects one upload of entries with 24 fields into a new database, opens the database, collects the same
upload again, exports it, and shows the first hundredth of the entries; with tables of version 2, and of version 3.
Valgrind counts the instructions, which are the same in each run, whatever else the machine does. The program `baseline`
in bench/out, which `make bench` builds, may be one of them: it has tables of version 2 alone, and no option for a part
of the entries, so it shows all. With --sequences it counts what notes of sequences take, by the runs of notes.py.
"""
from __future__ import annotations

import os
import re
import sys

import notes
from measure import OUT, Run, forget, made

COUNTING = ["valgrind", "--tool=cachegrind", "--cache-sim=no", "--cachegrind-out-file=/dev/null"]


def instructions(command: list[str]) -> int:
    """How many instructions a command takes."""
    said = os.path.join(OUT, "counted")
    Run([*COUNTING, *command], errors=said)
    with open(said, encoding="utf-8", errors="replace") as file:
        counted = re.search(r"I +refs: +([\d,]+)", file.read())
    if counted is None:
        raise OSError("valgrind has counted nothing")
    return int(counted[1].replace(",", ""))


def count(program: str, entries: int, options: list[str]) -> None:
    """Prints what a program takes, for its steps in turn."""
    upload = made(f"{entries}.busy", "make_upload.py", "busy", 1, entries)
    empty = made("empty.upload", "make_upload.py", "export", 1, 0)
    database = os.path.join(OUT, "counted.db")
    first = ["--to", str(entries // 100)] if options else []
    forget(database)
    collected = instructions([program, "collect", *options, database, upload])
    size = os.path.getsize(database)
    opened = instructions([program, "collect", database, empty])
    again = instructions([program, "collect", database, upload])
    exported = instructions([program, "export", database])
    shown = instructions([program, "show", database, *first])
    forget(database)
    print(f"{program} {' '.join(options)}, {entries:,} entries of 24 fields, in instructions")
    print(f"  collect into a new database    {collected:18,}")
    print(f"  opened, adopted and closed     {opened:18,}")
    print(f"  again, without the opening     {again - opened:18,}")
    print(f"  export, with the opening       {exported:18,}")
    print(f"  show, without the opening      {shown - opened:18,}")
    print(f"  bytes of the database          {size:18,}", flush=True)


def count_notes(program: str) -> None:
    """Prints what notes of new entries take, with many entries known and with none."""
    for known in (notes.KNOWN, 0):
        noted = notes.Noted(known)
        counted = []
        for command in notes.commands(program, noted):
            forget(notes.DATABASE)
            noted.put_back()
            counted.append(instructions(command))
        noted.forget()
        print(f"{program}, {notes.NEW:,} new entries of 24 fields, {known:,} known, in instructions")
        print(f"  judged and noted               {notes.of_notes(counted):18,}", flush=True)
    forget(notes.DATABASE)


def main() -> None:
    os.makedirs(OUT, exist_ok=True)
    if sys.argv[1] == "--sequences":
        for program in sys.argv[2:]:
            count_notes(os.path.abspath(program))
        return
    for program in sys.argv[2:]:
        kinds = [[]] if os.path.basename(program) == "baseline" else [["--tables", "2"], ["--tables", "3"]]
        for options in kinds:
            count(os.path.abspath(program), int(sys.argv[1]), options)


if __name__ == "__main__":
    main()
