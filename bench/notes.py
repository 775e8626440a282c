#!/usr/bin/env python3
"""Measures what notes of sequences cost: notes.py PROGRAM

Of a sequence with the notes of 30 days of 70,000 entries a day (docs/FORMATS.md, "What is noted of a sequence"), 1,000
new entries of 24 fields are judged and noted by `collect --sequences`. What that takes is what stands between four runs
over new databases: with notes and without, of these entries and of none. So neither reading and storing the entries nor
beginning a run counts. The same is done with no notes at all: if it takes as long, what is known doesn't matter.
Instructions of the same runs are counted by instructions.py --sequences.
"""
from __future__ import annotations

import os
import struct
import sys
from collections.abc import Sequence

from make_stream import ID
from measure import OUT, Runs, forget, interleaved, made

# The most that PERFORMANCE allows, in milliseconds of a processor and in MB.
MOST_MILLISECONDS, MOST_MEGABYTES = 10, 4
KNOWN, NEW = 30 * 70_000, 1_000
NOTE, WINDOW = struct.Struct("<BQ32s"), 4096
OPEN, PRIME = 1, 2**255 - 19
FOLDER = os.path.join(OUT, "sequences")
DATABASE = os.path.join(OUT, "noted.db")


def notes(window: int, known: int) -> bytes:
    """What a window's file has if so many entries are known, from number 1 on. Any 32 bytes may be a digest."""
    numbers = range(max(1, window * WINDOW), min(known + 1, (window + 1) * WINDOW))
    return b"".join(NOTE.pack(OPEN, number, (number * PRIME % 2**256).to_bytes(32, "little")) for number in numbers)


def windows_of(known: int) -> range:
    """The windows of so many entries."""
    return range(known // WINDOW + 1) if known else range(0)


class Noted:
    """A folder with the notes of a sequence. Runs add to the last windows alone, which are then put back."""

    def __init__(self, known: int) -> None:
        self.known = known
        self.folder = f"{FOLDER}-{known}"
        self.of_sequence = os.path.join(self.folder, ID)
        self.forget()
        os.makedirs(self.of_sequence, mode=0o700)
        for window in windows_of(known):
            self.write(window)

    def write(self, window: int) -> None:
        with open(os.path.join(self.of_sequence, str(window)), "wb") as file:
            file.write(notes(window, self.known))

    def put_back(self) -> None:
        """Takes away what a run has noted."""
        first = (self.known + 1) // WINDOW
        there = set(map(str, windows_of(self.known)))
        os.makedirs(self.of_sequence, mode=0o700, exist_ok=True)
        for name in os.listdir(self.of_sequence):
            if name not in there or int(name) >= first:
                os.remove(os.path.join(self.of_sequence, name))
        for window in windows_of(self.known):
            if window >= first:
                self.write(window)

    def look(self) -> None:
        """Fails if the last run with notes has noted less than all new entries."""
        sizes = (os.path.getsize(os.path.join(self.of_sequence, name)) for name in os.listdir(self.of_sequence))
        if sum(sizes) < NOTE.size * (self.known + NEW):
            raise OSError("the new entries weren't noted")

    def forget(self) -> None:
        """Removes the folder."""
        for folder, _, names in os.walk(self.folder, topdown=False):
            for name in names:
                os.remove(os.path.join(folder, name))
            os.rmdir(folder)


def listed(name: str, path: str) -> str:
    """A list with the name of an upload."""
    list_of = os.path.join(OUT, name)
    with open(list_of, "w", encoding="utf-8") as file:
        file.write(path + "\n")
    return list_of


def commands(program: str, noted: Noted) -> list[list[str]]:
    """The four runs: with notes of the new entries and of none, and without notes of the same."""
    first, last = noted.known + 1, noted.known + NEW
    new = listed("new.list", made(f"{first}-{last}.busy", "make_upload.py", "busy", first, last))
    none = listed("none.list", made("empty.upload", "make_upload.py", "export", 1, 0))
    return [[program, "collect", *options, "--tables", "3", "--files-from", each, DATABASE]
            for options in (["--sequences", noted.folder], []) for each in (new, none)]


def of_notes(figures: Sequence[float]) -> float:
    """What notes take of what the four runs took."""
    with_new, with_none, new, none = figures
    return with_new - with_none - (new - none)


def measure(program: str) -> None:
    """Prints what notes cost with many entries known, and with none."""
    print(f"{NEW:,} new entries of 24 fields are judged and noted by `collect --sequences`")
    for known in (KNOWN, 0):
        noted = Noted(known)

        def begin(index: int) -> None:
            if index == 1:
                noted.look()
            forget(DATABASE)
            noted.put_back()

        runs = interleaved(commands(program, noted), begin)
        noted.forget()
        say(known, runs)
    forget(DATABASE)


def say(known: int, runs: Sequence[Runs]) -> None:
    """Prints what the four runs took."""
    milliseconds = 1000 * of_notes([each.processor for each in runs])
    # With notes and without, of the new entries: what a run of none has at its peak is another moment.
    megabytes = (runs[0].peak - runs[2].peak) * 1.048576
    print(f"  {known:,} known in {len(windows_of(known))} files: {milliseconds:.1f} ms of a processor (at most "
          f"{MOST_MILLISECONDS}), {megabytes:.1f} MB of memory (at most {MOST_MEGABYTES})")
    for what, each in zip(("with notes", "with notes, no entry", "without", "without, no entry"), runs):
        print(f"    {what:20} {each.processor:7.3f} s of a processor, {each.peak:5.1f} MiB, "
              f"{each.seconds:7.3f} s (to +{each.spread():.0f} %)", flush=True)


def main() -> None:
    os.makedirs(OUT, exist_ok=True)
    measure(os.path.abspath(sys.argv[1]))


if __name__ == "__main__":
    main()
