#!/usr/bin/env python3
"""Measures how fast the program is: run.py PROGRAM

Reading: `verify export` of streams of 10 MB and of 100 MB in turn with the C parser of parser.c, `verify file` of a
journal file. Collecting: new databases of 1,000 to 100,000 entries with 20 fields each, from export uploads and from
journal files, the same uploads again, and listings of what is stored; each in turn with the C baseline of baseline.c.
What is in C is left out if it can't be built. An upload of 10,000 entries with 24 fields, in turn with the baseline and
with systemd-journal-remote, if it is installed. `migrate` of databases of schema 1. Notes of sequences (notes.py). Each
figure is the best of five runs. What the collector's service takes is told by load.py.
"""
from __future__ import annotations

import os
import sys
from collections.abc import Sequence

import notes
from measure import HERE, OUT, Run, Runs, best, forget, interleaved, made, megabytes, output_of, say_machine

sys.path.insert(0, os.path.join(HERE, "..", "tests"))
from limit_table import USED  # noqa: E402

STOCK = os.path.join(HERE, "..", "tests", "collect", "stock.py")
ENTRIES = 100_000
UPLOAD = 1_000
REMOTE = "/lib/systemd/systemd-journal-remote"


def built(name: str, *libraries: str) -> str | None:
    """A program in C, or None if there is no C compiler or a library is missing."""
    path = os.path.join(OUT, name)
    limits = [f"-D{limit.upper()}_LIMIT={most}" for limit, most in USED._asdict().items()]
    try:
        Run(["cc", "-O2", *limits, "-o", path, os.path.join(HERE, f"{name}.c"), *libraries], errors="/dev/null")
    except OSError:
        needed = ", ".join(["stdio.h", *libraries])
        print(f"no {name}: cc or what it needs ({needed}) isn't here, so there are no ratios to it")
        return None
    return path


def built_baseline() -> str | None:
    path = built("baseline", "-lsqlite3")
    if path:
        print(f"SQLite of the baseline: {output_of([path, 'version'])}")
    return path


def rates(runs: Runs, entries: int, size: float) -> str:
    return (f"{runs.seconds:7.3f} s (to +{runs.spread():.0f} %) {runs.processor:7.3f} s of a processor"
            f" {entries / runs.seconds:11,.0f} entries/s {size / runs.seconds:6.0f} MB/s {runs.peak:6.0f} MiB")


def ratio(runs: Sequence[Runs], opened: Sequence[Runs] | None = None) -> str:
    """The ratio of the program's time to the baseline's, of the best runs and of each round."""
    aside = [each.seconds for each in opened] if opened else [0, 0]
    ratios = [(ours.seconds - aside[0]) / (theirs.seconds - aside[1])
              for ours, theirs in zip(runs[0].runs, runs[1].runs)]
    whole = (runs[0].seconds - aside[0]) / (runs[1].seconds - aside[1])
    return f"ratio {whole:.2f} (in rounds {min(ratios):.2f} to {max(ratios):.2f})"


def measure_reading(program: str) -> None:
    parser = built("parser")
    for size in (10, 100):
        path = made(f"{size}MB.export", "make_stream.py", size * 10**6)
        commands = [[program, "verify", "export", path]] + [[parser, path]] * bool(parser)
        runs = interleaved(commands)
        for name, each in zip(("program", "parser"), runs):
            print(f"verify export, {size} MB, {name}: {each.seconds:.3f} s (to +{each.spread():.0f} %), of them "
                  f"{each.user:.3f} s the process's own, {megabytes([path]) / each.seconds:.0f} MB/s, "
                  f"{each.peak:.0f} MiB")
        if parser:
            print(f"  {ratio(runs)}, of the processes' own time {runs[0].user / runs[1].user:.2f}", flush=True)
    path = made(f"{ENTRIES}.journal", "make_file.py", ENTRIES)
    runs = best([program, "verify", "file", path])
    print(f"verify file, {ENTRIES:,} entries: {rates(runs, ENTRIES, megabytes([path]))}", flush=True)


class Collecting:
    """The program and the baseline, each with databases of its own."""

    def __init__(self, program: str, baseline: str | None) -> None:
        self.programs = [(name, path) for name, path in (("program", program), ("baseline", baseline)) if path]
        self.empty = made("empty.upload", "make_upload.py", "export", 1, 0)

    def database(self, name: str, which: str) -> str:
        return os.path.join(OUT, f"{which}-{name}.db")

    def databases(self, which: str) -> list[str]:
        return [self.database(name, which) for name, _ in self.programs]

    def report(self, what: str, runs: Sequence[Runs], entries: int, size: float) -> None:
        print(what)
        for (name, _), each in zip(self.programs, runs):
            print(f"  {name:8} {rates(each, entries, size)}")
        if len(runs) == 2:
            print(f"  {ratio(runs)}, of processor times {runs[0].processor / runs[1].processor:.2f}", flush=True)

    def collect(self, what: str, which: str, uploads: list[str], entries: int, is_new: bool = True) -> None:
        """Uploads into a new database, or once more into the one that has them."""
        databases = self.databases(which)
        commands = [[path, "collect", database, *uploads] for (_, path), database in zip(self.programs, databases)]
        runs = interleaved(commands, lambda index: forget(databases[index]) if is_new else None)
        self.report(what, runs, entries, megabytes(uploads))

    def open(self, which: str) -> list[Runs]:
        """What opening takes: a run that collects an upload without entries, which opens, adopts and closes the
        database."""
        runs = interleaved([[path, "collect", database, self.empty]
                            for (_, path), database in zip(self.programs, self.databases(which))])
        for (name, _), each in zip(self.programs, runs):
            print(f"opened, adopted and closed, {name}: {each.seconds:.3f} s, {each.processor:.3f} s of a processor, "
                  f"{each.peak:.0f} MiB")
        return runs

    def open_alone(self, which: str) -> None:
        """What the library's open takes: `check` of a database whose version is another, which looks at nothing
        else."""
        database = self.database("other", which)
        try:
            Run(["cp", self.database("program", which), database])
            Run([sys.executable, STOCK, database, "UPDATE journal SET version = 9"])
        except OSError:
            print("no stock sqlite3 is here, so there is no figure for the opening alone")
        else:
            runs = best([self.programs[0][1], "check", database], status=1)
            print(f"opened alone, program: {runs.seconds:.3f} s, {runs.processor:.3f} s of a processor, "
                  f"{runs.peak:.0f} MiB", flush=True)
        forget(database)

    def listing(self, command: str, which: str, opened: Sequence[Runs], size: float) -> None:
        databases = self.databases(which)
        runs = interleaved([[path, command, database] for (_, path), database in zip(self.programs, databases)])
        self.report(f"{command} of {ENTRIES:,} entries", runs, ENTRIES, size)
        beside = [each.seconds - opening.seconds for each, opening in zip(runs, opened)]
        print(f"  without the opening: {', '.join(f'{seconds:.3f} s' for seconds in beside)}", end="")
        computed = [each.processor - opening.processor for each, opening in zip(runs, opened)]
        print(f"; {', '.join(f'{seconds:.3f} s' for seconds in computed)} of a processor", end="")
        if len(beside) == 2:
            print(f", {ratio(runs, opened)}, of processor times {computed[0] / computed[1]:.2f}", end="")
        print(flush=True)


def measure_collecting(program: str) -> None:
    both = Collecting(program, built_baseline())
    uploads = [made(f"{first}.upload", "make_upload.py", "export", first, first + UPLOAD - 1)
               for first in range(1, ENTRIES, UPLOAD)]
    print(f"memory under {Run(['true']).peak:.0f} MiB can't be measured: it is that of the process that starts a run")
    for count in (1, 10, 100):
        what = f"collect {count} export uploads of {UPLOAD:,} entries"
        both.collect(what, "uploads", uploads[:count], count * UPLOAD)
    opened = both.open("uploads")
    both.open_alone("uploads")
    both.collect("the same 100 uploads again", "uploads", uploads, ENTRIES, is_new=False)
    both.listing("export", "uploads", opened, megabytes(uploads))
    both.listing("show", "uploads", opened, megabytes(uploads))
    whole = made(f"{ENTRIES}.upload", "make_upload.py", "export", 1, ENTRIES)
    both.collect(f"collect one export upload of {ENTRIES:,} entries", "whole", [whole], ENTRIES)
    for entries in (ENTRIES // 10, ENTRIES):
        file = made(f"{entries}.file-upload", "make_upload.py", "file", entries)
        both.collect(f"collect a journal file of {entries:,} entries", "file", [file], entries)
    both.collect("the same journal file again", "file", [file], ENTRIES, is_new=False)
    for which in ("uploads", "whole", "file"):
        for database in both.databases(which):
            forget(database)


def measure_beside_remote(program: str) -> None:
    """The program, the baseline and systemd-journal-remote take in the same entries of a busy machine."""
    entries = ENTRIES // 10
    upload = made(f"{entries}.busy", "make_upload.py", "busy", 1, entries)
    stream = made(f"{entries}.busy-stream", "make_upload.py", "busy-stream", 1, entries)
    programs = Collecting(program, built_baseline()).programs
    targets = {name: os.path.join(OUT, f"busy-{name}.db") for name, _ in programs}
    commands = [[path, "collect", targets[name], upload] for name, path in programs]
    if os.access(REMOTE, os.X_OK):
        targets["remote"] = os.path.join(OUT, "busy.journal")
        # It tells of the lines of metadata that it leaves out, entry by entry.
        quiet = ["sh", "-c", 'exec "$@" 2>/dev/null', "sh"]
        commands.append([*quiet, REMOTE, f"--output={targets['remote']}", stream])
    else:
        print(f"no {REMOTE} is here, so there is no figure for it")
    outputs = list(targets.values())
    runs = interleaved(commands, lambda index: forget(outputs[index]))
    print(f"{entries:,} entries of 24 fields are taken in")
    for name, each in zip(targets, runs):
        print(f"  {name:8} {rates(each, entries, megabytes([stream]))}")
    for name, each in list(zip(targets, runs))[1:]:
        print(f"  to {name}: {ratio([runs[0], each])}, of processor times {runs[0].processor / each.processor:.2f}")
    for output in outputs:
        forget(output)


def measure_migrating(program: str) -> None:
    database = os.path.join(OUT, "migrated.db")

    def renew(_):
        forget(database)
        Run(["cp", old, database])

    for entries in (ENTRIES // 10, ENTRIES):
        try:
            old = made(f"{entries}.old", "make_old.py", entries)
        except OSError:
            print("Python's sqlite3 isn't here or makes no such tables, so there is no figure for migrate")
            return
        runs = best([program, "migrate", database], renew)
        print(f"migrate, {entries:,} entries: {rates(runs, entries, megabytes([old]))}", flush=True)
    forget(database)


def main() -> None:
    program = os.path.abspath(sys.argv[1])
    os.makedirs(OUT, exist_ok=True)
    say_machine(program)
    measure_reading(program)
    measure_collecting(program)
    measure_beside_remote(program)
    measure_migrating(program)
    notes.measure(program)
    print(f"load after: {' '.join(f'{load:.1f}' for load in os.getloadavg())}")


if __name__ == "__main__":
    main()
