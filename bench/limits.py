#!/usr/bin/env python3
"""Measures what each command costs, for docs/PERFORMANCE.md: limits.py PROGRAM [ENTRIES..]

For each number of entries (10,000 and 100,000 unless given): time and memory of each command, and the size of the
database. Then a stream of 1 GB, uploads that are named at once, machines, and the greatest entry and file.
"""
from __future__ import annotations

import os
import resource
import struct
import sys

from measure import HERE, OUT, Run, forget, made, megabytes, output_of, say_machine

sys.path.insert(0, os.path.join(HERE, "..", "tests"))
from limit_table import USED  # noqa: E402
from samples import HEAD, STREAM, head  # noqa: E402

SOURCE = "a0a1a2a3a4a5a6a7a8a9aaabacadaeaf"
SEQUENCE = bytes(range(16)).hex().encode()
DATABASE = os.path.join(OUT, "limits.db")
RESUME = os.path.join(OUT, "limits.resume")


def say(what: str, run: Run) -> None:
    print(f"  {what:38} {run.seconds:8.2f} s {run.peak:7.0f} MiB", flush=True)


def source(kind: str, path: str) -> list[str]:
    return ["--source", SOURCE, "--resume", RESUME, kind, path]


def acked(program: str, kind: str, path: str, answers: str = "/dev/null") -> Run:
    """A run of `ack`, with these answers on standard input."""
    return Run(["sh", "-c", 'answers=$1; shift; "$@" < "$answers"', "sh", answers, program, "ack", *source(kind, path)])


def measure_machine(program: str, entries: int) -> None:
    """The commands of a machine, over a stream and a journal file with this number of entries."""
    stream = made(f"{entries}.stream", "make_upload.py", "stream", 1, entries)
    file = made(f"{entries}.journal", "make_file.py", entries)
    for kind, path in (("export", stream), ("file", file)):
        print(f"  a source of {megabytes([path]):.0f} MB")
        say(f"verify {kind}", Run([program, "verify", kind, path]))
        say(f"upload {kind}", Run([program, "upload", *source(kind, path)]))
        say(f"ack {kind}", acked(program, kind, path))
        os.remove(RESUME)


def measure_long_stream(program: str) -> None:
    """A machine's commands over a stream of 1 GB. Nothing is acknowledged of it, and then all but one upload."""
    entries = 1_200_000
    stream = made("long.stream", "make_upload.py", "stream", 1, entries)
    answers = os.path.join(OUT, "long.answers")
    with open(answers, "w") as file:
        file.write(f"ack {SOURCE} 0 {entries - 1000} 0 0\n")
    print(f"a stream of {megabytes([stream]):.0f} MB")
    say("verify", Run([program, "verify", "export", stream]))
    for limit in (1_000, 20_000):
        say(f"upload --limit {limit}", Run([program, "upload", "--limit", str(limit), *source("export", stream)]))
    say("ack of nothing", acked(program, "export", stream))
    say("ack of all but 1,000 entries", acked(program, "export", stream, answers))
    say("upload of the last 1,000", Run([program, "upload", *source("export", stream)]))
    for path in (RESUME, answers, stream):
        os.remove(path)


def measure_collector(program: str, entries: int) -> None:
    """The commands over a database, which gets this number of entries."""
    empty = made("empty.upload", "make_upload.py", "export", 1, 0)
    uploads = [made(f"{first}.upload", "make_upload.py", "export", first, first + 999)
               for first in range(1, entries, 1000)]
    for what, paths in (("one export upload", [made(f"{entries}.upload", "make_upload.py", "export", 1, entries)]),
                        ("one journal file", [made(f"{entries}.file-upload", "make_upload.py", "file", entries)]),
                        (f"{len(uploads)} export uploads", uploads)):
        forget(DATABASE)
        say(f"collect {what}", Run([program, "collect", DATABASE, *paths]))
    print(f"  a database of {megabytes([DATABASE]):.0f} MB")
    say("collect an upload without entries", Run([program, "collect", DATABASE, empty]))
    for command in ("check", "export", "show"):
        say(command, Run([program, command, DATABASE]))
    forget(DATABASE)
    Run(["cp", made(f"{entries}.old", "make_old.py", entries), DATABASE])
    print(f"  a database of version 1 of {megabytes([DATABASE]):.0f} MB")
    say("migrate", Run([program, "migrate", DATABASE]))
    forget(DATABASE)


def measure_uploads(program: str) -> None:
    """How much memory an upload takes that is named beside others, and what happens at the limit of open files."""
    empty = made("empty.upload", "make_upload.py", "export", 1, 0)
    one, many = (Run([program, "collect", DATABASE, *[empty] * count]).peak for count in (1, 900))
    print(f"uploads named at once: {(many - one) * 1024 / 899:.0f} KiB of memory each")
    greatest = resource.getrlimit(resource.RLIMIT_NOFILE)
    resource.setrlimit(resource.RLIMIT_NOFILE, (64, greatest[1]))
    errors = os.path.join(OUT, "errors")
    for count in range(50, 70):
        try:
            Run([program, "collect", DATABASE, *[empty] * count], errors=errors)
        except OSError:
            break
    resource.setrlimit(resource.RLIMIT_NOFILE, greatest)
    print(f"with 64 open files allowed, {count} uploads are too many: {output_of(['cat', errors])[:11]}", flush=True)
    forget(DATABASE)


def measure_machines(program: str) -> None:
    """Uploads of ten entries from 900 machines, beside nine uploads of 1,000 entries from one."""
    with open(made("1-10.upload", "make_upload.py", "export", 1, 10), "rb") as file:
        upload = file.read()
    paths = [os.path.join(OUT, f"machine-{number}") for number in range(900)]
    for number, path in enumerate(paths):
        own = struct.pack(">QQ", number, 1)
        with open(path, "wb") as file:
            file.write(head(STREAM, source=own) + upload[HEAD:].replace(SEQUENCE, own.hex().encode()))
    print("9,000 entries")
    say("of 900 machines, in 900 uploads", Run([program, "collect", DATABASE, *paths]))
    forget(DATABASE)
    uploads = [made(f"{first}.upload", "make_upload.py", "export", first, first + 999)
               for first in range(1, 9000, 1000)]
    say("of 1 machine, in 9 uploads", Run([program, "collect", DATABASE, *uploads]))
    for path in paths:
        os.remove(path)
    forget(DATABASE)


def measure_greatest(program: str) -> None:
    """An entry at its limit, and a journal file of one byte over its limit."""
    path = os.path.join(OUT, "greatest.upload")
    meta = b"__REALTIME_TIMESTAMP=1\n__MONOTONIC_TIMESTAMP=1\n__SEQNUM=1\n__SEQNUM_ID=%s\n" % SEQUENCE
    for over in (0, 1):
        with open(path, "wb") as file:
            file.write(head(STREAM) + meta)
            for name in (b"A", b"B"):
                file.write(name + b"=" + b"x" * (USED.entry // 2 - 1 + (over if name == b"A" else 0)) + b"\n")
            file.write(b"\n")
        forget(DATABASE)
        say(f"collect an entry at its limit, and {over}", Run([program, "collect", DATABASE, path], status=over))
    forget(DATABASE)
    with open(path, "wb") as file:
        file.truncate(USED.file + 1)
    say("verify a file of a byte over its limit", Run([program, "verify", "file", path], status=1))
    os.remove(path)


def main() -> None:
    program = os.path.abspath(sys.argv[1])
    os.makedirs(OUT, exist_ok=True)
    say_machine(program)
    for entries in map(int, sys.argv[2:] or (10_000, 100_000)):
        print(f"{entries:,} entries")
        measure_machine(program, entries)
        measure_collector(program, entries)
    measure_long_stream(program)
    measure_uploads(program)
    measure_machines(program)
    measure_greatest(program)


if __name__ == "__main__":
    main()
