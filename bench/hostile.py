#!/usr/bin/env python3
"""How long twenty machines wait for answers beside eight connections of two hostile machines.

usage: hostile.py PROGRAM [--seconds S] [KIND..]

For each kind of what hostile machines do, or for those that are named, it begins a collector. For S seconds (30) each
healthy machine sends twenty entries, and more 0.3 s after the answer. The hostile ones are processes of their own.
"""
import argparse
import contextlib
import hashlib
import multiprocessing
import os
import sys
import tempfile
import threading
import time
from multiprocessing.connection import Connection
from pathlib import Path

from load import ROOT, Answers, Collector, Line, in_threads, told, upload, whole

sys.path.append(str(ROOT / "deploy"))
from journalcollect.common.protocol import MOST_WINDOWS, WINDOW  # noqa: E402

HEALTHY, HOSTILE, CONNECTIONS = 20, 2, 4


def entry(sequence: str, number: int, fields: str = "MESSAGE=x\n") -> bytes:
    return (f"__REALTIME_TIMESTAMP={number}\n__MONOTONIC_TIMESTAMP=1\n__SEQNUM={number}\n__SEQNUM_ID={sequence}\n"
            f"_BOOT_ID={1:032x}\n{fields}\n").encode()


def sequence(number: int, turn: int, which: int = 0) -> str:
    """One that nobody else has."""
    return f"bad{which:05x}{number:012x}{turn:012x}"


def many_sequences(number: int, turn: int) -> bytes:
    return whole(b"".join(entry(sequence(number, turn, which), 1) for which in range(3900)), 3900)


def many_windows(number: int, turn: int, count: int = 3900) -> bytes:
    return whole(b"".join(entry(sequence(number, turn), 1 + WINDOW * each) for each in range(count)), count)


def sixteen_windows(number: int, turn: int) -> bytes:
    return many_windows(number, turn, MOST_WINDOWS)


def many_fields(number: int, turn: int) -> bytes:
    fields = "".join(f"F{each:05}=\n" for each in range(4000))
    return whole(b"".join(entry(sequence(number, turn), 1 + each, fields) for each in range(16)), 16)


def large_entry(number: int, turn: int) -> bytes:
    return whole(entry(sequence(number, turn), 1, f"MESSAGE={'x' * 16_000_000}\n"), 1)


def refused(number: int, turn: int) -> bytes:
    """Another entry under the same key, each time."""
    return whole(entry(sequence(number, 0), 1, f"MESSAGE=text {turn}\n"), 1)


def slow(line: Line, number: int, turn: int) -> None:
    data = upload(1000 + number, turn, 1)
    for byte in f"upload {len(data)} {hashlib.sha256(data).hexdigest()} 1\n".encode() + data:
        line.writes.write(bytes([byte]))
        time.sleep(0.01)
    line.line()


def nothing(line: Line, number: int, turn: int) -> None:
    time.sleep(0.5)


def cut(line: Line, number: int, turn: int) -> None:
    data = upload(1000 + number, 900 * turn, 899)
    line.writes.write(f"upload {len(data)} {hashlib.sha256(data).hexdigest()} 1\n".encode() + data[:-1])
    raise OSError("it goes")


UPLOADS = {"many-sequences": many_sequences, "many-windows": many_windows, "16-windows": sixteen_windows,
           "many-fields": many_fields, "large-entries": large_entry, "refused": refused}
DEEDS = {"slow": slow, "nothing": nothing, "cut": cut}


def begin_hostile(collector: Collector, kind: str, end: float) -> Connection:
    """They go on until then, in a process of their own, which says at its end how often they did it."""
    said, says = multiprocessing.Pipe(duplex=False)
    turns = [0] * (HOSTILE * CONNECTIONS)

    def hostile(number: int) -> None:
        while time.monotonic() < end:
            with contextlib.suppress(OSError):
                line = Line(collector, HEALTHY + number // CONNECTIONS)
                while time.monotonic() < end:
                    turns[number] += 1
                    if kind in DEEDS:
                        DEEDS[kind](line, number, turns[number])
                    else:
                        line.send(UPLOADS[kind](number, turns[number]))

    def all_of_them() -> None:
        in_threads(len(turns), hostile)
        says.send(sum(turns))

    multiprocessing.get_context("fork").Process(target=all_of_them, daemon=True).start()
    return said


def measure(program: str, kind: str, seconds: float) -> bool:
    answers = Answers()
    with tempfile.TemporaryDirectory(prefix="hostile.") as folder:
        collector = Collector(Path(folder), program, HEALTHY + HOSTILE, None, False)
        lines = [Line(collector, number) for number in range(HEALTHY)]
        for number, line in enumerate(lines):
            line.send(upload(number, 1, 1))
        end = time.monotonic() + seconds
        hostile = begin_hostile(collector, kind, end)

        def healthy(number: int) -> None:
            first = 2
            while time.monotonic() < end:
                begun = time.monotonic()
                first = told(lines[number].send(upload(number, first, 20)), begun, answers, first, 20)
                time.sleep(0.3)

        in_threads(HEALTHY, healthy)
        print(f"{kind}, {hostile.recv()} times, load {os.getloadavg()[0]:.0f}: ", end="")
        answers.say()
        sys.stdout.flush()
        collector.end()
    return not answers.wrong


def main() -> int:
    words = argparse.ArgumentParser()
    words.add_argument("program")
    words.add_argument("kinds", nargs="*", default=[*UPLOADS, *DEEDS], metavar="KIND")
    words.add_argument("--seconds", type=float, default=30.0)
    asked = words.parse_args()
    threading.stack_size(256 << 10)
    return 0 if all([measure(os.path.abspath(asked.program), kind, asked.seconds) for kind in asked.kinds]) else 1


if __name__ == "__main__":
    sys.exit(main())
