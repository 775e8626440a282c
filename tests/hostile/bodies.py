"""Streams and journal files read, and collected as the bodies of uploads, under limits that the program itself has no
words for: by crates/jc_test_calls, a program for tests that makes public calls over a journal in memory.

The answers are worked out by the model's own reader. The spaces record what is asked of them: no range ends after the
arena, each object is asked for once, and of a field no more than the limits let a pair have.
"""
from __future__ import annotations

import os
import shutil
import struct
import subprocess
from collections.abc import Iterator, Sequence

import model
import samples
import uploads
import vectors
from content_files import ContentFiles
from export_streams import binary
from limit_table import LEAST, USED, Limits
from model import ARRAY, ENTRY, HEADER, Bad, Journal, JournalFile, reading
from trial import Trial
from vectors import M, Vector

CALLS = os.path.abspath(os.environ["CALLS"])
ONE_MORE = LEAST._replace(fields=9)
FILES = LEAST._replace(file=4096)
F4 = LEAST._replace(file=512)
PROGRAM = USED
KINDS = {"export": 1, "file": 2}
# How many lines a word prints.
LINES = {"space": 2, "stream": 1, "read": 1, "entries": 1, "scan": 1, "scan-1": 1, "scan-7": 1, "file": 3, "pages": 1}
RANDOM_FILES = 1000


class Asked(JournalFile):
    """What a reader comes to in a file: how many arrays it counts, and how many bytes it needs. Of an object these are
    its type and its size, of an ENTRY its numbers and its boot, and of a field what a pair may have."""

    def __init__(self, data: bytes) -> None:
        self.steps = self.bytes = 0
        self.is_sound = False
        try:
            super().__init__(data)
            self.is_sound = True
            for item in self.items():
                self.entry(item)
        except Bad as fault:
            # the offset that ends the chain too early
            self.bytes += 8 * (fault.args[0] == 40)

    def offset_at(self, place: int) -> int:
        self.bytes += 8
        return super().offset_at(place)

    def size_of(self, offset: int, kind: int, least: int, step: int) -> int:
        self.bytes += 16
        size = super().size_of(offset, kind, least, step)
        self.steps += kind == ARRAY
        self.bytes += {ARRAY: 0, ENTRY: 40}.get(kind, min(size - 64, model.LIMITS.name + 1 + model.LIMITS.value))
        return size

    def bounds(self, length: int) -> tuple[int, int]:
        """Where the last range ends at most, and how many bytes all of them have at most."""
        if length < HEADER or length > model.LIMITS.file:
            return 0, 0
        return self.end if self.is_sound else HEADER, HEADER + self.bytes


class Calls:
    """Words for one run of the program, and what each line that it prints has to be."""

    def __init__(self, trial: Trial) -> None:
        self.trial = trial
        self.files = ContentFiles(trial.folder())
        self.words = [CALLS]
        self.judges: list[tuple[str, str | tuple[int, int]]] = []
        self.journal = Journal()

    def begin(self, limits: Limits) -> None:
        """The journal is empty again."""
        self.words += ["limits", ",".join(map(str, limits))]
        self.journal = Journal()
        model.LIMITS = limits

    def add(self, what: str, word: str, data: bytes, *wanted: str | tuple[int, int]) -> None:
        """A word on some bytes. Each line is a text, or a bound of what may be asked."""
        self.words += [word, self.files.put(data)]
        self.judges += [(f"{what}: {word}", line) for line in wanted]

    def read(self, what: str, kind: str, body: bytes) -> None:
        """A body by itself, in several ways."""
        wanted = reading(kind, body)
        if kind == "export":
            for word in ("read", "entries", "scan", "scan-1", "scan-7"):
                self.add(what, word, body, wanted)
        else:
            asked = Asked(body)
            self.add(what, "file", body, wanted, f"steps {asked.steps}", asked.bounds(len(body)))
            self.add(what, "pages", body, wanted)

    def collect(self, what: str, kind: str, body: bytes, word: str) -> str:
        """An upload with this body; answers its line."""
        upload = samples.head(KINDS[kind]) + body
        line = self.journal.take(upload)
        last, most = Asked(body).bounds(len(body)) if kind == "file" else (len(body), len(body))
        bound = (samples.HEAD + last, samples.HEAD + most)
        self.add(what, word, upload, line, *[bound][:LINES[word] - 1])
        return line

    def run(self) -> int:
        """Runs all that was added; answers how many lines were looked at."""
        told = subprocess.run(self.words, stdout=subprocess.PIPE, stderr=subprocess.PIPE, check=False, timeout=600)
        shutil.rmtree(self.files.folder)
        self.trial.expect("the end of the program", (told.returncode, told.stderr), (0, b""))
        lines = told.stdout.decode().splitlines()
        self.trial.expect("how many lines", len(lines), len(self.judges))
        for (what, wanted), line in zip(self.judges, lines):
            if isinstance(wanted, tuple):
                word, last, count = line.split(" ")
                within = word == "asked" and int(last) <= wanted[0] and int(count) <= wanted[1]
                self.trial.expect(f"{what}: {line}, at most {wanted}", within, True)
            else:
                self.trial.expect(what, line, wanted)
        return len(self.judges)


def full_fields(count: int) -> bytes:
    """Fields whose names and values are the longest ones."""
    return (b"A" * 64 + b"=" + b"x" * 64 + b"\n") * count


def least_streams() -> Iterator[Vector]:
    """Streams at the least limits and one over them; and with two faults at once, of which the first one is told."""
    yield M + b"A" * 64, "ok 0 173"
    yield M + b"A" * 65, "bad 11 109"
    yield M + b"A\n" + struct.pack("<Q", 65), "bad 12 109"
    yield M + b"A\n" + struct.pack("<Q", 64), "ok 0 119"
    yield M + b"A=" + b"x" * 64 + b"\n\n", "ok 1 0"
    yield M + b"A=" + b"x" * 65, "bad 12 109"
    yield M + b"A=1\n" * 8 + b"\n", "ok 1 0"
    yield M + b"A=1\n" * 9 + b"\n", "bad 14 141"
    yield M + b"A" * 65 + b"=" + b"x" * 65 + b"\n\n", "bad 11 109"
    yield M + b"A" * 65 + b"\n" + struct.pack("<Q", 65), "bad 11 109"
    yield M + b"A=1\n" * 8 + b"=\n\n", "bad 10 141"
    yield M + b"A=1\n" * 8 + b"B=" + b"x" * 65 + b"\n\n", "bad 12 141"
    yield M + b"A=1\n" * 8 + binary(b"B", b"1")[:-1] + b"X", "bad 13 152"
    yield M + full_fields(8) + b"B=\n", f"bad 14 {109 + 8 * 130}"
    yield M + b"__SEQNUM=1\n" + b"A=1\n" * 9 + b"\n", "bad 14 152"


def heavy_streams() -> Iterator[Vector]:
    """Nine fields, with more than an entry may have."""
    yield M + full_fields(8) + b"\n", "ok 1 0"
    yield M + full_fields(8) + b"B=\n", f"bad 15 {109 + 8 * 130}"
    yield M + full_fields(8) + b"B=" + b"x" * 65, f"bad 12 {109 + 8 * 130}"


def several(payloads: Sequence[bytes]) -> tuple[bytes, int]:
    """A journal file of one entry with these fields, and the place of the first."""
    size = 64 + 16 * len(payloads)
    objects, items = b"", b""
    for payload in payloads:
        items += struct.pack("<QQ", 240 + size + len(objects), 0)
        data = samples.edited(samples.FILE[320:384] + payload, {8: 64 + len(payload)})
        objects += data + bytes(-len(data) % 8)
    data = samples.FILE[:304] + items + objects
    return samples.edited(data, {96: 32 + size + len(objects), 248: size}), 240 + size


def one_field(payload: bytes, verdict: str) -> Vector:
    data, place = several([payload])
    return data, verdict if verdict == "ok 1 0" else f"{verdict} {place}"


def least_files() -> Iterator[Vector]:
    """Journal files at the least limits and one over them; and fields with two faults at once."""
    yield one_field(b"A" * 64 + b"=" + b"x" * 64, "ok 1 0")
    yield one_field(b"A" * 65 + b"=", "bad 11")
    yield one_field(b"A=" + b"x" * 65, "bad 12")
    yield one_field(b"A=" + b"x" * 2000, "bad 12")
    yield one_field(b"A" * 65 + b"=" + b"x" * 65, "bad 11")
    yield one_field(b"A" * 65, "bad 11")
    yield one_field(b"A" * 64, "bad 46")
    yield one_field(b"=" + b"x" * 65, "bad 46")
    yield one_field(b"A" * 64 + b"\n" + b"x" * 65, "bad 46")
    data, place = several([b"A" * 65])
    yield samples.edited(data, {place + 1: b"\x01"}), f"bad 45 {place}"
    # beside _BOOT_ID the eighth field is one too many; what is wrong with the field itself is told first
    seven = [b"A=%d" % number for number in range(7)]
    for last, code in ((b"B=", 14), (b"B=" + b"x" * 65, 12), (b"B", 46), (b"=" + b"x" * 65, 46), (b"A" * 65, 11)):
        data, place = several([*seven, last])
        yield data, f"bad {code} {place + 7 * 72}"
    yield several(seven)[0], "ok 1 0"
    # one that is too many and too much
    data, place = several(long_payloads(8))
    yield data, f"bad 14 {place + 7 * 200}"


def long_payloads(count: int) -> list[bytes]:
    return [b"A" * 64 + b"=%064d" % number for number in range(count)]


def heavy_files() -> Iterator[Vector]:
    """Nine pairs, with more than an entry may have; _BOOT_ID has 40 bytes."""
    yield several([*long_payloads(7), b"B=" + b"x" * 64])[0], "ok 1 0"
    data, place = several(long_payloads(8))
    yield data, f"bad 15 {place + 7 * 200}"
    data, place = several([*long_payloads(7), b"B" * 64 + b"=" + b"x" * 65])
    yield data, f"bad 12 {place + 7 * 200}"


def repeated() -> Iterator[Vector]:
    """An entry of eight items that all name one field, and the same file with one item less."""
    data, place = vectors.one_field_again(8)
    yield data, f"bad 14 {place}"
    yield samples.edited(data, {248: 176}), "ok 1 0"


def chains() -> Iterator[Vector]:
    """Arrays that follow one another, with two faults at once: of an offset, of its order and of its type."""
    for number, verdict in ((212, "bad 41 224"), (208, "bad 44 224"), (216, "bad 44 224"), (232, "bad 44 224"),
                            (240, "bad 42 240")):
        yield samples.edited(samples.FILE, {152: 2, 224: number}), verdict
    yield samples.edited(samples.FILE, {152: 2, 208: b"\x05", 216: 23, 224: 212}), "bad 42 208"


STEPS = ((samples.FILE, 1), (samples.edited(samples.FILE, {152: 0}), 0), (samples.edited(samples.FILE, {152: 2}), 1),
         (samples.edited(samples.FILE, {152: 2, 224: 208}), 1), (samples.edited(samples.FILE, {176: 0}), 0),
         (vectors.many_arrays(), 1000), (vectors.one_entry_twice(), 1))

# What a scanner answers to each `feed` of what is left of a stream, and what it says then; the last takes nothing.
WAITS, ENDED = "feed 121 held 9 field 7 2 waits entry", "feed 0 held 0 left 0 none"
FED = ((PROGRAM, samples.E1 + samples.E2, (WAITS, WAITS, ENDED)),
       (PROGRAM, b"\n" + samples.E1, (WAITS.replace("121", "122"), ENDED)),
       (PROGRAM, M + b"=x\n\n", ("feed 110 held 1 bad 10 109 fault", "feed 0 held 1 bad 10 109 fault")),
       (LEAST, M + b"A=" + 66 * b"x", ("feed 176 held 67 bad 12 109 fault", "feed 0 held 67 bad 12 109 fault")),
       (PROGRAM, M + b"MESSAGE=hi\n",
        ("feed 120 held 9 field 7 2 left 120 none", "feed 0 held 9 field 7 2 left 120 none")),
       (PROGRAM, samples.E1[:119], ("feed 119 held 10 left 119 none", "feed 0 held 10 left 119 none")))

GROUPS = ((LEAST, "export", least_streams), (ONE_MORE, "export", heavy_streams), (PROGRAM, "export", vectors.streams),
          (FILES, "file", least_files), (FILES._replace(fields=9), "file", heavy_files), (F4, "file", repeated),
          (PROGRAM, "file", chains), (PROGRAM, "file", vectors.files), (PROGRAM, "file", vectors.crafted))


def rows(trial: Trial) -> int:
    """Each row by itself, and as a body: as a space and as a stream, each into an empty journal."""
    lines = 0
    for limits, kind, made in GROUPS:
        calls = Calls(trial)
        for number, (data, verdict) in enumerate(made()):
            one_row(calls, f"{made.__name__} {number}", limits, kind, data, verdict)
        lines += calls.run()
    return lines


def one_row(calls: Calls, what: str, limits: Limits, kind: str, data: bytes, verdict: str) -> None:
    for word in ("space", "stream"):
        calls.begin(limits)
        line = calls.collect(what, kind, data, word)
        calls.trial.expect(f"{what}: the model", reading(kind, data), verdict)
        end, first, second = verdict.split(" ")
        told = f"{first} {len(calls.journal.entries)} {second}" if end == "ok" else f"{first} {second}"
        calls.trial.expect(f"{what}: the model's line", line.split(" ", 3)[3], told)
    calls.read(what, kind, data)


def steps(trial: Trial) -> int:
    """How many arrays count."""
    calls = Calls(trial)
    for data, count in STEPS:
        calls.begin(PROGRAM)
        trial.expect("arrays in the model", Asked(data).steps, count)
        calls.read(f"a file with {count} arrays", "file", data)
    return calls.run()


def fed(trial: Trial) -> int:
    """A scanner, call by call."""
    calls = Calls(trial)
    for number, (limits, data, lines) in enumerate(FED):
        calls.begin(limits)
        calls.add(f"a scanner {number}", "feed", data, *lines)
    return calls.run()


def damaged(trial: Trial) -> int:
    """A file with each of its bytes set to five values, and files with random edits."""
    made = [samples.edited(samples.FILE, {place: bytes([value])})
            for place in range(400) for value in (0, 1, 127, 128, 255)]
    made += [uploads.harmed_file(trial.dice) for _ in range(RANDOM_FILES)]
    calls = Calls(trial)
    calls.begin(PROGRAM)
    for number, data in enumerate(made):
        calls.read(f"damage {number}", "file", data)
        calls.collect(f"damage {number}", "file", data, "space")
    return calls.run()


def main() -> None:
    with Trial("bodies") as trial:
        lines = rows(trial) + steps(trial) + fed(trial)
        trial.finish(f"{lines} lines of rows", f"{damaged(trial)} of damaged files")


if __name__ == "__main__":
    main()
