"""Hostile streams and journal files through the program, as uploads, by `verify` and by `inspect`: faults of every
kind, each front of an upload, each byte of a file set to other values, and random damage.

What has to be answered stands beside each stream and file, and is worked out by the model's own reader; the journal
then has to hold what was accepted.
"""
from __future__ import annotations

import os
import random
from collections.abc import Sequence
from concurrent.futures import Executor, ThreadPoolExecutor

import samples
import vectors
from export_streams import binary
from model import Journal, inspected, reading
from trial import Trial, as_output, run, status_of

BATCH = 200
STREAMS = 2000
FILES = 3000
KINDS = {"export": 1, "file": 2}
# What random damage puts into a stream.
PUT_IN = (b"=", b"\n", b"\n\n", b"_", b"__", b"\x00", b"A\n", b"A=", b"0")


def with_pipes(database: str, uploads: Sequence[bytes]) -> tuple[bytes, str, int]:
    """A run in which each upload comes through a pipe, which holds it whole."""
    ends = [os.pipe() for _ in uploads]
    for (_, into), upload in zip(ends, uploads):
        os.write(into, upload)
        os.close(into)
    readers = [reader for reader, _ in ends]
    told = run("collect", database, *(f"/dev/fd/{reader}" for reader in readers), pass_fds=readers)
    for reader in readers:
        os.close(reader)
    return told


def both_ways(trial: Trial, what: str, uploads: Sequence[bytes], lines: Sequence[str] | None = None) -> int:
    """Uploads, in one run into a new journal, as files and as pipes; each line is the model's and one handed in."""
    journal = Journal()
    wanted = [journal.take(upload) for upload in uploads]
    for line, other in zip(wanted, lines or wanted):
        trial.expect(f"{what}: the model", line, other)
    ways = (("files", lambda db: run("collect", db, *trial.put(uploads))),
            ("pipes", lambda db: with_pipes(db, uploads)))
    for way, collect in ways:
        database = trial.database()
        trial.expect(f"{what}: {way}", collect(database), (as_output(wanted), "", status_of(wanted)))
        trial.expect(f"{what}: {way}, export", run("export", database), (journal.text(), "", 0))
    return 2 * len(uploads)


def in_batches(trial: Trial, what: str, uploads: Sequence[bytes]) -> int:
    """Uploads, BATCH at a time into one journal; each batch begins a new one."""
    return sum(both_ways(trial, f"{what} {first} on", uploads[first:first + BATCH])
               for first in range(0, len(uploads), BATCH))


def inspects(trial: Trial, what: str, upload: bytes) -> None:
    """An upload by `inspect`, which has no database."""
    path, = trial.put([upload])
    line = inspected(upload)
    trial.expect(f"{what}: inspect", run("inspect", path), ((line + "\n").encode(), "", int(line.startswith("bad"))))


def one_vector(trial: Trial, kind: str, number: int, data: bytes, verdict: str) -> None:
    """A stream or file by itself: by `verify`, by `inspect` as an upload, and as a file's or on standard input."""
    what = f"{kind} {number}"
    path, = trial.put([data])
    status = 0 if verdict.startswith("ok") else 1
    trial.expect(f"{what}: the model", reading(kind, data), verdict)
    trial.expect(f"{what}: verify", run("verify", kind, path), ((verdict + "\n").encode(), "", status))
    upload = samples.head(KINDS[kind]) + data
    inspects(trial, what, upload)
    journal = Journal()
    line = journal.take(upload)
    word, first, second = verdict.split(" ")
    source = samples.SOURCE.hex()
    told = f"no {source} 0 {first} {second}"
    if word == "ok":
        told = f"ack {source} 0 {first} {len(journal.entries)} {second}"
    trial.expect(f"{what}: the model's line", line, told)
    for way in ("file", "input"):
        database = trial.database()
        words, stdin = (trial.put([upload]), b"") if way == "file" else ([], upload)
        got = run("collect", database, *words, stdin=stdin)
        trial.expect(f"{what}: {way}", got, (as_output([told]), "", status))
        trial.expect(f"{what}: {way}, export", run("export", database), (journal.text(), "", 0))


def all_vectors(trial: Trial, pool: Executor) -> int:
    cases = [("export", *case) for case in vectors.streams()]
    cases += [("file", *case) for case in (*vectors.files(), *vectors.crafted())]
    list(pool.map(lambda case: one_vector(trial, case[1][0], case[0], *case[1][1:]), enumerate(cases)))
    return len(cases)


def fronts(trial: Trial) -> int:
    """Each front of five uploads, each into a journal with nothing before it. Two of them are to be whole."""
    source = samples.SOURCE.hex()
    nested = vectors.M.replace(b"SEQNUM=1\n", b"SEQNUM=2\n") + binary(b"MESSAGE", samples.E1) + b"\n"
    file = samples.head(2) + samples.FILE
    of_stream = lambda length: f"ack {source} 0 0 0 {length - 48}"
    of_file = lambda length: f"no {source} 0 " + (f"30 {length - 48}" if length < 256 else "38 96")
    of_two = lambda length: f"no {source} 0 5 {int(length >= 169)}"
    tried = 0
    for upload, size, entries, part in (
        (samples.stream(samples.E1), 169, 1, of_stream), (samples.stream(nested), 296, 1, of_stream),
        (file, 448, 1, of_file), (vectors.whole(file, 1), 448, 1, of_file),
        (vectors.whole(samples.stream(samples.E1, samples.E2), 2), 290, 2, of_two),
    ):
        trial.expect("the size of an upload", len(upload), size)
        cuts = [upload[:length] for length in range(size)]
        lines = [f"no - - 1 {length}" if length < 48 else part(length) for length in range(size)]
        for first in range(0, size, BATCH):
            last = first + BATCH
            # the whole upload comes last, when nothing but fronts that store nothing were before it
            tried += both_ways(trial, f"fronts of {size} bytes, {first} on", [*cuts[first:last], upload],
                               [*lines[first:last], f"ack {source} 0 {entries} {entries} 0"])
    return tried


def each_byte(trial: Trial) -> int:
    """A file with each of its bytes set to five values."""
    made = [samples.edited(samples.FILE, {place: bytes([value])})
            for place in range(400) for value in (0, 1, 127, 128, 255)]
    return in_batches(trial, "each byte", [samples.head(2) + data for data in made])


def heads(trial: Trial) -> int:
    """Uploads of either version with each byte of the header set to other values."""
    uploads = samples.stream(samples.E1), vectors.whole(samples.stream(samples.E1), 1)
    made = [samples.edited(upload, {place: bytes([value])}) for upload in uploads
            for place in range(48) for value in (0, 1, 2, 3, 0x31, 0x32, 0x4b, 255)]
    for number, upload in enumerate(made[::7]):
        inspects(trial, f"header {7 * number}", upload)
    return in_batches(trial, "headers", made)


NUMBERS = (0, 1, 7, 8, 16, 24, 63, 64, 65, 80, 200, 208, 240, 320, 392, 400, 2**31, 2**32, 2**63 - 1, 2**63, 2**64 - 8,
           2**64 - 1)


def harmed_file(dice: random.Random) -> bytes:
    """A file with one to four edits: numbers where numbers may be, bytes, cuts, and objects over one another."""
    data = dice.choice((samples.FILE, vectors.LATER, vectors.one_entry_twice(), vectors.one_field_again(3)[0]))
    for _ in range(dice.randint(1, 4)):
        if len(data) < 16:
            break
        place = dice.randrange(len(data) // 8) * 8
        data = dice.choice((
            lambda: samples.edited(data, {place: dice.choice(NUMBERS)})[:len(data)],
            lambda: samples.edited(data, {dice.randrange(len(data)): bytes([dice.randrange(256)])}),
            lambda: samples.edited(
                data, {place: data[dice.randrange(len(data) // 8) * 8:][:dice.choice((8, 32, 80))]})[:len(data)],
            lambda: data[:dice.randrange(len(data))] if dice.random() < 0.2 else data + bytes(8),
        ))()
    return data


def harmed_stream(dice: random.Random) -> bytes:
    """A stream with one to four edits: bytes and lines put in, taken out, changed and exchanged."""
    nested = vectors.M + binary(b"MESSAGE", samples.E1) + binary(b"A", b"\xff") + b"\n"
    data = dice.choice((samples.E1 + samples.E2, nested, b"\n" + samples.E3 + nested.replace(b"SEQNUM=1", b"SEQNUM=4")))
    for _ in range(dice.randint(1, 4)):
        place = dice.randrange(len(data) + 1)
        lines = data.splitlines(keepends=True)
        data = dice.choice((
            lambda: data[:place] + dice.choice(PUT_IN) + data[place:],
            lambda: data[:place] + data[place + dice.choice((1, 2, 8)):],
            lambda: data[:place] + dice.randbytes(1) + data[place + 1:],
            lambda: b"".join(dice.sample(lines, len(lines))) if dice.random() < 0.3 else
                data + dice.choice(lines or [b""]),
        ))()
    return data


def random_damage(trial: Trial) -> int:
    dice = trial.dice
    uploads = [samples.head(1) + harmed_stream(dice) for _ in range(STREAMS)]
    uploads += [samples.head(2) + harmed_file(dice) for _ in range(FILES)]
    for number, upload in enumerate(uploads[::10]):
        inspects(trial, f"random damage {10 * number}", upload)
    return in_batches(trial, "random damage", uploads)


def large_files(trial: Trial) -> None:
    """A file of as many bytes as one may have, most of them never written, and one of a byte more."""
    for more, verdict, line in ((0, "ok 1 0", "ack {} 0 1 1 0"), (1, "bad 47 0", "no {} 0 47 0")):
        status = int(verdict.startswith("bad"))
        for head, words, told in ((b"", ("verify", "file"), verdict),
                                  (samples.head(2), ("collect", trial.database()), line.format(samples.SOURCE.hex()))):
            path, = trial.put([head + samples.FILE])
            os.truncate(path, len(head) + vectors.SPACE + more)
            trial.expect(f"a large file and {more}: {words[0]}", run(*words, path),
                         (as_output([told]), "", status))
            os.remove(path)


def main() -> None:
    with Trial("hostile uploads") as trial, ThreadPoolExecutor(os.cpu_count()) as pool:
        single = all_vectors(trial, pool)
        large_files(trial)
        front = fronts(trial)
        byte = each_byte(trial)
        head = heads(trial)
        harmed = random_damage(trial)
        trial.finish(f"{single} streams and files three ways", f"{front} fronts", f"{byte} with a byte changed",
                     f"{head} with a header's byte changed", f"{harmed} harmed at random")


if __name__ == "__main__":
    main()
