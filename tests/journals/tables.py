"""The uploads of the scripts beside this, as the program collects them into tables of each kind: from files, and in
pieces from pipes and sockets, also from devices that fail. What is stored then is exported."""
from __future__ import annotations

import os
import shutil
from collections.abc import Callable, Iterator
from functools import partial
from pathlib import Path

import device
from batches import Batch, answer, batches_of
from delivering import Told, by_failing_input, by_pipes, in_pieces, run
from failing import Failing
from pieces import bytes_of
from samples import HEAD
from steps import rows_of
from trial import PROGRAM, Trial, status_of

HERE = Path(__file__).resolve().parent
BATCHES = ("uploads", "whole-uploads")
# The options that make tables by key, and by number.
TABLES = ("2", "3")
# How many bytes a pipe gives at most at a read.
WAYS = (1, 7, 65_536)
# So many bytes behind a header are read at once.
AT_ONCE = 65_536
# Entries that are stored, an upload whose second entry conflicts, and where it begins again behind that one.
CONFLICTS = (("", "head:1:0 ENTRY CHANGED_ENTRY", "ENTRY_2 again:121:999"),
             ("ENTRY", "head:1:0 ENTRY_2 CHANGED_ENTRY", "ENTRY_3 again:121:999"))


def printed(lines: bytes) -> Told:
    """What a run prints whose answers have these lines."""
    return lines, "", status_of(lines.decode().splitlines())


class Tables:
    """Tables of one kind. Each row has some of its own."""

    def __init__(self, trial: Trial, kind: str) -> None:
        self.trial = trial
        self.kind = kind

    def collect(self, database: str) -> list[str]:
        return ["collect", "--tables", self.kind, database]

    def expect(self, what: str, got: object, wanted: object) -> None:
        self.trial.expect(f"{what}, tables {self.kind}", got, wanted)

    def stores(self, what: str, database: str, texts: bytes) -> None:
        """These entries are stored, and no others."""
        self.expect(f"{what}: what is stored", run("export", database), (texts, "", 0))

    def begun(self, upload: bytes) -> str:
        """A database with what an upload brought, if it isn't empty."""
        database = self.trial.database()
        if upload:
            run(*self.collect(database), *self.trial.put([upload]))
        return database

    def batch(self, what: str, batch: Batch) -> None:
        """A batch that one run collects, however it is delivered. Without uploads there is no run."""
        ways: dict[str, Callable[[list[str], list[bytes]], Told]] = {
            "files": lambda words, uploads: run(*words, *self.trial.put(uploads))}
        ways |= {f"pipes of {most} bytes": partial(by_pipes, most=most) for most in WAYS}
        for how, deliver in ways.items():
            database = self.begun(batch.begins)
            if batch.uploads:
                self.expect(f"{what}, {how}", deliver(self.collect(database), batch.uploads), printed(batch.lines))
            if batch.uploads or batch.begins:
                self.stores(f"{what}, {how}", database, batch.stores + batch.beside)
            shutil.rmtree(os.path.dirname(database))

    def stream_fails(self, what: str, row: Failing) -> None:
        """A stream that fails at each of its places in turn."""
        packets = in_pieces(row.upload, row.most)
        first, end, reads = row.places
        self.expect(f"{what}: reads", len(packets) + 1, reads)
        for passes in range(first, end):
            database = self.begun(b"")
            told = by_failing_input(self.collect(database), packets[:passes])
            self.fails(f"{what}, behind {passes} reads", row, database, told, row.refusal(passes))

    def fails(self, what: str, row: Failing, database: str, told: Told, refusal: bytes) -> None:
        """An upload is refused, nothing of it is stored, and then it is collected."""
        self.expect(what, told, printed(refusal))
        self.stores(what, database, b"")
        self.expect(f"{what}, again", run(*self.collect(database), *self.trial.put([row.upload])), printed(row.wanted))
        shutil.rmtree(os.path.dirname(database))

    def file_fails(self, what: str, row: Failing) -> None:
        """A file that fails at one call after another. Those before its first read open it and the folder."""
        passes, number = 0, 0
        while True:
            number += 1
            database = self.begun(b"")
            words = [PROGRAM, *self.collect(database), *self.trial.put([row.upload])]
            told, calls = device.run(self.trial.library, "f", number, number, words, reads=True, only="o", steady=True)
            if not calls:
                break
            if told[0]:
                self.fails(f"{what}, call {number}", row, database, told, row.refusal(passes))
                passes += 1
            else:
                self.expect(f"{what}, call {number}: {told}", (told[1][:11], told[2]), ("cannot open", 3))
        self.expect(f"{what}: no call fails", told, printed(row.wanted))
        # so few bytes are read at once; tests/stops has longer files
        self.expect(f"{what}: {passes} reads", passes >= row.head, True)

    def conflict(self, what: str, stored: str, front: str, more: str) -> None:
        """A conflict is answered though the upload fails behind it: at once, and behind what is read with it."""
        upload = bytes_of(f"{front} {more}")
        head, rest = upload[:HEAD], upload[HEAD:]
        conflicting = len(bytes_of(front))
        for packets in (in_pieces(upload[:conflicting], 1), [head, rest[:AT_ONCE]]):
            database = self.begun(bytes_of(f"head:1:0 {stored}"))
            told = by_failing_input(self.collect(database), packets)
            self.expect(what, told, printed(answer("no S 0 60 1")))
            self.stores(what, database, bytes_of(stored))
            shutil.rmtree(os.path.dirname(database))


def failing() -> Iterator[Failing]:
    rows = rows_of((HERE / "failures.rows").read_text(encoding="utf-8"))
    return (row for row in rows if isinstance(row, Failing))


def batches() -> Iterator[tuple[str, Batch]]:
    for name in BATCHES:
        for row in batches_of((HERE / f"{name}.rows").read_text(encoding="utf-8")):
            if isinstance(row, Batch):
                yield f"{name}.rows, line {row.line}", row


def main() -> None:
    with Trial("uploads into tables") as trial:
        trial.library = device.built(trial.base)
        for tables in (Tables(trial, kind) for kind in TABLES):
            for what, batch in batches():
                tables.batch(what, batch)
            for row in failing():
                fail = tables.stream_fails if row.most else tables.file_fails
                fail(f"failures.rows, line {row.line}", row)
            for conflict in CONFLICTS:
                tables.conflict(f"a conflict, {conflict[0] or 'nothing'} stored", *conflict)
        trial.finish("all rows")


if __name__ == "__main__":
    main()
