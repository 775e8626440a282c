"""Memory is refused at one place at a time of every command, until a run asks for no more, and at some places together
with all later ones. In a long row of like requests, and of those that are like an earlier command's, some are refused.

A command then answers as ever, or that memory was refused. The journal holds what is acknowledged and nothing else, the
resume file is the old or the new one whole, and the same command run anew succeeds.
"""
from __future__ import annotations

import os
import shutil
import sys
from collections.abc import Iterator, Sequence
from concurrent.futures import ThreadPoolExecutor

import older
import refusal
import samples
from model import Journal
from noted import noted_sweeps
from sweep import REFUSED, Sweep, content, put
from trial import Trial, answers, as_output, run, status_of

# What `migrate` says of tables that aren't of an earlier kind.
IS_OVER = (b"bad 64 0\n", "", 1)
# The length of a write-ahead log that has no page.
EMPTY_LOG = 41
SOURCE_WORDS = ["--source", samples.SOURCE.hex(), "--resume"]


class Listing(Sweep):
    """A command that reads a database, and writes nothing into it."""

    def __init__(self, trial: Trial, name: str, words: list[str], base: str, output: bytes) -> None:
        super().__init__(trial, name, words, (output, "", 0))
        self.base = base

    def prepare(self, folder: str) -> list[str]:
        database = copied(self.base, folder)
        return [self.words[0], database, *self.words[1:]]

    def judge(self, what: str, folder: str, told: tuple[bytes, str, int]) -> bool:
        self.trial.expect(f"{what}: the database", content(os.path.join(folder, "db")), content(self.base))
        self.trial.expect(f"{what}: its log", len(content(os.path.join(folder, "db-wal")) or b"") <= EMPTY_LOG, True)
        return super().judge(what, folder, told)


class Collect(Sweep):
    """Uploads that are collected into a database, which has some entries already or isn't there."""

    def __init__(
        self,
        trial: Trial,
        name: str,
        uploads: list[bytes],
        base: str | None = None,
        before: Sequence[bytes] = (),
        by_input: bool = False,
    ) -> None:
        super().__init__(trial, name, [] if by_input else trial.put(uploads), stdin=uploads[0] if by_input else b"")
        self.uploads = uploads
        self.base = base
        self.begun = Journal()
        for upload in before:
            self.begun.take(upload)
        # what has to be printed where these lines are, and the journal then: most runs print one of a few outputs
        self.expected: dict[tuple[str, ...], tuple[list[str], Journal]] = {}
        self.usual = answers(self.begun.copy(), uploads)

    def prepare(self, folder: str) -> list[str]:
        return ["collect", copied(self.base, folder) if self.base else os.path.join(folder, "db"), *self.words]

    def after(self, lines: Sequence[str]) -> tuple[list[str], Journal]:
        """The lines that a run has to print that printed these, and the journal that it leaves."""
        key = tuple(lines)
        if key not in self.expected:
            journal = self.begun.copy()
            usual = [answer_or_refusal(journal, line, upload) for line, upload in zip(lines, self.uploads)]
            self.expected[key] = usual, journal
        usual, journal = self.expected[key]
        return usual, journal.copy()

    def judge(self, what: str, folder: str, told: tuple[bytes, str, int]) -> bool:
        output = told[0]
        lines = output.decode().splitlines()
        usual, journal = self.after(lines)
        if lines:
            self.trial.expect(what, told, (as_output(usual), "", status_of(usual)))
            self.trial.expect(f"{what}: number of lines", len(lines), len(self.uploads))
        else:
            self.trial.expect(what, told, REFUSED)
        self.left(what, os.path.join(folder, "db"), journal, bool(lines))
        return not self.is_usual(told)

    def left(self, what: str, database: str, journal: Journal, has_tables: bool) -> None:
        """The database holds this journal, and the same uploads complete it."""
        if content(database) == (content(self.base) if self.base else None):
            # nothing was written into it: what is in it was looked at before the sweep
            log = content(database + "-wal") or b""
            self.trial.expect(f"{what}: nothing in the log", len(log) <= EMPTY_LOG, True)
            self.trial.expect(f"{what}: nothing new", journal.entries, self.begun.entries)
            return
        folder = os.path.dirname(database)
        if not self.trial.is_new(folder, self.name, has_tables, frozenset(journal.entries.values())):
            # what an earlier run left so, to the byte, was looked at then
            return
        copy = self.trial.copy(database)
        told = run("export", copy)
        if has_tables or self.base or told[1] != f"cannot open {copy}\n":
            self.trial.expect(f"{what}: export", told, (journal.text(), "", 0))
        else:
            self.trial.expect(f"{what}: no journal yet", told, (b"", f"cannot open {copy}\n", 3))
        again = answers(journal, self.uploads)
        self.trial.expect(f"{what}: again", run("collect", database, *self.words, stdin=self.stdin), again)
        self.trial.expect(f"{what}: export then", run("export", database), (journal.text(), "", 0))
        shutil.rmtree(os.path.dirname(copy))


class ThenExport(Collect):
    """Uploads that are collected, and a file that gets the journal then: it is the old or the new one whole."""

    OLD = b"what was there before"

    def prepare(self, folder: str) -> list[str]:
        command, *others = super().prepare(folder)
        return [command, "--then-export", put(os.path.join(folder, "out"), self.OLD), *others]

    def judge(self, what: str, folder: str, told: tuple[bytes, str, int]) -> bool:
        output, errors, _ = told
        usual, journal = self.after(output.decode().splitlines())
        out = content(os.path.join(folder, "out"))
        self.trial.expect(f"{what}: what lies beside it", os.path.exists(os.path.join(folder, "out.new")), False)
        if errors:
            self.trial.expect(what, told, (as_output(usual), *REFUSED[1:]))
            self.trial.expect(f"{what}: the file", out, self.OLD)
        else:
            self.trial.expect(what, told, (as_output(usual), "", status_of(usual)))
            self.trial.expect(f"{what}: the file", out, journal.text())
        return not self.is_usual(told)


class CollectListed(Collect):
    """Uploads that a list on standard input names. A refusal between two ends the run; answers that are out stay."""

    def __init__(
        self, trial: Trial, name: str, uploads: list[bytes], base: str | None = None, before: Sequence[bytes] = ()
    ) -> None:
        super().__init__(trial, name, uploads, base, before)
        self.stdin = "".join(f"{upload}\n" for upload in self.words).encode()
        self.words = ["--files-from", "-"]

    def judge(self, what: str, folder: str, told: tuple[bytes, str, int]) -> bool:
        output, errors, _ = told
        lines = output.decode().splitlines()
        usual, journal = self.after(lines)
        if errors == REFUSED[1]:
            self.trial.expect(what, told, (as_output(usual), *REFUSED[1:]))
        else:
            self.trial.expect(what, told, (as_output(usual), "", status_of(usual)))
            self.trial.expect(f"{what}: number of lines", len(lines), len(self.uploads))
        self.left(what, os.path.join(folder, "db"), journal, bool(lines))
        return not self.is_usual(told)


def answer_or_refusal(journal: Journal, line: str, upload: bytes) -> str:
    """The line that an upload has to get: its answer, or, if the line says so, that memory was refused."""
    after = journal.copy()
    answer = after.take(upload)
    if line.endswith(" 63 0") and len(upload) >= 48:
        return " ".join(["no", *answer.split(" ")[1:3], "63 0"])
    journal.entries = after.entries
    return answer


def copied(base: str, folder: str) -> str:
    database = os.path.join(folder, "db")
    for end in ("", "-wal"):
        shutil.copyfile(base + end, database + end)
    return database


class Migrate(Sweep):
    """A journal that goes over to tables of another kind: it is whole, in the old tables or in the new ones."""

    def __init__(self, trial: Trial, name: str, base: str, over: tuple[str, ...] = ("migrate",)) -> None:
        self.journal = older.earlier_journal()
        self.base = base
        self.over = over
        super().__init__(trial, name, [], older.usual(self.journal))

    def prepare(self, folder: str) -> list[str]:
        return [*self.over, shutil.copyfile(self.base, os.path.join(folder, "db"))]

    def judge(self, what: str, folder: str, told: tuple[bytes, str, int]) -> bool:
        database = os.path.join(folder, "db")
        may_be = [IS_OVER] if self.is_usual(told) else [IS_OVER, self.usual]
        # what an earlier run left so, to the byte, was looked at then
        if self.trial.is_new(folder, self.name, len(may_be)):
            again = run(*self.over, database)
            self.trial.expect(f"{what}: {again}, again", again in may_be, True)
            self.trial.expect(f"{what}: export", run("export", database), (self.journal.text(), "", 0))
        return super().judge(what, folder, told)


class Ack(Sweep):
    """An answer that moves a resume point on."""

    OLD = f"resume 1 {samples.SEQNUM_ID.hex()} 1\n".encode()
    NEW = f"resume 2 {samples.SEQNUM_ID.hex()} 2\n".encode()

    def prepare(self, folder: str) -> list[str]:
        resume = put(os.path.join(folder, "resume"), self.OLD)
        source = put(os.path.join(folder, "source"), samples.E1 + samples.E2)
        return ["ack", *SOURCE_WORDS, resume, "export", source]

    def judge(self, what: str, folder: str, told: tuple[bytes, str, int]) -> bool:
        resume = os.path.join(folder, "resume")
        left = content(resume)
        may_be = [self.NEW] if self.is_usual(told) else [self.OLD, self.NEW]
        self.trial.expect(f"{what}: resume file", left in may_be, True)
        self.trial.expect(f"{what}: what lies beside it", sorted(os.listdir(folder)), ["resume", "source"])
        again = run("ack", *SOURCE_WORDS, resume, "export", os.path.join(folder, "source"), stdin=self.stdin)
        self.trial.expect(f"{what}: again", (again, content(resume)), (self.usual, self.NEW))
        return super().judge(what, folder, told)


class Upload(Sweep):
    """An upload that is made of a source; nothing is written but to standard output."""

    def __init__(self, trial: Trial, kind: str, source: bytes, resume: bytes, output: bytes) -> None:
        self.resume = put(os.path.join(trial.folder(), "resume"), resume)
        self.old = resume
        words = ["upload", *SOURCE_WORDS, self.resume, kind, put(os.path.join(trial.folder(), "source"), source)]
        super().__init__(trial, f"upload {kind}", words, (output, "", 0))

    def judge(self, what: str, folder: str, told: tuple[bytes, str, int]) -> bool:
        self.trial.expect(f"{what}: resume file", content(self.resume), self.old)
        return super().judge(what, folder, told)


def collecting(trial: Trial, base: str) -> Iterator[Sweep]:
    one, two, three = samples.E1, samples.E2, samples.E3
    row, file = samples.stream(one), samples.head(2) + samples.FILE
    conflict = samples.stream(two, three, samples.H1)
    several = [row, samples.stream(two, one), conflict, b"JCUPLD", samples.stream(three, b"=x"), samples.stream(three),
               file]
    yield Collect(trial, "collect into a new database", [row])
    yield Collect(trial, "collect into a journal", [samples.stream(two, three)], base, [row])
    yield Collect(trial, "collect of a conflict", [conflict], base, [row])
    of_three = begun(trial, "--tables", "3")
    yield Collect(trial, "collect of a conflict in tables of version 3", [conflict], of_three, [row])
    yield Collect(trial, "collect of a journal file", [file])
    yield Collect(trial, "collect of a journal file on standard input", [file], by_input=True)
    yield Collect(trial, "collect of several uploads", several)
    yield CollectListed(trial, "collect of uploads that a list names", several)
    yield ThenExport(trial, "collect --then-export", [samples.stream(two, three)], base, [row])
    yield CollectListed(trial, "collect of a list into a journal", [samples.stream(two, three)], base, [row])


def reading(trial: Trial, base: str) -> Iterator[Sweep]:
    row = samples.stream(samples.E1)
    journal = Journal()
    journal.take(row)
    yield Listing(trial, "export", ["export"], base, journal.text())
    yield Listing(trial, "show", ["show", "--from", "1"], base, journal.lines())
    entry = f'{{"id":"{samples.SEQNUM_ID.hex()}","number":1,"realtime":1000000,"monotonic":5,"value":"hi"}}\n'
    yield Listing(trial, "show --json", ["show", "--json"], base, entry.encode())
    yield Listing(trial, "check", ["check"], base, b"ok 1\n")
    yield Migrate(trial, "migrate", older.earlier(trial, "closed"))
    yield Migrate(trial, "migrate to numbers", older.by_key(trial), ("migrate", "--tables", "3"))
    file = put(os.path.join(trial.folder(), "file"), samples.FILE)
    texts = put(os.path.join(trial.folder(), "texts"), samples.E1 + samples.E2)
    yield Sweep(trial, "verify export", ["verify", "export", texts], (b"ok 2 0\n", "", 0))
    yield Sweep(trial, "verify --json", ["verify", "--json", "export", texts],
                (b'{"result":"ok","entries":2,"left":0}\n', "", 0))
    yield Sweep(trial, "verify file", ["verify", "file", file], (b"ok 1 0\n", "", 0))
    upload, = trial.put([samples.stream(samples.E1, samples.E2)])
    line = f"upload {samples.SOURCE.hex()} 0 2 0 {samples.SEQNUM_ID.hex()} 2 1\n"
    yield Sweep(trial, "inspect", ["inspect", upload], (line.encode(), "", 0))
    yield Upload(trial, "export", samples.E1 + samples.E2, Ack.OLD, samples.stream(samples.E2, start=1))
    yield Upload(trial, "file", samples.FILE, b"resume 0 - -\n", samples.head(2) + samples.FILE)
    yield Ack(trial, "ack", [], (b"resume 2\n", "", 0), f"ack {samples.SOURCE.hex()} 1 1 1 0\n".encode())
    for words in (["codes"], ["collect", "--help"], ["show", "db", "--from", "x"]):
        yield Sweep(trial, " ".join(words), words, run(*words))


def begun(trial: Trial, *options: str) -> str:
    """A database of one entry, with which others begin."""
    base = trial.database()
    told = run("collect", *options, base, *trial.put([samples.stream(samples.E1)]))
    trial.expect("the journal that others begin with", told, (f"ack {samples.SOURCE.hex()} 0 1 1 0\n".encode(), "", 0))
    return base


def main() -> None:
    with Trial("memory") as trial, ThreadPoolExecutor(os.cpu_count()) as pool:
        trial.library = refusal.built(trial.base)
        base = begun(trial)
        sweeps = [*collecting(trial, base), *reading(trial, base), *noted_sweeps(trial)]
        wanted = sys.argv[1:]
        tried = sum(sweep.sweep(pool) for sweep in sweeps if not wanted or sweep.name in wanted)
        trial.finish(f"{tried} runs with memory refused")


if __name__ == "__main__":
    main()
