"""Memory is refused at one place after another of the public calls that answer `out of memory`, each made by
crates/jc_test_calls, a program for tests: calls.py [NAME..], or all of them.

A run makes some calls twice, and looks at the journal between them. Each prints what it has to, or that memory was
refused; the journal has what was acknowledged and nothing else then, and the same call made anew succeeds. If the
refusal hits the program itself, while it reads its files or gathers what it prints, it says so and ends, and such a run
shows nothing.
"""
from __future__ import annotations

import os
import re
import sys
from collections.abc import Iterable, Iterator, Sequence
from concurrent.futures import Executor, ThreadPoolExecutor
from typing import Any, NamedTuple

import refusal
import samples
import vectors
from export_streams import binary
from model import Journal, read_stream, reading
from trial import Trial

CALLS = os.path.abspath(os.environ["CALLS"])
# How the program ends if it is refused memory itself.
ITSELF = ("Error: Kind(OutOfMemory)\n", 1)
ASKED = rb"asked \d+ \d+\n"


class Told(NamedTuple):
    """What a call may print, the journal then, and whether that is a refusal."""
    pattern: bytes
    journal: Journal
    is_refusal: bool


def text(name: bytes, data: bytes) -> bytes:
    return re.escape(b"%s %d\n%s\n" % (name, len(data), data))


def refused(name: bytes) -> bytes:
    return re.escape(name) + b" refused\n"


def collected(word: str, upload: bytes, journal: Journal) -> Iterator[Told]:
    """An upload, as a space, as a stream or in a run, which has collected it also if it can't write its line."""
    after = journal.copy()
    line = after.take(upload).encode() + b"\n"
    whose = b" ".join(line.split(b" ")[1:3])
    asked = ASKED if word == "space" else b""
    yield Told(re.escape(line) + asked, after, False)
    yield Told(re.escape(b"no %s 63 0\n" % whose) + asked, journal, True)
    if word == "run":
        yield Told(b"stopped 0 0\n", after, True)


def stored(key: str, journal: Journal) -> Iterator[Told]:
    """The entry under a key."""
    number, digits = key.split(":")[::-1]
    entry = journal.entries.get((bytes.fromhex(digits), int(number)))
    yield Told(text(b"entry", entry.text()) if entry else b"entry none\n", journal, False)
    yield Told(refused(b"entry"), journal, True)


def read(word: str, data: bytes, journal: Journal) -> Iterator[Told]:
    verdict = reading("file" if word in ("file", "pages") else "export", data).encode() + b"\n"
    more = rb"steps \d+\n" + ASKED if word == "file" else b""
    yield Told(re.escape(verdict) + more, journal, False)
    yield Told(b"refused\n" + more, journal, True)


def made(name: bytes, data: bytes, journal: Journal) -> Iterator[Told]:
    yield Told(text(name, data), journal, False)
    yield Told(refused(name), journal, True)


def copied(data: bytes, journal: Journal) -> Iterator[Iterator[Told]]:
    """The calls on each entry of a stream, one after the other."""
    for entry in read_stream(data):
        whole = entry.text()
        yield made(b"canonical", whole, journal)
        yield made(b"fields", entry.body(), journal)
        for name in (b"clone", b"read back", b"pairs"):
            yield made(name, whole, journal)
        for name, value in sorted(entry.pairs):
            yield iter([Told(b"field %d %d\n" % (len(name), len(value)), journal, False),
                        Told(refused(b"field"), journal, True)])


def told_by(word: str, operand: Any, journal: Journal) -> Iterable[Iterator[Told]]:
    """What each call of a word may print."""
    if word in ("space", "stream", "run"):
        return [collected(word, operand, journal)]
    if word == "get":
        return [stored(operand, journal)]
    if word in ("read", "entries", "scan", "scan-7", "file", "pages"):
        return [read(word, operand, journal)]
    if word == "copies":
        return copied(operand, journal)
    sent = {"upload": samples.stream(operand), "send": samples.head(2) + operand, "resume": operand}[word]
    return [made(b"resume" if word == "resume" else b"upload", sent, journal)]


class Case:
    """Calls of one run: pairs of a word and of the bytes that it is about, or of a key."""

    def __init__(self, trial: Trial, name: str, calls: Sequence[tuple[str, Any]]) -> None:
        self.trial = trial
        self.name = name
        self.calls = calls
        self.words = [CALLS]
        for word, operand in calls:
            self.words += [word, operand if word == "get" else trial.put([operand])[0]]

    def refusals_in(self, what: str, output: bytes) -> int:
        """How many refusals the output tells. All of it has to be what the calls may print."""
        at, count, journal = 0, 0, Journal()
        for word, operand in self.calls:
            for answers in told_by(word, operand, journal):
                answer = next((one for one in answers if re.compile(one.pattern).match(output, at)), None)
                if answer is None:
                    self.trial.expect(f"{what}: {word} at {at}", output[at:], "an answer of this call")
                    return count
                at = re.compile(answer.pattern).match(output, at).end()
                count += answer.is_refusal
                journal = answer.journal
        self.trial.expect(f"{what}: more", output[at:], b"")
        return count

    def one(self, number: int) -> bool | None:
        """Whether the refusal of a request was told by a call; None if the program itself was hit."""
        (output, errors, status), sizes = refusal.run(self.trial.library, number, number, self.words)
        what = f"{self.name}, request {number}"
        self.trial.expect(f"{what}: refused", len(sizes), 1)
        if (errors, status) == ITSELF:
            return None
        self.trial.expect(f"{what}: status", (errors, status), ("", 0))
        count = self.refusals_in(what, output)
        self.trial.expect(f"{what}: refusals", count in (0, 1), True)
        return count == 1

    def sweep(self, pool: Executor) -> list[bool | None]:
        told, sizes = refusal.run(self.trial.library, 0, 0, self.words)
        self.trial.expect(f"{self.name}, undisturbed", told[1:], ("", 0))
        self.trial.expect(f"{self.name}, undisturbed: refusals", self.refusals_in(self.name, told[0]), 0)
        ends = list(pool.map(self.one, refusal.places(sizes)))
        self.trial.expect(f"{self.name}: a call was refused memory", ends.count(True) > 0, True)
        print(f"memory of calls: {self.name}: {len(ends)} requests; {ends.count(True)} refusals were told by a call, "
              f"{ends.count(None)} hit the program itself, {ends.count(False)} did no harm")
        return ends


KEYS = [("get", f"{samples.SEQNUM_ID.hex()}:{number}") for number in (1, 2, 3)]


def cases(trial: Trial) -> Iterator[Case]:
    row, rest = samples.stream(samples.E1), samples.stream(samples.E2, samples.E3)
    conflict, file = samples.stream(samples.E2, samples.E3, samples.H1), samples.head(2) + samples.FILE
    cut = samples.stream(samples.E2, b"=x")
    nested = vectors.M + binary(b"MESSAGE", samples.E1) + b"A=1\nA=2\nA=1\n\n"
    many = vectors.one_field_again(7)[0]
    for word in ("space", "stream", "run"):
        after = [(word, row), (word, conflict), *KEYS, (word, cut), *KEYS, (word, rest), (word, rest), *KEYS]
        yield Case(trial, f"uploads by {word}", after)
        yield Case(trial, f"a journal file by {word}", [(word, file), *KEYS[:1], (word, file), *KEYS[:1]])
    for word, data in (("read", samples.E1 + nested), ("entries", samples.E1 + nested), ("scan", samples.E1 + nested),
                       ("scan-7", samples.E1 + nested), ("file", many), ("pages", many), ("copies", nested),
                       ("upload", samples.E1 + samples.E2), ("send", samples.FILE),
                       ("resume", f"resume 2 {samples.SEQNUM_ID.hex()} 2\n".encode())):
        yield Case(trial, word, [(word, data), (word, data)])


def main() -> None:
    with Trial("memory of calls") as trial, ThreadPoolExecutor(os.cpu_count()) as pool:
        trial.library = refusal.built(trial.base)
        wanted = sys.argv[1:]
        ends = [end for case in cases(trial) if not wanted or case.name in wanted for end in case.sweep(pool)]
        trial.finish(f"{len(ends)} runs with memory refused", f"{ends.count(True)} told by a call")


if __name__ == "__main__":
    main()
