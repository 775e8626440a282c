"""Scripts of steps over journals, and of devices that fail. A script is lines:

| Line | |
|---|---|
| `# TEXT` | a comment |
| `limits NAME VALUE FIELDS ENTRY FILE` | the limits from here on; the lines before have the usual ones |
| `journal KIND..` | what comes next is done to an empty journal of each of these kinds |
| `take MOST PIECES => LINE` | the answer to an upload, whose device gives so many bytes at most at each read |
| `take MOST,READS PIECES => LINE` | the same of one whose device fails after so many reads |
| `add PIECES => TEXT` | what becomes of the reading of these entries |
| `conflict N PIECES == PIECES` | its entry N conflicts, and what the reading gives next is this entry |
| `stores PIECES` | the texts of the entries that are stored |
| `present PIECES` | those of the union's present database |
| `present-add PIECES => TEXT` | what becomes of a reading there |
| `catch PIECES => TEXT` | what becomes of a database's entries that are to be noted |
| `turn` | an empty database becomes the present one |
| `machine NAME` | the machine of this name brings what comes next |
| `nobody` | no machine is named |
| `asked => TEXT` | what becomes of an entry that is asked for, and how often that failed |
| `fails MOST,LENGTH,HEAD,FIRST,END,READS PIECES => LINE` | an upload fails, and comes again: see `Failing` |
| `fails MOST,LENGTH,HEAD PIECES => LINE` | the same behind each number of reads |
| `stops WRITES,DONE,WRITTEN PIECES` | a run stops, as `Stopping` says |

A device that gives 0 bytes at most is a space. The kinds are those of crates/jc_test_calls/src/journals.rt, and a
`LINE` has `S` for the source's id.
"""
from __future__ import annotations

import re
from collections.abc import Iterator

from batches import answer, lines_of, wanted_by
from failing import Failing, Stopping
from journals import NEVER, Journal, Step, added, added_and_next, failure, line, stored, storing, taking
from pieces import bytes_of
from told import report_of

# What a script comes to: journals to make, or devices that fail over some, or how a line is wrong.
Row = Journal | Failing | Stopping | str


class Script:
    """How far a script has come."""

    def __init__(self) -> None:
        self.limits = ""
        # those that steps are taken over
        self.journals: list[Journal] = []

    def rows(self, text: str) -> Iterator[Row]:
        number, has_rows = 1, False
        for number, word, rest in lines_of(text):
            has_rows = True
            try:
                if word in ("limits", "journal", "fails", "stops"):
                    yield from self.finished()
                if word == "limits":
                    self.limit(rest)
                elif word == "journal":
                    self.journals = [Journal(kind, self.limits) for kind in rest.split()]
                elif word == "fails":
                    yield Failing.read(number, rest)
                elif word == "stops":
                    yield Stopping.read(number, rest)
                else:
                    self.add(step_of(number, word, rest))
            except ValueError as error:
                yield report_of(number, str(error).encode(), rest.encode())
        yield from self.finished()
        if not has_rows:
            yield report_of(number, b"no rows", b"some")

    def finished(self) -> list[Journal]:
        journals, self.journals = self.journals, []
        return journals

    def limit(self, rest: str) -> None:
        if not re.fullmatch("[0-9]+( [0-9]+){4}", rest):
            raise ValueError("no limits")
        self.limits = rest.replace(" ", ",")

    def add(self, step: Step) -> None:
        if not self.journals:
            raise ValueError("no journal is there")
        for journal in self.journals:
            journal.steps.append(step)


def rows_of(text: str) -> Iterator[Row]:
    return Script().rows(text)


def step_of(number: int, word: str, rest: str) -> Step:
    if word == "take":
        return take(number, rest)
    if word == "conflict":
        return conflict(number, rest)
    if word == "stores":
        return storing(number, bytes_of(rest))
    if word == "present":
        return Step(number, "present stored", [], stored, bytes_of(rest))
    if word in ("turn", "machine", "nobody"):
        return Step(number, f"{word} {rest}".strip(), [], lambda _: b"", b"")
    if word == "asked":
        return Step(number, "asked", [], failure, wanted_by(f" {rest}")[1].encode())
    if word not in READINGS:
        raise ValueError(f"no line begins with {word!r}")
    text, said = READINGS[word]
    pieces, wanted = wanted_by(rest)
    return Step(number, text, [bytes_of(pieces)], said, wanted.encode())


def take(number: int, rest: str) -> Step:
    numbers, _, row = rest.partition(" ")
    most, _, passes = numbers.partition(",")
    pieces, short = wanted_by(row)
    return taking(number, int(most), int(passes or NEVER), bytes_of(pieces), answer(short))


def conflict(number: int, rest: str) -> Step:
    index, _, row = rest.partition(" ")
    pieces, _, following = row.partition(" == ")
    wanted = b"conflict %d, " % int(index) + bytes_of(following)
    return Step(number, "add {}", [bytes_of(pieces)], added_and_next, wanted)


# What the program is told of a reading, and what is said of it.
READINGS = {
    "add": ("add {}", added),
    "present-add": ("present add {}", added),
    "catch": ("catch {}", line),
}
