"""Journals that are kept in a map or in databases that take turns: steps which crates/jc_test_calls takes over each, a
program for tests, and what it prints of them."""
from __future__ import annotations

import itertools
import os
import subprocess
import tempfile
from collections.abc import Callable, Iterable, Iterator, Sequence
from dataclasses import dataclass, field

from content_files import ContentFiles
from told import Told, report_of

CALLS = os.path.abspath(os.environ["CALLS"])
# More reads and writes than there are.
NEVER = 2**64 - 1


@dataclass
class Step:
    """A step, whose text has `{}` for each number of its things. Without one it is only about what is printed."""
    line: int
    text: str
    things: Sequence[bytes]
    # what is said of it, by what the program prints; and what has to be, if it matters
    said: Callable[[Told], bytes]
    wanted: bytes | None


@dataclass
class Journal:
    # what it is kept by, as crates/jc_test_calls/src/journals.rt names it
    kind: str
    # the numbers of the limits, or none for the usual ones
    limits: str = ""
    # how it differs from others with the same steps
    how: str = ""
    steps: list[Step] = field(default_factory=list)

    def called(self, files: ContentFiles, end: str) -> list[str]:
        """The words that have the program take the steps, and then print a line."""
        things = list(dict.fromkeys(thing for step in self.steps for thing in step.things))
        texts = (step.text.format(*map(things.index, step.things)) for step in self.steps if step.text)
        script = "".join(f"{text}\n" for text in (self.kind, *texts)).encode()
        return ["journal", ",".join(map(files.put, (script, *things))), "line", end]

    def report(self, output: bytes) -> str:
        """How the first step is wrong that is, by what the program printed; empty if none is."""
        told = Told(output)
        for step in self.steps:
            try:
                said = step.said(told)
            except ValueError:
                said = b"what means nothing, " + told.rest
            if step.wanted is not None and said != step.wanted:
                return report_of(step.line, said, step.wanted) + f" ({self.kind}{self.how})"
        return report_of(self.last_line(), told.rest, b"nothing more") if told.rest else ""

    def last_line(self) -> int:
        return self.steps[-1].line if self.steps else 0


def reports(journals: Sequence[Journal]) -> Iterator[str]:
    """How each journal is wrong, or an empty report."""
    for journal, output in zip(journals, outputs(journals)):
        yield output if isinstance(output, str) else journal.report(output)


def outputs(journals: Iterable[Journal]) -> Iterator[bytes | str]:
    """What the program prints of each journal, or how it fails. Those of the same limits are made by one run."""
    for limits, alike in itertools.groupby(journals, lambda journal: journal.limits):
        with tempfile.TemporaryDirectory() as folder:
            yield from _outputs(["limits", limits] if limits else [], list(alike), ContentFiles(folder))


def _outputs(front: list[str], journals: Sequence[Journal], files: ContentFiles) -> Iterator[bytes | str]:
    """The same of journals that are made together; if the program fails so, of each by itself."""
    ends = [f"== the end of journal {number} ==" for number in range(len(journals))]
    words = [word for journal, end in zip(journals, ends) for word in journal.called(files, end)]
    told = subprocess.run([CALLS, *front, *words], capture_output=True, check=False, timeout=600)
    if told.returncode == 0 and not told.stderr:
        rest = told.stdout
        for end in ends:
            output, _, rest = rest.partition(f"{end}\n".encode())
            yield output
    elif len(journals) == 1:
        why = f"status {told.returncode}, ".encode() + told.stderr
        yield report_of(journals[0].last_line(), why, b"what was asked")
    else:
        for journal in journals:
            yield from _outputs(front, [journal], files)


# What is said of steps.

def line(told: Told) -> bytes:
    return told.line().encode()


def answer(told: Told) -> bytes:
    return line(told) + b"\n"


def ran(told: Told) -> bytes:
    """What a run wrote, and how it stopped, if it did."""
    lines, end = told.text("lines"), told.line()
    return lines if end == "done" else lines + end.encode()


def stored(told: Told) -> bytes:
    return told.text("stored")


def failure(told: Told) -> bytes:
    """How a call failed, and how often it did."""
    return line(told) + b", " + line(told)


def added(told: Told) -> bytes:
    """What became of a reading."""
    what, _ = line(told), told.text("next")
    return what


def added_and_next(told: Told) -> bytes:
    """And the text of the entry that the reading gives next."""
    return line(told) + b", " + told.text("next")


def taking(line_number: int, most: int, passes: int, upload: bytes, wanted: bytes | None) -> Step:
    """An upload is collected."""
    return Step(line_number, f"collect {{}}:{most} {passes}", [upload], answer, wanted)


def running(line_number: int, passes: int, uploads: Sequence[bytes], ways: Sequence[int], wanted: bytes) -> Step:
    """Uploads are collected by one run."""
    named = "".join(f" {{}}:{most}" for most in ways)
    return Step(line_number, f"run {passes}{named}", uploads, ran, wanted)


def storing(line_number: int, texts: bytes) -> Step:
    """These entries are stored, and no others."""
    return Step(line_number, "stored", [], stored, texts)
