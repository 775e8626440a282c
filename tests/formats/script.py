"""Scripts of rows: bytes, and what the program for tests says of them. A script is lines:

| Line | |
|---|---|
| `# TEXT` | a comment |
| `limits NAME VALUE FIELDS ENTRY FILE` | the limits from here on; the rows before have the usual ones |
| `WORD PIECES => TEXT` | this is said of the bytes |
| `WORD PIECES == PIECES` | the bytes make these bytes |

`tests/pieces.py` has the form of `PIECES`, and `words.py` has the words. Some have numbers behind them, as in `WORD N,N
PIECES`, and some are about several things, as in `WORD PIECES , PIECES`.
"""
from __future__ import annotations

import os
import re
import subprocess
import tempfile
from collections.abc import Iterator, Sequence
from pathlib import Path
from dataclasses import dataclass

from pieces import bytes_of
from told import Told, report_of
from words import WORDS

CALLS = os.path.abspath(os.environ["CALLS"])
NUMBERS = re.compile("[0-9]+(,[0-9]+)*")


@dataclass
class Row:
    line: int
    # the numbers of the limits, or none for the usual ones
    limits: str
    word: str
    # empty if the word has none
    numbers: str
    things: list[bytes]
    wanted: bytes

    def called(self, folder: str) -> list[str]:
        """The words that have the program say what there is to say, and then that the row has ended. Files with the
        bytes are put into a folder."""
        paths = [os.path.join(folder, f"{self.line}-{place}") for place in range(len(self.things))]
        for path, thing in zip(paths, self.things):
            Path(path).write_bytes(thing)
        words = ["limits", self.limits] if self.limits else []
        return [*words, *WORDS[self.word].calls(paths, self.numbers), "line", self.end()]

    def end(self) -> str:
        return f"== the end of row {self.line} =="

    def report(self, output: bytes) -> str:
        """How the row is wrong by what the program said; empty if it isn't."""
        told = Told(output)
        try:
            said = WORDS[self.word].said(told, self.things)
        except ValueError:
            told.rest = output
        if told.rest:
            said = b"what means nothing, " + output
        return "" if said == self.wanted else report_of(self.line, said, self.wanted)


def reports(text: str) -> Iterator[str]:
    """Which rows of a script are wrong, by line; of others an empty report. One without rows is wrong, too."""
    read = list(rows_of(text))
    rows = [row for row in read if isinstance(row, Row)]
    with tempfile.TemporaryDirectory() as folder:
        outputs = iter(outputs_of(rows, folder))
        for row in read:
            yield next(outputs) if isinstance(row, Row) else row
    if not read:
        yield "no rows"


def rows_of(text: str) -> Iterator[Row | str]:
    """The rows of a script, or how a line isn't one."""
    limits = ""
    for number, line in enumerate(text.splitlines(), 1):
        word, _, rest = line.partition(" ")
        if word == "limits":
            if re.fullmatch("[0-9]+( [0-9]+){4}", rest):
                limits = rest.replace(" ", ",")
            else:
                yield report_of(number, b"no limits", rest.encode())
        elif word not in ("", "#"):
            yield row_of(number, limits, word, rest)


def row_of(line: int, limits: str, word: str, rest: str) -> Row | str:
    if word not in WORDS:
        return report_of(line, b"no such word", word.encode())
    try:
        numbers, pieces, wanted = parts(rest, WORDS[word].has_numbers)
        things = [bytes_of(it) for it in pieces.split(" , ")]
    except ValueError as error:
        return report_of(line, f"no row ({error})".encode(), rest.encode())
    if len(things) < WORDS[word].things:
        return report_of(line, b"too few things", rest.encode())
    return Row(line, limits, word, numbers, things, wanted)


def parts(row: str, has_numbers: bool) -> tuple[str, str, bytes]:
    """The numbers, the pieces, and the bytes that are wanted."""
    numbers, _, row = row.partition(" ") if has_numbers else ("", "", row)
    if has_numbers and not NUMBERS.fullmatch(numbers):
        raise ValueError("no numbers")
    pieces, arrow, text = row.partition(" => ")
    if arrow:
        return numbers, pieces, text.encode()
    pieces, arrow, others = row.partition(" == ")
    if not arrow:
        raise ValueError("nothing is wanted")
    return numbers, pieces, bytes_of(others)


def outputs_of(rows: Sequence[Row], folder: str) -> Iterator[str]:
    """The reports of rows, which are called together; if the program fails so, each by itself."""
    words = [CALLS, "texts", "yes", *(word for row in rows for word in row.called(folder))]
    told = subprocess.run(words, stdout=subprocess.PIPE, stderr=subprocess.PIPE, check=False, timeout=600)
    if told.returncode == 0 and not told.stderr:
        rest = told.stdout
        for row in rows:
            output, _, rest = rest.partition(f"{row.end()}\n".encode())
            yield row.report(output)
    elif len(rows) == 1:
        yield report_of(rows[0].line, f"status {told.returncode}, ".encode() + told.stderr, rows[0].wanted)
    else:
        for row in rows:
            yield from outputs_of([row], folder)
