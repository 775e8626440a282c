"""Scripts of runs of the program. A script is lines, each of which does something or says what the run right before it
has to do:

| Line | |
|---|---|
| `# TEXT` | a comment |
| `case TEXT` | the folder is empty again |
| `file PATH PIECES` | writes a file of these bytes |
| `directory PATH` | makes a folder |
| `remove PATH` | removes a file |
| `statement PATH SQL` | runs SQL on a database, which is made if there is none |
| `older PATH` | makes a database with an empty journal in tables of the older version |
| `< TEXT` | standard input of the next run has this line next, in which `\\t` is a tab |
| `input PIECES` | standard input of the next run has these bytes next |
| `room N` | standard output of the next run takes N bytes and then fails |
| `run ARGUMENTS` | a run with these arguments; `""` is an empty one |
| `run ARGUMENTS => TEXT` | so, and one line of those below on what it has to do, of which `>` may be left out |
| `collects PATH N PIECES` | a run that stores an upload of so many entries in a database, all of which are new |
| `> TEXT` | standard output has this line next |
| `prints PIECES` | standard output has these bytes next |
| `has PIECES` | standard output has these bytes somewhere, and isn't looked at beyond that |
| `reports N TEXT` | standard output has this line next, and the status is N |
| `fails N TEXT` | standard error has this line next, and the status is N |
| `misused TEXT` | standard error begins with this text and isn't looked at beyond that, and the status is 2 |
| `status N` | the status is N |
| `holds PATH PIECES` | the file has these bytes |
| `missing PATH` | there is no such file |

Of what isn't said, nothing may be printed and the status has to be 0, and no run leaves a file whose name ends in
`.new`, by which it replaces another. `tests/pieces.py` has the form of `PIECES`. `@`
stands for the case's folder and a `/`, as in `@db`, and `SOURCE` for the id of a source. Each case begins in an empty
folder and with no input, and has a run.
"""
from __future__ import annotations

import os
import re
import shutil
import subprocess
import tempfile
from collections.abc import Callable, Iterator, Sequence
from dataclasses import astuple, dataclass
from pathlib import Path

from older import STATEMENTS
from pieces import bytes_of
from samples import SOURCE
from stock import IS_HERE, stock
from trial import run, short

# What a line needs that begins with one of these words, if it isn't here.
LACKING = {
    "room": "" if shutil.which("rt") else "no rt, whose compiler builds what fills standard output",
    "statement": "" if IS_HERE else "no stock sqlite3 of 3.37 or later",
    "older": "" if IS_HERE else "no stock sqlite3 of 3.37 or later",
}
# A line with its number.
Line = tuple[int, str]


@dataclass
class Told:
    """What a run told, or has to tell."""
    output: bytes = b""
    errors: str = ""
    status: int = 0


# What reports call these.
PARTS = ("standard output", "standard error", "the status")


def word_of(line: str) -> str:
    return line.partition(" ")[0]


def cases_of(text: str) -> list[list[Line]]:
    """The lines of each case of a script. Those before the first are a case if they do anything, or alone."""
    front: list[Line] = []
    cases = [front]
    for number, line in enumerate(text.removesuffix("\n").split("\n"), 1):
        if word_of(line) == "case":
            cases.append([])
        cases[-1].append((number, line))
    is_case = len(cases) == 1 or any(word_of(line) not in ("", "#") for _, line in front)
    return cases if is_case else cases[1:]


def reports(text: str, library: str, skipped: list[str]) -> Iterator[str]:
    """What `report_of` says of each case of a script. Of those that need what isn't here, that is noted."""
    for case in cases_of(text):
        if why := next((what for _, line in case if (what := LACKING.get(word_of(line)))), ""):
            skipped.append(why)
        else:
            yield report_of(case, library)


def report_of(case: Sequence[Line], library: str) -> str:
    """Performs a case in a new folder. The report is `LINE: WHAT`, or empty. The library is room.c's."""
    with tempfile.TemporaryDirectory() as folder:
        performed = Case(folder, library)
        try:
            performed.perform(case)
        except (ValueError, OSError, subprocess.TimeoutExpired) as error:
            return f"{performed.line}: {error}"
    return ""


def parts_of(line: str) -> list[str]:
    """A run, and what it has to do, which may stand in one line."""
    run, arrow, wanted = line.partition(" => ") if word_of(line) == "run" else (line, "", "")
    if not arrow:
        return [line]
    return [run, wanted if word_of(wanted) in WANTED else f"> {wanted}"]


class Case:
    """How far a case has come. What is wrong is raised."""

    def __init__(self, folder: str, library: str) -> None:
        self.folder = folder
        self.library = library
        # the line that is performed, or the last one on the last run while that is compared
        self.line = 0
        self.input = b""
        self.room = ""
        # the last run, until it is compared
        self.told: Told | None = None
        self.wanted = Told()
        self.has_run = False

    def perform(self, lines: Sequence[Line]) -> None:
        for number, line in ((number, part) for number, line in lines for part in parts_of(line)):
            word, _, rest = self.meant(line).partition(" ")
            if word not in WANTED:
                self.compare()
            self.line = number
            if word in WANTED:
                self.want(word, rest)
            elif word in DONE:
                DONE[word](self, rest)
            else:
                raise ValueError(f"no line begins with {word!r}")
        self.compare()
        if not self.has_run or self.input or self.room:
            raise ValueError("no run comes behind this")

    def meant(self, line: str) -> str:
        """A line with the folder in the place of each `@` and the id in that of `SOURCE`."""
        return line.replace("SOURCE", SOURCE.hex()).replace("@", f"{self.folder}/")

    def path(self, path: str) -> str:
        """A path that isn't that of another folder by mistake."""
        if not re.fullmatch(re.escape(self.folder) + r"/\S+", path):
            raise ValueError(f"{path!r} is no path in the folder")
        return path

    def compare(self) -> None:
        """Fails unless the last run told what was said of it."""
        told, self.told = self.told, None
        if told:
            if left := [path.name for path in Path(self.folder).rglob("*.new") if path.is_file()]:
                raise ValueError(f"{left[0]} is left")
            differences = [f"{part} is {short(got)} and not {short(wanted)}"
                           for part, got, wanted in zip(PARTS, astuple(told), astuple(self.wanted)) if got != wanted]
            if differences:
                raise ValueError(", ".join(differences))

    def add_line(self, text: str) -> None:
        self.input += f"{text}\n".replace("\\t", "\t").encode()

    def add_input(self, pieces: str) -> None:
        self.input += bytes_of(pieces)

    def make_room(self, digits: str) -> None:
        self.room = str(number_of(digits, 2**64 - 1))

    def run(self, arguments: str) -> None:
        words = ["" if word == '""' else word for word in arguments.split()]
        environment = dict(os.environ)
        if self.room:
            environment |= {"LD_PRELOAD": self.library, "ROOM_BYTES": self.room}
        self.told = Told(*run(*words, stdin=self.input, cwd=self.folder, env=environment))
        self.wanted = Told()
        self.input, self.room, self.has_run = b"", "", True

    def collect(self, rest: str) -> None:
        path, count, pieces = (*rest.split(" ", 2), "")[:3]
        self.add_input(f"head:1:0 {pieces}")
        self.run(f"collect {path}")
        self.want(">", f"ack {SOURCE.hex()} 0 {count} {count} 0")

    def want(self, word: str, rest: str) -> None:
        """A line on what the last run has to tell."""
        if not self.told:
            raise ValueError(f"no run comes right before {word!r}")
        WANTED[word](self.wanted, rest, self.told)


def number_of(digits: str, most: int) -> int:
    if not re.fullmatch("[0-9]+", digits) or int(digits) > most:
        raise ValueError(f"{digits!r} is no number up to {most}")
    return int(digits)


# What has to be told, by what was.

def want_line(wanted: Told, text: str, _: Told) -> None:
    wanted.output += f"{text}\n".encode()


def want_bytes(wanted: Told, pieces: str, _: Told) -> None:
    wanted.output += bytes_of(pieces)


def want_part(wanted: Told, pieces: str, told: Told) -> None:
    """Standard output has these bytes somewhere: then it is as it has to be."""
    part = bytes_of(pieces)
    if not part or part not in told.output:
        raise ValueError(f"standard output is {short(told.output)} and not one with {part!r}")
    wanted.output = told.output


def want_report(wanted: Told, rest: str, told: Told) -> None:
    status, _, line = rest.partition(" ")
    want_status(wanted, status, told)
    want_line(wanted, line, told)


def want_failure(wanted: Told, rest: str, told: Told) -> None:
    status, _, line = rest.partition(" ")
    want_status(wanted, status, told)
    wanted.errors += f"{line}\n"


def want_misuse(wanted: Told, text: str, told: Told) -> None:
    """Standard error begins with this text: then it is as it has to be."""
    if not told.errors or not told.errors.startswith(text):
        raise ValueError(f"standard error is {short(told.errors)} and not one that begins with {text!r}")
    wanted.errors = told.errors
    wanted.status = 2


def want_status(wanted: Told, digits: str, _: Told) -> None:
    wanted.status = number_of(digits, 255)


# What is done at a path, with what comes behind it.

def write(path: str, pieces: str) -> None:
    Path(path).write_bytes(bytes_of(pieces))


def execute(path: str, statements: str) -> None:
    """The database keeps its log as the program's do."""
    for statement in ("PRAGMA journal_mode = WAL", *statements.split(";")):
        if stock(path, statement) is None:
            raise ValueError(f"{statement!r} is refused")


def expect_bytes(path: str, pieces: str) -> None:
    held, wanted = Path(path).read_bytes(), bytes_of(pieces)
    if held != wanted:
        raise ValueError(f"the file is {short(held)} and not {short(wanted)}")


def expect_missing(path: str) -> None:
    if os.path.lexists(path):
        raise ValueError("the file is there")


def alone(do: Callable[[str], None]) -> Callable[[Case, str], None]:
    """A line that has only a path."""
    return lambda case, path: do(case.path(path))


def with_more(do: Callable[[str, str], None]) -> Callable[[Case, str], None]:
    """A line that has a path and more."""
    def take(case: Case, rest: str) -> None:
        path, _, more = rest.partition(" ")
        do(case.path(path), more)
    return take


WANTED: dict[str, Callable[[Told, str, Told], None]] = {
    ">": want_line,
    "prints": want_bytes,
    "has": want_part,
    "reports": want_report,
    "fails": want_failure,
    "misused": want_misuse,
    "status": want_status,
}
DONE: dict[str, Callable[[Case, str], None]] = {
    **dict.fromkeys(("", "#", "case"), lambda case, rest: None),
    "file": with_more(write),
    "directory": alone(os.mkdir),
    "remove": alone(os.remove),
    "statement": with_more(execute),
    "older": alone(lambda path: execute(path, ";".join(STATEMENTS))),
    "<": Case.add_line,
    "input": Case.add_input,
    "room": Case.make_room,
    "run": Case.run,
    "collects": Case.collect,
    "holds": with_more(expect_bytes),
    "missing": alone(expect_missing),
}
