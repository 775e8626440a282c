"""What other programs say of shell scripts, of Python and of Rattle, where they are installed."""

from __future__ import annotations

import re
import shutil
import subprocess
from collections.abc import Callable
from dataclasses import dataclass

from texts import Mistake, Text

SHELLCHECK = ("--format=gcc", "--severity=warning", "--external-sources", "--source-path=SCRIPTDIR", "--source-path=.")
LINE = re.compile(r"(?P<path>[^:]+):(?P<line>\d+):\d+:? (?P<why>.*)")
OF_A_FILE = re.compile(r"(?P<path>[^: ]+):? (?P<why>.+)")


@dataclass(frozen=True)
class Program:
    """A program that reads all texts of a kind, installed under one of its names. Some print mistakes as errors."""

    check: str
    names: tuple[str, ...]
    kind: str
    options: tuple[str, ...] = ()
    line: re.Pattern[str] = LINE
    as_errors: bool = False


PROGRAMS = (
    Program("shell", ("shellcheck",), "shell", SHELLCHECK),
    Program("python", ("pyflakes3", "pyflakes"), "python"),
    Program("layout", ("rattle",), "rattle", ("fmt", "--check"), OF_A_FILE, as_errors=True),
)


def mistakes_by(program: Program, top: str, texts: list[Text], skip: Callable[[str], None]) -> list[Mistake]:
    """What a program says of the texts of its kind; if it isn't there, `skip` is told what isn't looked at."""
    paths = [it.path for it in texts if it.kind == program.kind]
    found = next(filter(None, map(shutil.which, program.names)), None)
    if found is None:
        skip(f"{program.names[0]} isn't installed, so {len(paths)} texts of {program.kind} aren't read by it")
        return []
    if not paths:
        return []
    ran = subprocess.run([found, *program.options, *paths], cwd=top, capture_output=True, text=True, check=False)
    said, errors = (ran.stderr, "") if program.as_errors else (ran.stdout, ran.stderr)
    lines = [it.groupdict() for it in map(program.line.match, said.splitlines()) if it]
    mistakes = [Mistake(it["path"], int(it.get("line", 1)), program.check, it["why"]) for it in lines]
    if errors or (ran.returncode and not mistakes):
        # such as a text that it can't read
        first = (ran.stderr or ran.stdout).strip().partition("\n")[0]
        mistakes.append(Mistake(found, 1, program.check, f"status {ran.returncode}: {first}"))
    return mistakes
