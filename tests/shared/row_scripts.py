"""Scripts of rows: what is reported of each row; and scripts that are wrong, with what has to be reported of them."""
from __future__ import annotations

import os
import sys
from collections.abc import Callable, Iterable, Iterator, Sequence
from itertools import zip_longest
from pathlib import Path
from typing import NoReturn


def scripts_in(folder: Path, names: Sequence[str]) -> list[Path]:
    """The scripts in a folder: those of these names, or all."""
    return [folder / f"{name}.rows" for name in names] or sorted(folder.glob("*.rows"))


def run(folder: Path, mistakes: Iterable[str], reports_of: Callable[[str, str], Iterable[str]]) -> NoReturn:
    """A test of rows: what is reported of mistakes, and of a folder's scripts, those that the call names or all."""
    sys.exit(counted([*mistakes, *wrong(scripts_in(folder, sys.argv[1:]), reports_of)]))


def wrong(scripts: Iterable[Path], reports_of: Callable[[str, str], Iterable[str]]) -> Iterator[str]:
    """The reports of scripts by their names and texts, each with its script; empty if a row is as it has to be."""
    for path in scripts:
        for report in reports_of(path.stem, path.read_text(encoding="utf-8")):
            yield report and f"{os.path.relpath(path)}, {report}"


def counted(reports: Sequence[str]) -> int:
    """The status of a test of rows, by a report of each, which is empty if the row is as it has to be."""
    failed = [report for report in reports if report]
    for report in failed:
        print(f"FAILED: {report}", file=sys.stderr)
    print(f"{len(reports) - len(failed)} passed, {len(failed)} failed")
    return 1 if failed else 0


def parted(text: str) -> tuple[str, list[str]]:
    """A script, and the fronts of what has to be reported of it: each stands below its line, and is set in."""
    lines: list[str] = []
    fronts: list[str] = []
    for line in text.splitlines():
        if line.startswith("    "):
            fronts.append(f"line {len(lines)}: {line[4:]}")
        else:
            lines.append(line)
    return "\n".join(lines), fronts


def unlike(reports: Iterable[str], fronts: Iterable[str]) -> Iterator[str]:
    """How reports of wrong rows don't begin as they have to, one by one; empty if they do."""
    for report, front in zip_longest(reports, fronts, fillvalue=""):
        yield "" if front and report.startswith(front) else f"mistakes.py: {report!r} and not {front!r}"
