"""Worked runs of the program: the scripts NAME.rows beside this, each case of which counts, and before them the
scripts of mistakes.py, which have to fail.

usage: python3 rows.py [NAME..]
"""
from __future__ import annotations

import os
import sys
import tempfile
from collections.abc import Iterator, Sequence
from pathlib import Path

import preload
from mistakes import unlike
from row_scripts import counted, scripts_in
from script import LACKING, reports

HERE = Path(__file__).resolve().parent


def wrong(scripts: Sequence[Path], library: str, skipped: list[str]) -> Iterator[str]:
    """How each case goes wrong, and where; empty if it is as it has to be."""
    for path in scripts:
        for report in reports(path.read_text(encoding="utf-8"), library, skipped):
            yield report and f"{os.path.relpath(path)}:{report}"


def main(names: list[str]) -> int:
    skipped: list[str] = []
    with tempfile.TemporaryDirectory() as folder:
        library = "" if LACKING["room"] else preload.built(str(HERE / "room.c"), folder)
        told = [*unlike(library, skipped), *wrong(scripts_in(HERE, names), library, skipped)]
    for why in sorted(set(skipped)):
        print(f"skipped: there is {why}, so {skipped.count(why)} cases of commands aren't tried")
    return counted(told)


if __name__ == "__main__":
    sys.exit(main(sys.argv[1:]))
