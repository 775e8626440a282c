"""Looks over the texts of the repository for what no prover and no compiler sees.

usage: python3 tools/lint [FOLDER]

The checks are: `width`, lines of at most 120 characters; `blanks`, no tabs, no blanks at an end; `steps` of four blanks
in shell; `types` at public functions of Python; `visible`, that an item of a library is `pub` if its `lib.rt` hands it
on, and only then; `shell`, what shellcheck says;
`python`, what pyflakes says; `strict`, what mypy says of deploy/journalcollect and some tests; `layout`, what `rattle
fmt` says, without which no crate is proved. What they pass over is in tools/lint/exceptions.txt of the folder. A line
is printed for each mistake, and one that begins with `skipped:` for a program that isn't installed. The last line says
how many texts were read and what was found.
"""

from __future__ import annotations

import sys
from collections.abc import Callable, Iterator

from checked import mistakes_in_strict
from exceptions import read_exceptions, without_exceptions
from layout import mistakes_in_blanks, mistakes_in_steps, mistakes_in_width
from programs import PROGRAMS, mistakes_by
from texts import Mistake, Text, texts_below
from typed import mistakes_in_types
from visible import mistakes_in_visibility

CHECKS: dict[str, Callable[[Text], Iterator[Mistake]]] = {
    "width": mistakes_in_width,
    "blanks": mistakes_in_blanks,
    "steps": mistakes_in_steps,
    "types": mistakes_in_types,
}


def main(top: str) -> int:
    texts = list(texts_below(top))
    skipped: list[str] = []
    made = {*CHECKS, "visible"}
    mistakes = [mistake for check in CHECKS.values() for text in texts for mistake in check(text)]
    mistakes += mistakes_in_visibility(texts)
    for program in PROGRAMS:
        before = len(skipped)
        mistakes += mistakes_by(program, top, texts, skipped.append)
        made |= {program.check} if len(skipped) == before else set()
    before = len(skipped)
    mistakes += mistakes_in_strict(top, skipped.append)
    made |= {"strict"} if len(skipped) == before else set()
    exceptions = read_exceptions(top)
    left = sorted(without_exceptions(mistakes, exceptions, made))
    for mistake in left:
        print(mistake)
    for why in skipped:
        print(f"skipped: {why}")
    print(f"{len(texts)} texts: {len(left)} mistakes, {len(exceptions)} exceptions, {len(skipped)} checks skipped")
    return 1 if left else 0


if __name__ == "__main__":
    if len(sys.argv) > 2 or sys.argv[1:2] in (["-h"], ["--help"]):
        sys.exit(__doc__)
    sys.exit(main(sys.argv[1] if len(sys.argv) == 2 else "."))
