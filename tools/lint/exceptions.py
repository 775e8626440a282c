"""What the checks pass over: on each line of a list a check, a pattern of paths, and the reason."""

from __future__ import annotations

import fnmatch
import os
import sys
from dataclasses import dataclass

from texts import Mistake

LIST = "tools/lint/exceptions.txt"


@dataclass
class Passed:
    """What is passed over, and how many mistakes were."""

    check: str
    pattern: str
    line: int
    count: int = 0

    def passes(self, mistake: Mistake) -> bool:
        is_meant = mistake.check == self.check and fnmatch.fnmatchcase(mistake.path, self.pattern)
        self.count += is_meant
        return is_meant


def read_exceptions(top: str) -> list[Passed]:
    path = os.path.join(top, LIST)
    if not os.path.exists(path):
        return []
    with open(path, encoding="utf-8") as it:
        lines = [(number, line.split(None, 2)) for number, line in enumerate(it, 1) if line.strip() and line[0] != "#"]
    for number, words in lines:
        if len(words) != 3:
            sys.exit(f"{path}:{number}: a line has a check, a pattern of paths and a reason")
    return [Passed(check, pattern, number) for number, (check, pattern, _) in lines]


def without_exceptions(mistakes: list[Mistake], exceptions: list[Passed], checks: set[str]) -> list[Mistake]:
    """The mistakes that no exception passes over. An exception from a check that was made, and that passed over
    nothing, is a mistake: so the list only gets shorter."""
    left = [it for it in mistakes if not any([one.passes(it) for one in exceptions])]
    unused = [it for it in exceptions if not it.count and it.check in checks]
    return left + [
        Mistake(LIST, it.line, it.check, f"nothing is to be passed over in {it.pattern}: take the line away")
        for it in unused
    ]
