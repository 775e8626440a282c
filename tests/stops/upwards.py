"""Numbers of calls, tried upwards until there is nothing left to do."""
from __future__ import annotations

from collections.abc import Callable
from concurrent.futures import Executor
from typing import Protocol

NEVER = 10**12
# So many numbers are tried before it is asked whether there was anything to do at the last of them.
CHUNK = 16


class Once(Protocol):
    def __call__(self, mode: str, number: int, last: int, reads: bool = False) -> bool:
        """A run that is stopped, or whose device fails, at a call; answers whether it was."""


def upwards(pool: Executor, attempt: Callable[[int], bool], step: int = 1) -> int:
    """Tries one number after another until an attempt finds nothing to do; answers how many did."""
    tried = 0
    while True:
        numbers = range(1 + tried * step, 1 + (tried + CHUNK) * step, step)
        found = list(pool.map(attempt, numbers))
        tried += found.count(True)
        if not all(found):
            return tried


def stops_and_failures(name: str, pool: Executor, once: Once) -> int:
    """Stops a run before and within each call, and has its device fail at each, alone and with all later ones, with or
    without reads."""
    counts = [upwards(pool, lambda number: once(mode, number, NEVER)) for mode in "kh"]
    counts.append(upwards(pool, lambda number: once("f", number, number, True)))
    counts += [upwards(pool, lambda number: once("f", number, NEVER, reads)) for reads in (False, True)]
    print(f"stops: {name}: {sum(counts[:2])} stops, {sum(counts[2:])} failures")
    return sum(counts)
