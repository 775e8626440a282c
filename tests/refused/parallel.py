"""How many checks may run side by side: as many as there are processors, if memory allows."""

from __future__ import annotations

import os

import toolchain

# The most memory that one check takes, and what the others take beside it, in bytes (docs/GATE.md).
LARGEST = 8_000_000_000
EACH = 4_000_000_000


def checks_at_once() -> int:
    """RT_JOBS, if it is a number above 0, and otherwise what the machine has processors and free memory for."""
    given = os.environ.get("RT_JOBS", "")
    if given.isdigit() and int(given):
        return int(given)
    rt = toolchain.rt()
    beside_the_largest = (int(rt.free()) - LARGEST) // EACH
    return max(1, min(rt.processors(), 1 + beside_the_largest))


if __name__ == "__main__":
    print(checks_at_once())
