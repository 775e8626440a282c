"""Processes that may end at any moment, also while a test looks at them."""
from __future__ import annotations

import os
import signal
from contextlib import suppress
from pathlib import Path


def children(process: int) -> set[int]:
    """Those that the threads of a process began; none of what has ended."""
    found = set[int]()
    with suppress(OSError):
        for thread in os.listdir(f"/proc/{process}/task"):
            with suppress(OSError):
                found.update(map(int, Path(f"/proc/{process}/task/{thread}/children").read_text().split()))
    return found


def descendants(process: int) -> list[int]:
    """Its children, and theirs, however deep."""
    return [each for child in sorted(children(process)) for each in (child, *descendants(child))]


def words(process: int) -> list[bytes]:
    """What it was called with; nothing of one that has ended."""
    with suppress(OSError):
        return Path(f"/proc/{process}/cmdline").read_bytes().split(b"\0")[:-1]
    return []


def kill(process: int) -> None:
    """Ends it, unless it has ended by itself."""
    with suppress(ProcessLookupError):
        os.kill(process, signal.SIGKILL)
