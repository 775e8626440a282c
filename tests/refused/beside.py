"""An `rt ci` that runs beside this, and turns to check while it does."""

from __future__ import annotations

import re
import threading
import time
from collections.abc import Iterator
from contextlib import contextmanager
from typing import TextIO

import toolchain
from parallel import EACH, LARGEST

# What `rt ci` says when a crate's library stands.
STANDS = re.compile(r"rt: (\w+) (?:proved|is kept: .*)$")
# The seconds between two checks that begin: so soon one takes a processor that was idle.
BETWEEN = 3.0


class Ci:
    """What an `rt ci` has proved so far, by its words, which come on a stream and end with it."""

    def __init__(self, words: TextIO | None) -> None:
        self._stand: set[str] = set()
        self._changed = threading.Condition()
        self.has_ended = words is None
        if words is not None:
            threading.Thread(target=self._listen, args=(words,), daemon=True).start()

    def _listen(self, words: TextIO) -> None:
        for line in words:
            if found := STANDS.match(line):
                self._say(found[1])
        self._say(None)

    def _say(self, name: str | None) -> None:
        with self._changed:
            if name is None:
                self.has_ended = True
            else:
                self._stand.add(name)
            self._changed.notify_all()

    @property
    def standing(self) -> frozenset[str]:
        """The crates whose libraries stand, as it said so far."""
        with self._changed:
            return frozenset(self._stand)

    def wait_for(self, names: set[str]) -> None:
        """Returns when the libraries of these names stand, or when `rt ci` has ended."""
        with self._changed:
            self._changed.wait_for(lambda: self.has_ended or names <= self._stand)


class Turns:
    """Which checks run at once: as many as are given, those of the largest crates first. Beside `rt ci`, or another
    check, one begins only when a processor is idle, since scripts run too when `rt ci` has ended; and beside `rt ci`
    only if there is memory for it and for the largest check of that."""

    def __init__(self, at_once: int, ci: Ci) -> None:
        self._at_once = at_once
        self._ci = ci
        self._running = 0
        self._latest = 0.0
        self._waiting: list[int] = []
        self._changed = threading.Condition()

    @contextmanager
    def turn(self, size: int) -> Iterator[None]:
        """Waits for a turn of a crate of this size, and holds it."""
        with self._changed:
            self._waiting.append(size)
            while size < max(self._waiting) or not self._is_free():
                # nobody here says when rt ci leaves a processor idle
                self._changed.wait(1)
            self._waiting.remove(size)
            self._running += 1
            self._latest = time.monotonic()
        try:
            yield
        finally:
            with self._changed:
                self._running -= 1
                self._changed.notify_all()

    def _is_free(self) -> bool:
        if self._running >= self._at_once:
            return False
        if self._ci.has_ended and not self._running:
            return True
        if time.monotonic() < self._latest + BETWEEN or _busy() >= toolchain.rt().processors():
            return False
        return self._ci.has_ended or int(toolchain.rt().free()) >= LARGEST + EACH * self._running


def _busy() -> int:
    """How many threads run on this machine, or wait for a processor, beside the one that asks."""
    with open("/proc/loadavg", encoding="utf-8") as it:
        return int(it.read().split()[3].partition("/")[0]) - 1
