"""Waiting for what is so in the end, however busy the computer is."""
from __future__ import annotations

import random
import socket
import time
from collections.abc import Callable
from contextlib import suppress
from pathlib import Path

# What takes a moment may take as long as this on a computer that does much else.
PATIENCE = 300.0
GIVEN = set[int]()


def wait_until(is_so: Callable[[], object], what: str = "it", seconds: float = PATIENCE) -> None:
    end = time.monotonic() + seconds
    while not is_so():
        assert time.monotonic() < end, f"{what} isn't so after {seconds:.0f} s"
        time.sleep(0.05)


def listens(at: Path | int) -> bool:
    """Whether somebody takes connections at a socket's path, or at a port."""
    with socket.socket(socket.AF_UNIX if isinstance(at, Path) else socket.AF_INET) as one:
        return one.connect_ex(str(at) if isinstance(at, Path) else ("127.0.0.1", at)) == 0


def free_port() -> int:
    """A port that is free, that nobody here got before, and below those that systems give to who asks for none."""
    while True:
        port = random.randrange(10_000, 32_768)
        with socket.socket() as probe, suppress(OSError):
            probe.bind(("127.0.0.1", port))
            if port not in GIVEN:
                GIVEN.add(port)
                return port
