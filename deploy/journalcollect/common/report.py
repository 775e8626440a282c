"""What a program that stays says of itself: lines on standard error, which systemd puts into the journal, and a status.

A line of a process that stays would come back as an entry that is sent, and what fails fails again: so what is said
once isn't said again for an hour, whatever numbers are in it.
"""
import sys
import time
from collections.abc import Callable

FINE, LOOK, WRONG, FAILED, BUSY = 0, 1, 2, 3, 75
AGAIN_SECONDS = 3600.0


class Report:
    """The greatest status of what was said is its own. `note` gets what somebody has to look at."""

    def __init__(self, note: Callable[[int, str], None] | None = None) -> None:
        self.status, self.note = FINE, note
        self.said: dict[str, float] = {}

    def say(self, status: int, text: str) -> None:
        self.status = max(self.status, status)
        kind, now = "".join(each for each in text if not each.isdigit()), time.monotonic()
        if now - self.said.get(kind, -AGAIN_SECONDS) < AGAIN_SECONDS:
            return
        self.said = {each: at for each, at in self.said.items() if now - at < AGAIN_SECONDS} | {kind: now}
        print(text.encode("ascii", "backslashreplace").decode(), file=sys.stderr, flush=True)
        if self.note and status:
            self.note(status, text)
