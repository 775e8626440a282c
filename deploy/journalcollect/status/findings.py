"""What isn't as it should be: each finding has a name for programs, a sentence, and what to do."""
import enum
from dataclasses import dataclass
from functools import partialmethod

from journalcollect.status import words

HOUR, DAY = 3600.0, 86400.0
SKEW_SECONDS = 60.0
WORDS = ("well", "look", "wrong settings", "failed")
CLOCK = "timedatectl on both says which is wrong; timedatectl set-ntp yes mends it"


class Status(enum.IntEnum):
    """What a monitor goes by, and the program's own status."""
    WELL, LOOK, WRONG, FAILED = range(4)


@dataclass(frozen=True)
class Finding:
    """`about` is `collector`, `machine`, or what of them: a machine's name, a database, a unit."""
    status: Status
    name: str
    about: str
    text: str
    remedy: str

    def line(self) -> str:
        return f"{WORDS[self.status]}: {self.about}: {self.text}\n    → {self.remedy}"


class Findings(list[Finding]):
    def add(self, status: Status, name: str, about: str, text: str, remedy: str) -> None:
        self.append(Finding(status, name, about, text, remedy))

    # Entries still come; the settings are wrong, or the call; nothing comes, or is stored, until it is mended.
    look, wrong = partialmethod(add, Status.LOOK), partialmethod(add, Status.WRONG)
    failed = partialmethod(add, Status.FAILED)

    def clock(self, about: str, ahead: float, this: str, other: str) -> None:
        """By so many seconds a clock goes ahead of another one."""
        if abs(ahead) > SKEW_SECONDS:
            side = "ahead of" if ahead > 0 else "behind"
            self.look("clock", about, f"{this} is {words.span(abs(ahead))} {side} {other}", CLOCK)

    @property
    def status(self) -> Status:
        return max((finding.status for finding in self), default=Status.WELL)
