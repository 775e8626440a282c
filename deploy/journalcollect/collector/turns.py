"""Uploads that wait, and whose turn it is: next is the machine that has the least of the store's time then.

What takes long can't be interrupted, and stands before whoever comes meanwhile. So it has its turn alone, and if others
come, too, there is a rest behind it: most of those who come don't find such a one there.
"""
import collections
import threading
import time
from concurrent.futures import Future
from dataclasses import dataclass, field
from pathlib import Path

from ..common.protocol import Answer, Put, Verdict

# So many uploads, one of each machine, are handed to the program at once, if they are likely to take no more than so
# many seconds together. One that is likely to take longer, or is of a machine whose last one did, is heavy.
MOST, HEAVY = 64, 0.2
# After a heavy one others have the store for themselves, so many times as long as it took.
REST = 2.0
# Seconds that an upload is likely to take, and each of its bytes, its lines, and the files that are made for its notes:
# each of these has some 8 syncs as the database ends, and one of a new sequence as many at once.
OF_AN_UPLOAD, OF_A_BYTE, OF_A_LINE, OF_A_FILE = 5e-3, 5e-8, 4e-6, 25e-3


@dataclass(eq=False)
class Waiting:
    """An upload that waits; so many files are made for its notes, and `last` is the key of its last entry, if known."""
    machine: str
    handle: int
    size: int
    lines: int = 0
    files: int = 0
    path: Path | None = None
    last: tuple[str, int] | None = None
    reply: Future[Answer | Put] = field(default_factory=Future)

    @property
    def seconds(self) -> float:
        return OF_AN_UPLOAD + OF_A_BYTE * self.size + OF_A_LINE * self.lines + OF_A_FILE * self.files

    def put(self, verdict: Verdict, why: str) -> None:
        """It isn't stored."""
        if self.path:
            self.path.unlink(missing_ok=True)
        self.reply.set_result(Put(verdict, why))


class Turns:
    def __init__(self) -> None:
        self.changed = threading.Condition()
        self.waiting: dict[str, collections.deque[Waiting]] = {}
        self.had: dict[str, float] = {}
        self.last: dict[str, float] = {}
        self.rests_until, self.is_shared = 0.0, False

    def put(self, upload: Waiting) -> None:
        """An upload waits. Who comes anew begins with the least of those that wait."""
        with self.changed:
            if upload.machine not in self.waiting:
                least = min((self.had[each] for each in self.waiting), default=0.0)
                self.had[upload.machine] = max(self.had.get(upload.machine, 0.0), least)
            self.waiting.setdefault(upload.machine, collections.deque()).append(upload)
            self.changed.notify()

    def wake(self) -> None:
        """Whoever waits for a group looks whether something else is to be done."""
        with self.changed:
            self.changed.notify()

    def group(self, seconds: float) -> list[Waiting]:
        """What is to be stored next; nothing, if nothing came for so long."""
        with self.changed:
            group = list[Waiting]()
            if not self.due():
                self.changed.wait(min(seconds, self.rests_until - time.monotonic()) if self.waiting else seconds)
            for machine in self.due()[:MOST]:
                upload, is_heavy = self.waiting[machine][0], self.is_heavy(machine)
                if group and (is_heavy or sum(each.seconds for each in group) + upload.seconds > HEAVY):
                    continue
                group.append(upload)
                self.take(upload)
                if is_heavy:
                    break
            return group

    def due(self) -> list[str]:
        """The machines whose next upload may be stored now, in the order of their turns."""
        rests = time.monotonic() < self.rests_until
        return sorted((each for each in self.waiting if not (rests and self.is_heavy(each))),
                      key=lambda each: self.had[each] + self.waiting[each][0].seconds)

    def is_heavy(self, machine: str) -> bool:
        return max(self.waiting[machine][0].seconds, self.last.get(machine, 0.0)) > HEAVY

    def take(self, upload: Waiting) -> bool:
        """An upload doesn't wait any more. Whether it did."""
        with self.changed:
            queue = self.waiting.get(upload.machine, collections.deque())
            if did := upload in queue:
                queue.remove(upload)
                if not queue:
                    del self.waiting[upload.machine]
            return did

    def charge(self, group: list[Waiting], seconds: float) -> None:
        """What a group took counts for its machines, as each was likely to take a part of it."""
        total = sum(each.seconds for each in group) or 1.0
        with self.changed:
            for each in group:
                self.last[each.machine] = seconds * each.seconds / total
                self.had[each.machine] = self.had.get(each.machine, 0.0) + self.last[each.machine]
            was_heavy = len(group) == 1 and max(seconds, group[0].seconds) > HEAVY
            if was_heavy and self.is_shared:
                self.rests_until = time.monotonic() + REST * seconds
            self.is_shared = not was_heavy

    def length(self) -> int:
        with self.changed:
            return sum(map(len, self.waiting.values()))
