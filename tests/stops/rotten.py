"""A byte that can't be read, of a database or of its log: at one place after another reads fail that have it, while
uploads are sent again that are stored, and while the entries are listed.

All goes on as ever, or an answer is 62, the listing stops or the database isn't opened. Once the byte can be read
again, all entries are there. The program had closed some databases; it was killed before it closed the others, so that
what is stored is in the log.
"""
from __future__ import annotations

import os
import shutil
from collections.abc import Iterator, Sequence
from concurrent.futures import Executor

import device
import samples
from collecting import WORDS, Collecting
from scenarios import OF_VERSION_3
from trial import PROGRAM, Trial, run
from upwards import NEVER

UPLOADS = [samples.stream(samples.E1), samples.stream(samples.E2, samples.E3)]
# The sizes of a log's header, of the header of each page in it, and of a page.
LOG_HEADER, PAGE_HEADER, PAGE = 32, 24, 4096


class Rotten(Collecting):
    """Uploads that are sent again. The database that has them was closed, or its program was killed before that."""

    def __init__(self, trial: Trial, name: str, words: Sequence[str], is_closed: bool) -> None:
        super().__init__(trial, f"{name}, {'closed' if is_closed else 'not closed'}", UPLOADS, UPLOADS, words)
        self.whole = (self.journals[0].text(), "", 0)
        if not is_closed:
            self.base = self.not_closed(words)

    def not_closed(self, words: Sequence[str]) -> str:
        """A database whose program is killed once it has answered the last upload."""
        first = Collecting(self.trial, self.name, UPLOADS, words=words)
        calls = first.run("n", 0, 0)[2]
        answered = max(number for number, call in enumerate(calls, 1) if call.kind == b"1")
        database, told, _ = first.run("k", answered + 1, NEVER)
        self.trial.expect(f"{self.name}: before it is closed", told, (first.usual[0], "", -9))
        return database

    def places(self) -> Iterator[tuple[str, int]]:
        """A byte of each sector of the database, and in the log one of its header, and of each page and of the page's
        header."""
        size, size_of_log = (os.path.getsize(self.base + end) for end in ("", "-wal"))
        yield from (("d", place) for place in range(0, size, device.SECTOR))
        headers = range(LOG_HEADER, size_of_log, PAGE_HEADER + PAGE)
        pages = range(LOG_HEADER + PAGE_HEADER, size_of_log, PAGE_HEADER + PAGE)
        yield from (("l", place) for place in (0, *headers, *pages))

    def is_noticed(self, only: str, place: int) -> bool:
        """Whether a run tells that a byte can't be read."""
        what = f"{self.name}, byte {place} of file {only}"
        database, told, _ = self.run("b", place, 0, only=only)
        self.told(what, database, told)
        listed, _ = device.run(self.trial.library, "b", place, 0, [PROGRAM, "export", database], only=only)
        may_be = [self.whole[1:], (f"cannot open {database}\n", 3), ("store failed\n", 3)]
        self.trial.expect(f"{what}: {listed}", self.whole[0].startswith(listed[0]) and listed[1:] in may_be, True)
        self.trial.expect(f"{what}: afterwards", run("export", database), self.whole)
        shutil.rmtree(os.path.dirname(database))
        return (told, listed) != (self.usual, self.whole)

    def sweep(self, pool: Executor) -> int:
        places = list(self.places())
        noticed = sum(pool.map(lambda place: self.is_noticed(*place), places))
        print(f"rotten: {self.name}: {len(places)} bytes that can't be read, {noticed} of them noticed")
        self.trial.expect(f"{self.name}: some bytes are noticed, and some are of no use to anybody",
                          0 < noticed < len(places), True)
        return len(places)


def main() -> None:
    with device.trial_of("rotten") as (trial, pool):
        kinds = (("by key", WORDS), ("of version 3", OF_VERSION_3))
        databases = [Rotten(trial, name, words, is_closed) for name, words in kinds for is_closed in (True, False)]
        trial.finish(f"{sum(database.sweep(pool) for database in databases)} bytes that can't be read")


if __name__ == "__main__":
    main()
