"""Where journal files stand in a collector's folder, and which of them a call reads.

    journals/present/NAME.journal    what is acknowledged of a database that isn't finished, in the order of its coming
    journals/today/NAME.journal      the entries of a finished database by their times
    journals/today/NAME.json         what these files have: it comes last
    journals/today/NAME.gz           their text, packed, of which a day is made
    journals/DAY/all.journal         the databases that began on one day: one sequence of files by time
    journals/DAY/about.json          what these have

A name that is too large for one file has further ones, `NAME@..journal`.
"""
import json
import re
import resource
from collections import Counter
from collections.abc import Iterable, Iterator
from contextlib import ExitStack, suppress
from dataclasses import dataclass, field
from pathlib import Path
from typing import NamedTuple

from ..common import files
from ..common.entries import Data, Entry, Span, Untaken, entry
from ..machine.journal import JournalFile, read_header
from . import remote

DAY = re.compile(r"\d{4}-\d\d-\d\d(\.\d+)?", re.ASCII)
ALL, ABOUT = "all", "about.json"
# The group that a collector's folder has may read, whatever else who makes them leaves to others.
MODE, FOLDER_MODE = 0o640, 0o750
FOREVER = 1 << 63
# A machine that says more boots of one day than these isn't listened to.
MOST_BOOTS = 1_000


@dataclass
class About:
    """What some files have: the databases, the number of entries, for what reasons how many entries are in databases
    alone, and of each machine the first and last time of each boot, in microseconds."""
    databases: list[str] = field(default_factory=list)
    entries: int = 0
    untaken: Counter[str] = field(default_factory=Counter)
    boots: dict[str, dict[str, list[int]]] = field(default_factory=dict)

    def add(self, machine: str, boot: str, *times: int) -> None:
        """Entries of a boot are in the files."""
        boots = self.boots.setdefault(machine, {})
        if boot in boots or len(boots) < MOST_BOOTS:
            known = boots.get(boot, times)
            boots[boot] = [min(*known, *times), max(*known, *times)]

    def taken(self, data: Data, spans: Iterable[Span]) -> Iterator[Entry]:
        """The entries of some spans. What can't be in a journal file is told."""
        for span in spans:
            try:
                yield entry(data, span)
            except Untaken as reason:
                self.untaken[str(reason)] += 1

    def join(self, other: "About") -> None:
        """What the other has is added, but for its databases."""
        self.entries += other.entries
        self.untaken.update(other.untaken)
        for machine, boots in other.boots.items():
            for boot, times in boots.items():
                self.add(machine, boot, *times)

    def write(self, path: Path) -> None:
        files.replace(path, json.dumps(vars(self), separators=(",", ":")).encode(), MODE)


def about(path: Path) -> About:
    """What a file says; nothing if it went meanwhile."""
    return About(**json.loads(path.read_bytes())) if path.exists() else About()


class File(NamedTuple):
    """An open journal file, and what its header says."""
    handle: int
    header: JournalFile

    @property
    def is_present(self) -> bool:
        """Whether its entries are in the order of their coming, and not in that of their times."""
        return self.header.path.parent.name == "present"

    def has(self, since: int, until: int) -> bool:
        """Whether entries of this time may be in it."""
        first, last = self.header.head_realtime, self.header.tail_realtime
        return min(first, last) <= until and (last >= since or self.is_present)


class Places:
    def __init__(self, folder: Path) -> None:
        self.folder, self.journals = folder, folder / "journals"
        self.present, self.today = self.journals / "present", self.journals / "today"
        # Where files are made that don't count yet.
        self.making = self.journals / ".making"

    def make(self) -> None:
        for folder in (self.journals, self.present, self.today):
            folder.mkdir(exist_ok=True)
            if folder.stat().st_mode & 0o777 != FOLDER_MODE:
                folder.chmod(FOLDER_MODE)

    def days(self) -> list[Path]:
        return [path for path in self.journals.glob("*") if DAY.fullmatch(path.name)]

    def of_today(self) -> set[str]:
        return {path.stem for path in self.today.glob("*.json")}

    def made(self) -> dict[str, Path]:
        """The databases whose journal files stand, each with what says so."""
        found = {name: self.today / f"{name}.json" for name in self.of_today()}
        for day in self.days():
            found |= dict.fromkeys(about(day / ABOUT).databases, day / ABOUT)
        return found

    def about(self) -> About:
        """What all files have together."""
        joined, told = About(), self.made()
        for path in {*told.values(), *(path for path in self.present.glob("*.json") if path.stem not in told)}:
            joined.join(about(path))
        return joined

    def standing(self, opened: ExitStack) -> list[File]:
        """The files that stand now, each database in one of its places: the present's, and those by time, the oldest
        first. They are opened as they are chosen, so that none is missing if a database gets its place meanwhile."""
        _, hard = resource.getrlimit(resource.RLIMIT_NOFILE)
        resource.setrlimit(resource.RLIMIT_NOFILE, (hard, hard))
        for _ in range(20):
            with suppress(FileNotFoundError):
                return self.look(opened)
            opened.close()
        raise OSError(f"the files in {self.journals} change all the time")

    def look(self, opened: ExitStack) -> list[File]:
        """The present is listed first, then what takes its place, then what takes that one's: none is passed over."""
        live, told = self.live(), self.made()
        days = {path.parent for path in told.values()} - {self.today}
        by_time = [path for day in days for path in day.glob("*.journal")]
        by_time += [path for path in self.today.glob("*.journal")
                    if told.get(remote.stem(path), self.today).parent == self.today]
        present = open_all((path for path in live if remote.stem(path) not in told), opened)
        return present + sorted(open_all(by_time, opened), key=lambda file: file.header.head_realtime)

    def live(self) -> list[Path]:
        return sorted(self.present.glob("*.journal"))

    def tail(self) -> int:
        """The number of the present's last entry."""
        return max((header.tail for header in remote.headers(self.live())), default=0)


def open_all(paths: Iterable[Path], opened: ExitStack) -> list[File]:
    """Those that have entries."""
    found = []
    for path in paths:
        handle = opened.enter_context(open(path, "rb", buffering=0)).fileno()
        with suppress(ValueError):
            found.append(File(handle, read_header(path, handle)))
    return [file for file in found if file.header.entries]
