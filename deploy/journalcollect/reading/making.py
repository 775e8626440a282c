"""Makes journal files of finished databases, and of those that began on one day one sequence of files by time.

usage: python3 -m journalcollect.reading.making [--anew] FOLDER

They are a cache: what is there is made of databases, and counts once it has its name. `--anew` makes all of them, also
those that stand.
"""
import contextlib
import gzip
import heapq
import itertools
import mmap
import os
import shutil
import sys
import time
from collections.abc import Callable, Iterable, Iterator
from pathlib import Path

from ..collector import databases, settings
from ..common import entries, files, program
from ..status import looking
from . import places, remote
from .places import ABOUT, ALL, DAY, About, Places

UNKNOWN = "systemd-journal-remote didn't write them"
# One of them costs the files of a database or of a day, until the next run.
FAILURES = (OSError, EOFError, ValueError, program.Failed, databases.Damaged, remote.Failed)


@contextlib.contextmanager
def exported(folder: settings.Folder, name: str) -> Iterator[entries.Data]:
    """All entries of a database, as a canonical stream."""
    with databases.unpacked(folder, name) as copy, files.unnamed(folder.scratch) as stream:
        program.export(copy, stream)
        yield mmap.mmap(stream, 0, access=mmap.ACCESS_READ) if os.fstat(stream).st_size else b""


def spooled(path: Path) -> Iterator[tuple[int, bytes]]:
    """What `by_time` packed: the time of each entry, and its text."""
    with gzip.open(path) as file:
        while line := file.readline():
            realtime, length = map(int, line.split())
            yield realtime, file.read(length)


def write(texts: Iterable[bytes], folder: Path, name: str, about: About) -> None:
    """Makes journal files of entries that come by time. What systemd-journal-remote leaves out is told."""
    writer = remote.Remote(folder / f"{name}.journal")
    writer.write(texts)
    writer.finish()
    written = sum(head.entries for head in remote.headers(remote.parts(folder, name)))
    if written < about.entries:
        about.untaken[UNKNOWN] = about.entries - written


class Maker:
    """One run: everything that waits is made, the newest first."""

    def __init__(self, folder: Path, chosen: settings.Settings) -> None:
        self.places, self.folder, self.chosen = Places(folder), settings.Folder(folder), chosen
        # The machine of each sequence; of what came by hand there may be none.
        self.owners: dict[str, str] = dict(looking.rows(self.folder.state, "SELECT id, machine FROM sequence"))

    def run(self, is_anew: bool) -> int:
        """One run at a time, up to its process's end: who comes meanwhile leaves it that, unless all is made anew."""
        self.places.make()
        self.folder.scratch.mkdir(exist_ok=True)
        if self.folder.locked("journals/.lock", is_waiting=is_anew) is None:
            return 0
        for folder in [*self.places.days(), self.places.today] if is_anew else ():
            shutil.rmtree(folder, ignore_errors=True)
        self.places.make()
        if not remote.REMOTE.exists():
            return told("there is no systemd-journal-remote, a package of its own: no databases are packed meanwhile")
        self.clean()
        status = 0
        for what, make in self.waiting():
            if not self.folder.is_roomy(self.chosen):
                status = told(f"FREE_BYTES is {self.chosen.free_bytes}, and not twice as many are free: none are made")
                break
            try:
                make(what)
            except FAILURES as error:
                status = told(f"none are made of {what}: {error}")
        self.clean()
        self.forget()
        return status

    def waiting(self) -> Iterator[tuple[str, Callable[[str], None]]]:
        """What is to be made, and how: the finished databases of the days that are kept, then the days that are over.
        The name of a database begins with its day."""
        finished = set(filter(DAY.match, databases.finished(self.folder)))
        kept = self.kept(finished)
        for name in sorted(finished - self.places.made().keys(), reverse=True):
            if name[:10] in kept:
                yield name, self.make
        over = max([time.strftime("%F", time.gmtime(time.time() - 86_400)), *kept[:1]])
        for day in sorted({name[:10] for name in self.places.of_today()}, reverse=True):
            if day < over:
                yield day, self.make_day

    def kept(self, names: Iterable[str]) -> list[str]:
        """The newest days of these names: on which something came, so a clock that is wrong costs one."""
        return sorted({name[:10] for name in names}, reverse=True)[:self.chosen.read_days]

    def make(self, name: str) -> None:
        """Journal files of one database, and its text for the day's."""
        making, about, packed = self.places.making, About([name]), self.places.making / f"{name}.gz"
        with exported(self.folder, name) as data, gzip.open(packed, "wb", compresslevel=1) as spool:
            write(self.by_time(data, about, spool), making, name, about)
        for path in [*remote.parts(making, name), packed]:
            path.rename(self.places.today / path.name)
        about.write(self.places.today / f"{name}.json")

    def by_time(self, data: entries.Data, about: About, spool: gzip.GzipFile) -> Iterator[bytes]:
        """The entries of an export in the order of their times."""
        found = sorted((int(data[span.begin + len("__REALTIME_TIMESTAMP="):data.find(b"\n", span.begin)]), span)
                       for span in entries.spans(data))
        for entry in about.taken(data, (span for _, span in found)):
            machine = self.owners.get(entry.sequence, "")
            about.entries += 1
            about.add(machine, entry.boot, entry.realtime)
            text = entry.text(machine, self.chosen.read_keys)
            spool.write(b"%d %d\n%s" % (entry.realtime, len(text), text))
            yield text

    def make_day(self, day: str) -> None:
        """One sequence of files of a day's databases takes the place of theirs. A day that was made before, as with a
        database that was recovered late, has a further folder."""
        names = sorted(name for name in self.places.of_today() if name.startswith(day))
        making, about, today = self.places.making / day, About(names), self.places.today
        making.mkdir()
        for name in names:
            about.join(places.about(today / f"{name}.json"))
        about.untaken.pop(UNKNOWN, None)
        merged = heapq.merge(*(spooled(today / f"{name}.gz") for name in names), key=lambda each: each[0])
        write((text for _, text in merged), making, ALL, about)
        about.write(making / ABOUT)
        named = (self.places.journals / (f"{day}.{number}" if number > 1 else day) for number in itertools.count(1))
        making.rename(next(path for path in named if not path.exists()))

    def clean(self) -> None:
        """What a run left that was stopped, and what has its place in a day."""
        shutil.rmtree(self.places.making, ignore_errors=True)
        self.places.making.mkdir(exist_ok=True)        # what a run began that was killed may end later than it
        stands = {name for name, path in self.places.made().items() if path.parent == self.places.today}
        for path in self.places.today.iterdir():
            if remote.stem(path) not in stands:
                path.unlink(missing_ok=True)

    def forget(self) -> None:
        """Days that are over READ_DAYS days go."""
        kept = self.kept([*(folder.name for folder in self.places.days()), *self.places.of_today()])
        for folder in self.places.days():
            if folder.name[:10] not in kept:
                shutil.rmtree(folder)


def told(text: str) -> int:
    print(f"journal files: {text}", file=sys.stderr, flush=True)
    return 1


def main(words: list[str]) -> int:
    *asked, folder = words
    os.umask(0o027)
    try:
        return Maker(Path(folder), settings.read()).run("--anew" in asked)
    except OSError as error:
        return told(str(error))


if __name__ == "__main__":
    sys.exit(main(sys.argv[1:]))
