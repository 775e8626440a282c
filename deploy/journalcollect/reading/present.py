"""The present: what is acknowledged and isn't in a finished database yet, in journal files that journalctl follows.

All of it is one sequence: its id stays, and the number of an entry depends on nothing but the uploads of its database.
So the files can be made anew at any time, as they are when a process was killed, which loses or doubles what it held:
`journalctl --follow` shows each entry once, also one that came late, since it goes by numbers.
"""
import glob
import hashlib
import queue
import shutil
import subprocess
import sys
import threading
import time
from collections.abc import Callable, Iterator
from pathlib import Path

from ..common import entries, files
from ..common.protocol import HEADER, KIND, STREAM
from . import remote
from .places import About, Places

# So long the present of a finished database stays, for who follows it; nothing waits for what fails so often in a row.
SECONDS_STANDING = 3600.0
SECONDS_WAITING = 60.0
MOST_FAILURES = 10


def sequence_id() -> str:
    """The sequence of this collector's present."""
    return hashlib.sha256(b"journal-collect present " + Path("/etc/machine-id").read_bytes()).hexdigest()[:32]


class Live(remote.Remote):
    """The present of one database."""

    def __init__(self, places: Places, name: str, with_keys: bool) -> None:
        self.with_keys, self.keys = with_keys, set[tuple[str, int]]()
        self.about, self.path_of_about, self.is_told = About([name]), places.present / f"{name}.json", True
        path = places.present / f"{name}.journal"
        remote.begin(path, sequence_id(), before(places, name))
        super().__init__(path)

    def add(self, upload: Path) -> None:
        """The entries of an upload that weren't there before."""
        self.write(self.texts(upload))
        self.is_told = False

    def texts(self, upload: Path) -> Iterator[bytes]:
        machine = upload.name.partition(".")[2]
        try:
            with files.reading():
                data = upload.read_bytes()
            for entry in self.about.taken(data, entries.spans(data, HEADER) if data[KIND] == STREAM else ()):
                if (entry.sequence, entry.number) not in self.keys:
                    self.keys.add((entry.sequence, entry.number))
                    self.about.add(machine, entry.boot, entry.realtime)
                    yield entry.text(machine, self.with_keys)
        except (files.Unreadable, entries.Unfit) as fault:
            self.about.untaken[f"their upload can't be read: {fault}"] += 1

    def say(self) -> None:
        """What the files have now, beside them."""
        if not self.is_told:
            self.about.write(self.path_of_about)
            self.is_told = True


def before(places: Places, name: str) -> int:
    """The number before the first one: as it was if the database has a present, and else one that nothing had."""
    if heads := remote.headers(remote.parts(places.present, name)):
        return min(each.head - 1 if each.entries else each.tail for each in heads)
    return max(time.time_ns() // 1000, places.tail())


class Present(threading.Thread):
    """A thread that has it. It is told of uploads and of finished databases, and never holds up who tells."""

    def __init__(self, folder: Path, tell: Callable[[str], None], with_keys: bool = False) -> None:
        super().__init__(name="present", daemon=True)
        self.places, self.recent, self.databases = Places(folder), folder / "recent", folder / "databases"
        self.tell, self.with_keys = tell, with_keys
        self.events: queue.Queue[Path | str | None] = queue.Queue()
        self.lives: dict[str, Live] = {}
        self.maker: subprocess.Popen[bytes] | None = None
        self.makes_again = True

    def feed(self, upload: Path) -> None:
        """An upload is stored, and is recent/DATABASE/N."""
        self.events.put(upload)

    def turn(self, database: str) -> None:
        """A database is finished: recent/DATABASE goes once the present has it."""
        self.events.put(database)

    def stop(self) -> None:
        self.events.put(None)
        if self.is_alive():
            self.join(timeout=5.0)

    def run(self) -> None:
        """Whatever fails, the present is made anew some time later; what is stored doesn't depend on it."""
        failures = 0
        while True:
            try:
                self.places.make()
                self.begin()
                failures = 0
                self.follow()
                break
            except (remote.Failed, OSError) as error:
                failures += 1
                if failures in (1, MOST_FAILURES):
                    self.tell(f"the present in journal files is made anew: {error}")
                if failures >= MOST_FAILURES and self.let_go():
                    break
                time.sleep(min(failures, SECONDS_WAITING))
        for live in self.lives.values():
            live.kill()
        if self.maker:
            self.maker.terminate()

    def let_go(self) -> bool:
        """What can't be made doesn't hold on to what was finished; whether the end was told."""
        told = [self.events.get() for _ in range(self.events.qsize())]
        for folder in self.recent.glob("*"):
            if self.is_finished(folder.name):
                shutil.rmtree(folder, ignore_errors=True)
        return None in told

    def is_finished(self, name: str) -> bool:
        return (self.databases / f"{name}.db.sha256").exists()

    def begin(self) -> None:
        """All that waits is known by recent/, so what the queue has of it would come twice: keys tell. What had numbers
        comes first, by these: a name is a time, and a clock may have been set back."""
        for live in self.lives.values():
            live.kill()
        self.lives.clear()
        for folder in sorted(sorted(self.recent.glob("*")), key=lambda each: before(self.places, each.name)):
            for upload in sorted(glob.glob("*", root_dir=folder)):
                self.live(folder.name).add(folder / upload)
            if self.is_finished(folder.name):
                self.end(folder.name)

    def live(self, name: str) -> Live:
        """The present of a database. Who follows passes over lower numbers: what others have is written first."""
        if name not in self.lives:
            for other in self.lives.values():
                other.finish()
                other.start()
            self.lives[name] = Live(self.places, name, self.with_keys)
        return self.lives[name]

    def follow(self) -> None:
        """Takes up what is told, up to the end, and looks around once a second."""
        looked = 0.0
        while (event := self.next()) is not None:
            if isinstance(event, Path):
                self.live(event.parent.name).add(event)
            elif event:
                self.end(event)
                self.makes_again = True
            if time.monotonic() - looked > 1.0:
                looked = time.monotonic()
                self.look()

    def next(self) -> Path | str | None:
        """What is told next: an upload that is still there, a finished database, nothing for a while, or the end."""
        try:
            event = self.events.get(timeout=1.0)
        except queue.Empty:
            return ""
        return "" if isinstance(event, Path) and not event.exists() else event

    def look(self) -> None:
        """What is to be done now and then: journal files are made by a process of its own, one at a time."""
        for live in self.lives.values():
            live.say()
            if live.process.poll() is not None:
                raise remote.Failed("systemd-journal-remote ended")
        if self.makes_again and (self.maker is None or self.maker.poll() is not None):
            self.makes_again = False
            self.clean()
            self.maker = subprocess.Popen(
                ["nice", "-n", "10", sys.executable, "-B", "-m", "journalcollect.reading.making", self.places.folder],
                cwd=Path(__file__).resolve().parents[2], stdin=subprocess.DEVNULL)

    def end(self, name: str) -> None:
        if live := self.lives.pop(name, None):
            live.finish()
            live.say()
        shutil.rmtree(self.recent / name, ignore_errors=True)

    def clean(self) -> None:
        """The present of databases whose journal files stand goes after a while."""
        made = self.places.made()
        for path in self.places.present.glob("*.j*"):
            name = remote.stem(path)
            is_replaced = name in made or not self.is_finished(name)
            if name not in self.lives and is_replaced and time.time() - path.stat().st_mtime > SECONDS_STANDING:
                path.unlink(missing_ok=True)
