"""journal-collect-forward: brings what was collected to ClickHouse, database by database."""
import argparse
import itertools
import json
import os
import shutil
import signal
import sys
import time
from collections.abc import Callable, Iterator
from dataclasses import asdict, dataclass, field
from datetime import date
from pathlib import Path
from typing import Any

from ..collector import databases, settings as collector_settings
from ..common import files, program
from ..common.entries import spans
from ..common.report import BUSY, FAILED, LOOK, WRONG
from ..common.settings import Wrong
from ..reading import making
from . import settings
from .clickhouse import ClickHouse, Refused, Unavailable
from .rows import row

STATUSES = """\
Status: 0 all went well; 1 something to look at: entries that were put aside, databases that are damaged or went before
they were forwarded; 2 the call or the settings are wrong; 3 something failed; 75 another run is under way."""
BATCH_ENTRIES, BATCH_BYTES, POLL_SECONDS = 5_000, 8 << 20, 5.0
WAITS, LONGEST_WAIT, PATIENCE = (1, 2, 4, 8, 16, 32), 60, 8
ALL = "all"


@dataclass
class Place:
    """How far it has come: the target; the databases that are forwarded, or can't be, by their digests; those that
    waited, and those that went before their turn; why nothing is taken, if that is so, and since when."""
    target: str = ""
    done: dict[str, str] = field(default_factory=dict)
    bad: dict[str, str] = field(default_factory=dict)
    waited: list[str] = field(default_factory=list)
    missed: list[str] = field(default_factory=list)
    waits_for: str = ""
    waits_since: int = 0

    def waiting(self, finished: dict[str, str]) -> list[str]:
        """The databases that wait, the oldest first."""
        return sorted(name for name, digest in finished.items()
                      if digest not in (self.done.get(name), self.bad.get(name)))

    def note(self, finished: dict[str, str]) -> list[str]:
        """These are there now; those that waited and went."""
        gone = [name for name in self.waited if name not in {*finished, *self.done, *self.bad}]
        self.missed += gone
        self.done = {name: digest for name, digest in self.done.items() if name in finished}
        self.bad = {name: digest for name, digest in self.bad.items() if name in finished}
        self.waited = self.waiting(finished)
        return gone


class Forwarder:
    """One run. How far it has come is in one file, which is replaced whole once the engine has what it says; what the
    engine doesn't take is in another one, a line for each entry."""

    def __init__(self, chosen: settings.Settings, folder: Path, once: bool) -> None:
        self.chosen, self.once, self.state = chosen, once, folder / "forward"
        self.folder = collector_settings.Folder(folder)
        self.folder.scratch = self.state / "scratch"
        self.path, self.aside, self.status = self.state / "place.json", self.state / "aside.json", 0
        try:
            self.place = Place(**json.loads(self.path.read_bytes()))
        except (FileNotFoundError, ValueError, TypeError):
            self.place = Place()                        # what comes again counts once

    def write(self) -> None:
        files.replace(self.path, json.dumps(asdict(self.place), indent=1).encode())

    def tell(self, text: str, status: int = 0) -> None:
        print(f"forward: {text}", file=sys.stderr, flush=True)
        self.status = max(self.status, status)

    def finished(self) -> dict[str, str]:
        """The finished databases and their digests."""
        return {name: databases.told_digest(databases.path_of(self.folder, name)) or ""
                for name in databases.finished(self.folder)}

    def begin(self, again: list[str], keeps: bool) -> None:
        """What is to be forwarded once more. What another target has says nothing of this one."""
        if ALL in again:
            self.place = Place()
        elif self.place.target not in ("", self.chosen.target) and not keeps:
            raise Wrong(f"`{self.place.target}` has what was forwarded, and the settings name `{self.chosen.target}`: "
                        f"call --again {ALL} to forward all to it, or --keep-place if it has the same")
        for name in again:
            if name != ALL and not (self.place.done.pop(name, None) or self.place.bad.pop(name, None)):
                raise Wrong(f"{name} wasn't forwarded")
        self.place.target, self.place.waits_for = self.chosen.target, ""
        self.write()

    def run(self, engine: ClickHouse) -> int:
        shutil.rmtree(self.folder.scratch, ignore_errors=True)          # what a run left that was killed
        self.folder.scratch.mkdir()
        self.insist(engine.look)
        while True:
            finished = self.finished()
            for name in self.place.note(finished):
                self.tell(f"{name} went before it was forwarded", LOOK)
            for name in self.place.waited:
                self.forward(name, finished[name], engine)
            self.write()
            if self.once and not self.place.waiting(self.finished()):
                return self.status
            time.sleep(0.0 if self.once else POLL_SECONDS)

    def forward(self, name: str, digest: str, engine: ClickHouse) -> None:
        """Brings a database there. If a stop comes between, all of it goes out once more, and counts once."""
        try:
            for batch in batches(self.rows(name)):
                self.bring(name, batch, engine)
            self.place.done[name] = digest
        except (program.Failed, databases.Damaged, ValueError) as error:
            self.place.bad[name] = digest
            self.tell(f"{name} is damaged, and not all of it is forwarded: {error}", LOOK)
        except FileNotFoundError:
            self.tell(f"{name} went while it was forwarded", LOOK)
        self.write()

    def rows(self, name: str) -> Iterator[bytes]:
        """The entries of a database, in the order of their keys."""
        day = date.fromisoformat(name[:10])
        with making.exported(self.folder, name) as data:
            for span in spans(data):
                yield row(data[span.begin:span.end], day)

    def bring(self, database: str, batch: list[bytes], engine: ClickHouse) -> None:
        """Brings rows there, however long that takes. What isn't taken is found by halves, and put aside."""
        try:
            self.insist(lambda: engine.put(batch))
        except Refused as fault:
            if len(batch) == 1:
                self.put_aside(database, json.loads(batch[0]), str(fault))
                return
            half = len(batch) // 2
            self.bring(database, batch[:half], engine)
            self.bring(database, batch[half:], engine)

    def put_aside(self, database: str, row: dict[str, Any], why: str) -> None:
        """A row is on the disk when this returns, and why it isn't taken; after a stop perhaps once more."""
        with open(self.aside, "ab") as file:
            file.write(json.dumps({"database": database, "why": why, "row": row}).encode() + b"\n")
            file.flush()
            os.fsync(file.fileno())
        self.tell(f"{row['sequence']} {row['number']} isn't taken, and is put aside in {self.aside}: {why}", LOOK)

    def insist(self, step: Callable[[], None]) -> None:
        """Takes a step again and again until the engine lets it be taken."""
        for seconds in itertools.chain(WAITS, itertools.repeat(LONGEST_WAIT)):
            try:
                step()
                break
            except Unavailable as unavailable:
                self.wait(str(unavailable), seconds)
        if self.place.waits_for:
            self.tell("it goes on")
            self.place.waits_for = ""
            self.write()

    def wait(self, why: str, seconds: int) -> None:
        if why != self.place.waits_for:
            self.place.waits_for, self.place.waits_since = why, int(time.time())
            self.tell(f"{why}; it is tried again in {seconds} s, and later at least each minute")
            self.write()
        if self.once and seconds > PATIENCE:
            raise TimeoutError(f"nothing is taken: {why}")
        time.sleep(seconds)

    def say_status(self) -> int:
        """How far behind it is; whether something is to be looked at."""
        done, waiting = self.place.done, self.place.waiting(self.finished())
        print(f"engine {self.chosen.target}\nforwarded {len(done)} newest {max(done, default='none')}\n"
              f"waiting {len(waiting)}")
        wrong = [f"damaged {name}" for name in self.place.bad] + [f"missed {name}" for name in self.place.missed]
        if self.aside.exists():
            count = self.aside.read_bytes().count(b"\n")
            wrong.append(f"aside {count} in {self.aside}")
        if self.place.waits_for:
            wrong.append(f"waits since {int(time.time()) - self.place.waits_since} seconds: {self.place.waits_for}")
        print(*wrong, sep="\n", end="\n" if wrong else "")
        return LOOK if wrong else 0


def batches(rows: Iterator[bytes]) -> Iterator[list[bytes]]:
    """Rows that go out together: so many at most, or so many bytes and one row more."""
    batch, held = list[bytes](), 0
    for each in rows:
        batch.append(each)
        held += len(each)
        if len(batch) == BATCH_ENTRIES or held >= BATCH_BYTES:
            yield batch
            batch, held = [], 0
    if batch:
        yield batch


def main() -> int:
    parser = argparse.ArgumentParser(prog="journal-collect-forward", description=__doc__, epilog=STATUSES,
                                     formatter_class=argparse.RawDescriptionHelpFormatter, allow_abbrev=False)
    parser.add_argument("--once", action="store_true", help="end when nothing waits any more")
    parser.add_argument("--status", action="store_true", help="say how far behind it is, and do nothing")
    parser.add_argument("--schema", action="store_true", help="print what the engine has to be set up with")
    parser.add_argument("--again", metavar="DATABASE", action="append", default=[],
                        help=f"forward this database once more, or all that are there (`{ALL}`)")
    parser.add_argument("--timeout", metavar="SECONDS", type=float, default=60.0,
                        help="a request with its answer takes at most so long (60)")
    parser.add_argument("--keep-place", action="store_true", help="go on with another engine as with the last one")
    asked = parser.parse_args()
    os.umask(0o077)
    try:
        chosen = settings.read()
        if asked.schema:
            print(Path(__file__).with_name("clickhouse.sql").read_text().replace("@table@", chosen.table), end="")
            return 0
        if not chosen.url:
            print("forward: URL isn't set; nothing is forwarded", file=sys.stderr)
            return 0
        run = Forwarder(chosen, Path(collector_settings.read().folder), asked.once)
        if asked.status:
            return run.say_status()
        run.state.mkdir(exist_ok=True)
        signal.signal(signal.SIGTERM, lambda *_: sys.exit(0))
        if run.folder.locked("forward/lock") is None:
            print("forward: another run is under way", file=sys.stderr)
            return BUSY
        run.begin(asked.again, asked.keep_place)
        return run.run(ClickHouse(chosen, asked.timeout))
    except (Wrong, OSError) as fault:
        print(f"forward: {fault}", file=sys.stderr)
        return WRONG if isinstance(fault, Wrong) else FAILED
