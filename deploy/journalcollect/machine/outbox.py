"""The outbox: uploads that are whole, and never change until they are acknowledged.

outbox/N.upload, where N is when the last of its entries was logged, in microseconds, or the next number that is free.
The program writes them, so it alone decides what an upload looks like, and none gets here that it couldn't read. One is
on the disk before it has its name, and has its name on the disk before `put` returns. The last that was acknowledged
as new stays as `had`, and the last that was stored before as `repeated`: so a loss of power leaves it to be sent or to
be asked for.
"""
import math
import os
import re
import time
from collections.abc import Iterator
from contextlib import contextmanager, suppress
from itertools import accumulate
from pathlib import Path
from typing import NamedTuple

from journalcollect.common import files, program, protocol
from journalcollect.common.entries import Unfit, buffered
from journalcollect.common.fit import Entry, entries
from journalcollect.common.protocol import HEADER, MOST_WINDOWS, WINDOW
from journalcollect.common.report import LOOK, Report
from journalcollect.machine.places import Places

KEPT = "had", "repeated"
# The collector notes for longer than this what it stored, whatever it keeps.
HAD_SECONDS = 7 * 86_400


class Piece(NamedTuple):
    """An entry as it goes out."""
    sequence: str
    number: int
    realtime: int
    text: bytes

    @classmethod
    def of(cls, entry: Entry, sequence: str) -> "Piece":
        """The entry in a sequence: its own or another one."""
        own, number = entry.key()
        return cls(sequence, number, entry.realtime, entry.text("" if sequence == own else sequence))

    @property
    def name(self) -> str:
        return f"{self.sequence[:32]}-{self.number}.export".replace("/", "_")

    def entry(self) -> Entry:
        return next(entries(buffered(self.text)))

    def shortened(self) -> "Piece | None":
        """What goes out in its place where it is too large; None if that is what it is."""
        entry = self.entry()
        if entry.was_shortened:
            return None
        entry.shorten()
        return self.of(entry, self.sequence)


def pieces_in(data: bytes) -> tuple[list[Piece], bytes]:
    """The entries of an upload, as far as they can be followed, and the rest."""
    pieces, end = list[Piece](), HEADER
    body = buffered(data)
    body.seek(end)
    with suppress(Unfit):
        for entry in entries(body):
            text = data[end:body.tell()]
            pieces.append(Piece(*entry.key(), entry.realtime, text))
            end += len(text)
    return pieces, data[end:]


def at_byte(pieces: list[Piece], place: int) -> int:
    """Which of the entries has a byte of all their text; the last one if none has."""
    ends = accumulate(len(piece.text) for piece in pieces)
    return min(sum(end <= place for end in ends), len(pieces) - 1)


class Refused:
    """What a person may want to look at: the texts of entries that weren't stored as they are, each in a file
    refused/SEQUENCE-NUMBER.export, in an eighth of what the machine's folder may take."""

    def __init__(self, folder: Path, folder_bytes: int, report: Report) -> None:
        self.folder, self.most, self.report = folder / "refused", folder_bytes // 8, report
        self.folder.mkdir(exist_ok=True)
        self.new = self.folder / "new"

    def begin(self) -> None:
        """Nothing is kept of a text yet."""
        self.new.unlink(missing_ok=True)
        self.room = self.most - sum(map(files.size, self.folder.iterdir()))

    def write(self, text: bytes) -> None:
        self.room -= len(text)
        if self.room >= 0:
            with open(self.new, "ab") as file:
                file.write(text)

    def keep(self, name: str) -> str:
        """It is whole, and the next one begins; what is said of it."""
        has_room = self.room >= 0
        if has_room:
            files.sync(self.new)
            files.move(self.new, self.folder / name)
        self.begin()
        return f"its text is in {self.folder}/{name}" if has_room else f"its text isn't kept, for {self.folder} is full"

    def put(self, name: str, text: bytes, why: str) -> None:
        """Keeps a text for a person, and says why."""
        self.begin()
        self.write(text)
        self.report.say(LOOK, f"{why}; {self.keep(name)}, and the others go on")


class Outbox:
    def __init__(self, folder: Path, folder_bytes: int, places: Places) -> None:
        self.folder, self.places, self.report = folder / "outbox", places, places.report
        self.refused = Refused(folder, folder_bytes, self.report)
        self.open()

    def open(self) -> None:
        """Makes the folder. Of what was put aside with an earlier one, all that can be read is in this one again."""
        self.folder.mkdir(exist_ok=True)
        for path in self.refused.folder.glob("outbox-*/*.upload"):
            with suppress(OSError):
                path.read_bytes()
                os.link(path, self.folder / path.name)
                path.unlink()
        files.sync(self.folder.parent)
        self.look()

    def look(self) -> None:
        self.sizes: dict[int, int] = {}
        for each in self.folder.iterdir():
            if re.fullmatch(r"[0-9]{1,18}\.upload", each.name, re.ASCII):
                self.sizes[int(each.stem)] = 0
                with suppress(OSError):             # whoever wants to read it is told
                    self.sizes[int(each.stem)] = each.stat().st_size

    @contextmanager
    def reading(self) -> Iterator[None]:
        """If something can't be read any more, it is put aside with the folder, since such a file can't be moved by
        itself. What can be read comes back, and what the journal has goes out once more."""
        try:
            with files.reading():
                yield
        except files.Unreadable as error:
            aside = self.refused.folder / f"outbox-{time.time_ns()}"
            self.places.forget_all()
            files.move(self.folder, aside)
            self.open()
            self.report.say(LOOK, f"{error}: what can't be read any more of the outbox is put aside in "
                            f"{aside}, and what the journal has goes out once more")
            raise

    def acknowledged(self, number: int, is_new: bool) -> None:
        """An upload is done with. A collector that was set back may know what was stored before, or not if its answer
        was lost: so both are asked for next."""
        with self.reading():
            os.utime(self.path(number), (time.time(), time.time()))
            os.rename(self.path(number), self.folder / KEPT[not is_new])
        self.sizes.pop(number, None)

    def keys(self) -> Iterator[protocol.Question]:
        """What was acknowledged last, if that was within the last days."""
        for path in (self.folder / name for name in KEPT):
            with suppress(OSError, protocol.NotALine):
                if time.time() - path.stat().st_mtime < HAD_SECONDS and (pieces := pieces_in(path.read_bytes())[0]):
                    yield protocol.question(f"had {pieces[-1].sequence} {pieces[-1].number}")

    def forget(self) -> None:
        """Nothing is asked for until something else is acknowledged."""
        with self.reading():
            for name in KEPT:
                (self.folder / name).unlink(missing_ok=True)

    def path(self, number: int) -> Path:
        return self.folder / f"{number}.upload"

    def read(self, number: int) -> bytes:
        with self.reading():
            return self.path(number).read_bytes()

    @property
    def bytes(self) -> int:
        return sum(self.sizes.values())

    def put(self, pieces: list[Piece]) -> int | None:
        """Makes an upload of some entries of one sequence. One that the program can't take is kept for a person, and
        the others go out. The number of what was made, if any do."""
        stream, new = self.folder / "stream", self.folder / "new"
        with self.reading():
            for path in (stream, new):
                path.unlink(missing_ok=True)
        pieces = list(pieces)
        while pieces:
            with open(stream, "wb") as file:
                file.writelines(piece.text for piece in pieces)
            try:
                with open(new, "wb") as out:
                    program.upload(stream, os.urandom(16).hex(), out.fileno())
                    os.fsync(out.fileno())
            except program.Bad as bad:
                piece = pieces.pop(at_byte(pieces, bad.place))
                self.refused.put(piece.name, piece.text, f"an entry can't be taken (code {bad.code})")
                continue
            number = min(max(piece.realtime for piece in pieces), time.time_ns() // 1_000)
            while number in self.sizes or os.path.exists(self.path(number)):
                number += 1
            files.move(new, self.path(number))
            self.sizes[number] = files.size(self.path(number))
            return number
        return None

    def pieces(self, number: int) -> list[Piece]:
        """The entries of an upload. What can't be followed of it, as after damage, is kept for a person."""
        pieces, rest = pieces_in(self.read(number))
        if rest:
            self.refused.put(f"{number}.damaged", rest, f"the end of {self.path(number)} is damaged, and `--again` "
                             "sends what the journal has of it")
        return pieces

    def replace(self, number: int, *groups: list[Piece], most: float = math.inf) -> None:
        """Others take an upload's place: of each group's entries, and of at most so many bytes or of one entry.
        Whatever stops it, it or they are there."""
        for group in groups:
            making = Making(most)
            for piece in group:
                if not making.fits(piece):
                    self.put(making.pieces)
                    making = Making(most)
                making.add(piece)
            self.put(making.pieces)
        self.remove(number)

    def remove(self, number: int) -> None:
        self.path(number).unlink(missing_ok=True)
        self.sizes.pop(number, None)


class Making:
    """The entries of an upload that is being made: one sequence, within a size and a number of files of notes."""

    def __init__(self, most: float) -> None:
        self.most = most
        self.pieces: list[Piece] = []
        self.windows: set[int] = set()
        self.size = HEADER

    def fits(self, piece: Piece) -> bool:
        """The entry may go out with these: the first one always."""
        return not self.pieces or (
            self.pieces[0].sequence == piece.sequence and self.size + len(piece.text) <= self.most
            and len(self.windows | {piece.number // WINDOW}) <= MOST_WINDOWS)

    def add(self, piece: Piece) -> None:
        self.pieces.append(piece)
        self.windows.add(piece.number // WINDOW)
        self.size += len(piece.text)
