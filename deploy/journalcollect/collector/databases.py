"""Databases as files: what a finished one has, its digest, and how a packed one is read.

    databases/NAME.db           one that is being stored in, with its log NAME.db-wal; or a finished one
    databases/NAME.db.sha256    it is finished: the digest, as sha256sum writes it
    databases/NAME.db.zst       a finished one, packed; its digest is that of what it packs
"""
import contextlib
import hashlib
import shutil
import sqlite3
import subprocess
import uuid
from collections.abc import Iterator
from io import BufferedReader
from pathlib import Path
from typing import NamedTuple, cast

from ..common import files
from ..common.protocol import WINDOW
from .settings import Folder

# A log without a page has at most so many bytes.
EMPTY_LOG = 55
# Less than the tables take.
NO_TABLES = 4096


class Damaged(Exception):
    """A database isn't what it was when it was finished, and how."""


class Unrecovered(Exception):
    """A database can't be taken up now, or notes can't be made anew: nothing is stored until they are."""


class Summary(NamedTuple):
    """What a finished database has: its entries, the first and last of their times in microseconds, its bytes, also
    packed if it is, its digest, and how many entries each window of a sequence has."""
    entries: int
    first: int | None
    last: int | None
    bytes: int
    packed: int | None
    digest: str
    windows: dict[tuple[str, int], int]


def path_of(folder: Folder, name: str) -> Path:
    return folder.databases / f"{name}.db"


def beside(path: Path, end: str = "-wal") -> Path:
    """What belongs to a database: its log, if nothing else is said."""
    return path.with_name(path.name + end)


def bytes_of(path: Path) -> int:
    """How many bytes a database that is being stored in has, with its log."""
    return files.size(path) + files.size(beside(path))


@files.reading()
def has_nothing(path: Path) -> bool:
    """Whether its program was stopped before it had tables."""
    return files.size(path) <= NO_TABLES and files.size(beside(path)) <= EMPTY_LOG


def digest_of(path: Path) -> str:
    with open(path, "rb") as file:
        return hashlib.file_digest(file, "sha256").hexdigest()


def told_digest(path: Path) -> str | None:
    """The digest that lies beside a database; None if it isn't finished."""
    with contextlib.suppress(FileNotFoundError, files.Unreadable), files.reading():
        return beside(path, ".sha256").read_text(encoding="ascii", errors="replace").partition(" ")[0]
    return None


def finished(folder: Folder) -> list[str]:
    """The databases that have their digests."""
    return [path.name.removesuffix(".db.sha256") for path in folder.databases.glob("*.db.sha256")]


@files.reading()
def own(path: Path) -> None:
    """What somebody linked elsewhere, as a backup by hard links does, isn't written to: a copy takes its name."""
    for each in (path, beside(path)):
        if each.exists() and each.stat().st_nlink > 1:
            copy = beside(each, ".new")
            shutil.copy2(each, copy)
            files.sync(copy)
            files.move(copy, each)


@files.reading()
def finish(path: Path) -> str:
    """A closed database doesn't change any more: its log, which is empty, goes, and its digest is beside it."""
    if files.size(beside(path)) > EMPTY_LOG:
        raise OSError(f"{beside(path)} has pages")
    files.sync(path)
    beside(path).unlink(missing_ok=True)
    digest = digest_of(path)
    files.replace(beside(path, ".sha256"), f"{digest}  {path.name}\n".encode("ascii"), 0o640)
    return digest


@files.reading()
def summary(folder: Folder, name: str, digest: str) -> Summary:
    """What a finished database has, by its tables."""
    path = path_of(folder, name)
    packed = None if path.exists() else files.size(beside(path, ".zst"))
    with contextlib.nullcontext(path) if packed is None else unpacked(folder, name) as there:
        try:
            with contextlib.closing(sqlite3.connect(f"file:{there}?immutable=1", uri=True)) as tables:
                entries, first, last = tables.execute(
                    "SELECT count(*), min(realtime), max(realtime) FROM entry").fetchone()
                windows = {(sequence, window): count for sequence, window, count in tables.execute(
                    f"SELECT lower(hex(seqid)), seqnum / {WINDOW}, count(*) FROM entry GROUP BY 1, 2")}
        except sqlite3.Error as error:
            raise Damaged(f"{there}: {error}") from error
        return Summary(entries, first, last, there.stat().st_size, packed, digest, windows)


def delete(folder: Folder, name: str) -> None:
    for end in (".db", ".db.zst", ".db-wal", ".db.sha256"):
        with contextlib.suppress(files.Unreadable), files.reading():
            (folder.databases / f"{name}{end}").unlink(missing_ok=True)
    files.sync(folder.databases)


def pack(path: Path, digest: str) -> int:
    """Packs a finished database, once what is packed reads as it was finished; how many bytes it takes then."""
    packed, new = beside(path, ".zst"), beside(path, ".zst.new")
    subprocess.run(["zstd", "-qf", "-6", "-T1", "-o", new, path], check=True)
    if unpacked_digest(new) != digest:
        new.unlink()
        raise Damaged(f"{path} isn't as it was finished")
    new.chmod(0o640)
    files.sync(new)
    files.move(new, packed)
    path.unlink()
    return packed.stat().st_size


def unpacked_digest(path: Path) -> str:
    with subprocess.Popen(["zstd", "-dcq", path], stdout=subprocess.PIPE) as unpacking:
        digest = hashlib.file_digest(cast(BufferedReader, unpacking.stdout), "sha256").hexdigest()
    if unpacking.returncode:
        raise Damaged(f"{path} can't be unpacked")
    return digest


@contextlib.contextmanager
def unpacked(folder: Folder, name: str) -> Iterator[Path]:
    """A copy of a finished database, packed or not, which the program may open and which is gone afterwards."""
    path = path_of(folder, name)
    copy = folder.scratch / f"{uuid.uuid4().hex}.db"
    try:
        if path.exists():
            shutil.copyfile(path, copy)
        elif subprocess.run(["zstd", "-dqf", "-o", copy, beside(path, ".zst")], check=False).returncode:
            raise Damaged(f"{beside(path, '.zst')} can't be unpacked")
        yield copy
    finally:
        copy.unlink(missing_ok=True)
        beside(copy).unlink(missing_ok=True)
