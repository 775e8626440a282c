"""Files that are on the disk when a call returns, files without a name, what is in a folder, and what is damaged."""
import errno
import os
import sqlite3
from collections.abc import Iterator
from contextlib import AbstractContextManager, contextmanager, suppress
from pathlib import Path

# What a disk says of what it can't read any more, as a loss of power may leave it.
UNREADABLE = errno.EIO, errno.EBADMSG, errno.EUCLEAN


class Unreadable(OSError):
    """The disk can't read what a file is, or has, as a loss of power may leave it. Nor can it move or remove it."""


@contextmanager
def reading() -> Iterator[None]:
    """What the disk can't read is told apart from what may pass, as a full disk."""
    try:
        yield
    except OSError as error:
        if error.errno in UNREADABLE:
            raise Unreadable(str(error)) from error
        raise


@contextmanager
def opened(path: Path, flags: int = os.O_RDONLY) -> Iterator[int]:
    """A file or a folder, open meanwhile."""
    handle = os.open(path, flags, 0o600)
    try:
        yield handle
    finally:
        os.close(handle)


def sync(path: Path) -> None:
    """What was written to a file, or which names a folder has, is on the disk afterwards."""
    with opened(path) as handle:
        os.fsync(handle)


def move(path: Path, to: Path) -> None:
    """Gives a file or folder another name, in place of what had it. The disk has the name afterwards."""
    os.replace(path, to)
    sync(to.parent)


def replace(path: Path, data: bytes, mode: int = 0o600) -> None:
    """Gives a file other bytes: whatever stops it, the old ones are there or the new ones."""
    new = path.with_name(path.name + ".new")
    new.unlink(missing_ok=True)
    with open(os.open(new, os.O_WRONLY | os.O_CREAT | os.O_EXCL, 0o600), "wb") as file:
        os.fchmod(file.fileno(), mode)
        file.write(data)
        file.flush()
        os.fsync(file.fileno())
    move(new, path)


def unnamed(folder: Path) -> AbstractContextManager[int]:
    """A file without a name on the disk of a folder, for reading and writing. It is gone when it is closed."""
    return opened(folder, os.O_TMPFILE | os.O_RDWR)


def size(path: Path) -> int:
    """How many bytes a file has; 0 if there is none."""
    with suppress(FileNotFoundError):
        return path.stat().st_size
    return 0


def free(folder: Path) -> tuple[int, int]:
    """How many bytes and how many files the disk of a folder has left for this user."""
    told = os.statvfs(folder)
    return told.f_bavail * told.f_frsize, told.f_favail if told.f_files else 1 << 62


def is_damaged(error: sqlite3.Error) -> bool:
    """An error of SQLite says that a file isn't what was made here. Others, as of a full disk, may pass."""
    damage = sqlite3.SQLITE_CORRUPT, sqlite3.SQLITE_NOTADB, sqlite3.SQLITE_ERROR
    # what was found here, without SQLite's word, is damage, too
    return getattr(error, "sqlite_errorcode", damage[0]) & 0xff in damage
