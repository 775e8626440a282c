"""A backup of the collector in a folder, taken while the service runs, and put back.

    FOLDER/state.sqlite    what was known; it is written last
    FOLDER/databases/      each finished database, packed or not, with its digest
    FOLDER/sequences/      the notes; these may have more than the databases do, and putting them back cuts that off
"""
import contextlib
import os
import shutil
import threading
import time
from collections.abc import Iterator
from pathlib import Path

from ..collector import databases
from ..collector.notes import Notes
from ..collector.settings import Folder
from ..collector.state import State
from ..common import files
from ..status import looking
from .operations import No


def make(folder: Folder, to: Path) -> Iterator[str]:
    """Copies what isn't there yet. Nothing is deleted or packed meanwhile; all that was acknowledged is finished."""
    there = Folder(to)
    there.databases.mkdir(parents=True, exist_ok=True)
    lock = folder.locked("backup.lock", is_waiting=True)
    try:
        new = to / "state.sqlite.new"
        new.unlink(missing_ok=True)
        looking.answer(folder.state, "ro", "VACUUM INTO ?", str(new))
        known = looking.answer(new, "ro", "SELECT name, standing, digest FROM database")
        finished = {name: digest for name, standing, digest in known if standing == "finished"}
        bad = [name for name, digest in finished.items() if not copied(folder, name, digest, there)]
        for name, standing, _ in known:
            if standing == "deleted":
                databases.delete(there, name)
        copy_notes(folder.sequences, there.sequences)
        os.sync()
        files.move(new, there.state)
    finally:
        os.close(lock or -1)
    if bad:
        raise No(f"{' '.join(bad)}: not as they were finished, and not in the backup")
    yield f"{len(finished)} databases are in {to}"


def forms(folder: Path, name: str) -> list[Path]:
    """The files of a finished database that are there: as it is, or packed."""
    return [path for end in (".db", ".db.zst") if (path := folder / f"{name}{end}").is_file()]


def is_whole(path: Path, digest: str) -> bool:
    """Whether a database, packed or not, is what it was when it was finished."""
    with contextlib.suppress(databases.Damaged):
        return digest == (databases.unpacked_digest(path) if ".zst" in path.suffixes else databases.digest_of(path))
    return False


def copied(folder: Folder, name: str, digest: str, to: Folder) -> bool:
    """Whether a database is in the backup now."""
    if forms(to.databases, name) and databases.told_digest(databases.path_of(to, name)) == digest:
        return True
    return any(put(path, digest, to.databases) for path in forms(folder.databases, name))


def put(path: Path, digest: str, there: Path) -> bool:
    """Copies a database and its digest into a folder, if it is whole."""
    new, name = there / f"{path.name}.new", path.name.removesuffix(".zst")
    shutil.copyfile(path, new)
    if not is_whole(new, digest):
        new.unlink()
        return False
    files.sync(new)
    files.move(new, there / path.name)
    files.replace(there / f"{name}.sha256", f"{digest}  {name}\n".encode("ascii"))
    return True


def copy_notes(sequences: Path, to: Path) -> None:
    """Copies the files of notes that changed. Who stores only adds to them."""
    to.mkdir(exist_ok=True)
    for path in sequences.glob("*/*"):
        copy = to / path.parent.name / path.name
        with contextlib.suppress(FileNotFoundError):
            if not copy.exists() or copy.stat().st_mtime_ns != path.stat().st_mtime_ns:
                copy.parent.mkdir(parents=True, exist_ok=True)
                shutil.copy2(path, copy)


def restore(folder: Folder, backup: Path, lock: int) -> Iterator[str]:
    """Puts back each database that isn't there or isn't whole; what is known, and the notes, only into an empty folder.
    The next start sees to the rest. Nothing that is whole is replaced."""
    kept = Folder(backup)
    if not kept.state.is_file():
        raise No(f"{kept.state} isn't there: no backup was finished")
    folder.make()
    known = looking.answer(kept.state, "ro", "SELECT name, digest FROM database WHERE standing = 'finished'")
    is_empty = not any(folder.databases.iterdir()) and not any(folder.sequences.iterdir())
    count = 0
    for name, digest in known:
        if not any(is_whole(path, digest) for path in forms(folder.databases, name)):
            databases.delete(folder, name)
            count += any(put(path, digest, folder.databases) for path in forms(kept.databases, name))
    if is_empty:
        shutil.copyfile(kept.state, folder.state)
        shutil.copytree(kept.sequences, folder.sequences, dirs_exist_ok=True)
        Notes(State(folder), lock, threading.Event()).forget()
    own(folder.path)
    os.sync()
    taken = time.strftime("%Y-%m-%d %H:%M:%S UTC", time.gmtime(kept.state.stat().st_mtime))
    yield f"{count} of {len(known)} databases are put back, as of {taken}"
    yield "machines send what came since, if they have it still"


def own(top: Path) -> None:
    """All that is in a folder belongs to whom it belongs, as root can say."""
    if os.geteuid() == 0:
        told = top.stat()
        for path in top.rglob("*"):
            if path.name not in ("journals", "sockets") and "journals" not in path.relative_to(top).parts:
                os.chown(path, told.st_uid, told.st_gid, follow_symlinks=False)
