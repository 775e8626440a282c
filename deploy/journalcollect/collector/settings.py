"""The collector's settings, /etc/journal-collect/collector.conf.d/*.conf, bounds that nobody sets, and its folder."""
import fcntl
import os
import shutil
from dataclasses import dataclass
from pathlib import Path

from ..common import files, settings

MIB = 1 << 20
# The machines' keys, NAME.pub.
KEYS = settings.FOLDER / "keys"
# An upload has at most so many bytes, and over LARGE one entry.
UPLOAD_BYTES, LARGE = 36 * MIB, MIB
# A machine makes at most so many new files of notes in a day.
WINDOWS_A_DAY = 10_000
CONNECTIONS, FREE_FILES = 4, 10_000
# What the program's process may take: seconds of a processor for what it is handed at once, and memory.
CPU_SECONDS, MEMORY = 60, 1 << 30
# Notes are kept for so many days at least: machines ask within a week whether an entry is known still.
NOTES_DAYS = 8


@dataclass(frozen=True)
class Settings:
    folder: str = "/var/lib/journal-collect"
    database_seconds: int = 600
    database_bytes: int = 32 * MIB
    keep_days: int = 30
    keep_bytes: int = 0
    pack_days: int = 1
    free_bytes: int = 1 << 30
    day_bytes: int = 16 << 30
    read_days: int = 30
    read_keys: bool = False


def read() -> Settings:
    """The settings as they are; a Wrong if they can't be."""
    chosen = settings.read(settings.FOLDER / "collector.conf.d", Settings)
    if not Path(chosen.folder).is_absolute():
        raise settings.Wrong(f"FOLDER doesn't begin with a slash: {chosen.folder}")
    if not chosen.database_seconds or not chosen.database_bytes:
        raise settings.Wrong("DATABASE_SECONDS and DATABASE_BYTES are at least 1")
    return chosen


class Folder:
    def __init__(self, path: Path) -> None:
        self.path, self.state, self.admin, self.sockets = path, path / "state.sqlite", path / "admin", path / "sockets"
        self.databases, self.sequences, self.recent = path / "databases", path / "sequences", path / "recent"
        self.quarantine, self.scratch = path / "quarantine", path / "scratch"

    def make(self) -> None:
        """Makes the folders that aren't there. In `scratch` nothing outlives a service."""
        shutil.rmtree(self.scratch, ignore_errors=True)
        for each in (self.databases, self.sequences, self.recent, self.quarantine, self.scratch, self.sockets):
            each.mkdir(mode=0o700, exist_ok=True)

    def locked(self, name: str = "lock", is_waiting: bool = False) -> int | None:
        """A lock of the folder, which goes when the answer is closed; None if another has it, and this isn't to wait. A
        service has `lock`, and each process of the program that it began: so it waits until what an earlier one began
        has ended. Nothing is deleted or packed while somebody has `backup.lock`."""
        handle = os.open(self.path / name, os.O_RDWR | os.O_CREAT | os.O_CLOEXEC, 0o600)
        try:
            fcntl.flock(handle, fcntl.LOCK_EX | (0 if is_waiting else fcntl.LOCK_NB))
        except BlockingIOError:
            os.close(handle)
            return None
        return handle

    def is_roomy(self, chosen: Settings) -> bool:
        """Whether there is room for journal files, too: storing comes first."""
        return files.free(self.path)[0] > 2 * chosen.free_bytes

    def room(self, chosen: Settings) -> str | None:
        """Why nothing more can be stored; None if there is room."""
        free_bytes, free_files = files.free(self.path)
        if free_bytes <= chosen.free_bytes:
            return f"only {free_bytes} bytes are free, and FREE_BYTES is {chosen.free_bytes}"
        if free_files <= FREE_FILES:
            return f"only {free_files} more files can be made on the disk"
        return None
