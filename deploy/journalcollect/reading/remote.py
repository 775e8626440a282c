"""Journal files: systemd-journal-remote writes them, and their headers say what they have."""
import os
import re
import subprocess
from collections.abc import Iterable
from contextlib import suppress
from pathlib import Path

from ..machine.journal import JournalFile, looked_at

REMOTE = Path("/lib/systemd/systemd-journal-remote")
# Where a header has the sequence, and the last entry's number.
SEQUENCE_AT, LAST_AT = 72, 160
# How it names a file that was full: of NAME.journal it is NAME@SEQUENCE-NUMBER-TIME.journal.
PART = re.compile(r"(.+?)(?:@[0-9a-f]{32}-[0-9a-f]{16}-[0-9a-f]{16})?\.journal")


class Failed(Exception):
    """systemd-journal-remote ended before its time."""


def headers(paths: Iterable[Path]) -> list[JournalFile]:
    """What the headers of the journal files among some files say."""
    found = []
    for path in paths:
        with suppress(OSError, ValueError):
            found.append(looked_at(path))
    return found


def stem(path: Path) -> str:
    """The name that a file and its further parts have in common."""
    return found[1] if (found := PART.fullmatch(path.name)) else path.stem


def parts(folder: Path, name: str) -> list[Path]:
    """The files of a name, the full ones first."""
    return [*sorted(folder.glob(f"{name}@*.journal")), *folder.glob(f"{name}.journal")]


def begin(path: Path, sequence: str, last_number: int) -> None:
    """A file without entries, whose next one has a number of this sequence. It takes the place of what had its name, so
    that at each moment a file says which number comes first."""
    new = path.with_name(f".{path.name}")
    new.unlink(missing_ok=True)
    Remote(new).finish()
    with open(new, "r+b") as file:
        os.pwrite(file.fileno(), bytes.fromhex(sequence), SEQUENCE_AT)
        os.pwrite(file.fileno(), last_number.to_bytes(8, "little"), LAST_AT)
    new.rename(path)
    for part in path.parent.glob(f"{path.stem}@*.journal*"):
        part.unlink()


class Remote:
    """One that writes NAME.journal, with numbers that go on from those there, and further files when one is full."""

    def __init__(self, path: Path) -> None:
        self.path = path
        self.start()

    def start(self) -> None:
        try:
            self.process = subprocess.Popen(
                [REMOTE, f"--output={self.path}", "-"], bufsize=1 << 18, umask=0o027, stdin=subprocess.PIPE,
                stdout=subprocess.DEVNULL, stderr=subprocess.DEVNULL, start_new_session=True)
        except OSError as error:
            raise Failed(f"systemd-journal-remote, of the package of that name, can't be run: {error}") from error

    def write(self, texts: Iterable[bytes]) -> None:
        assert self.process.stdin
        try:
            self.process.stdin.writelines(texts)
            self.process.stdin.flush()
        except BrokenPipeError as error:
            raise Failed("systemd-journal-remote ended") from error

    def finish(self) -> None:
        """All that was written is in files that are closed. It may be started again."""
        self.process.communicate()
        if self.process.returncode:
            raise Failed(f"systemd-journal-remote can't write {self.path}: status {self.process.returncode}")

    def kill(self) -> None:
        self.process.kill()
        self.process.communicate()
