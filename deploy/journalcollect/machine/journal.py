"""The files of this machine's journal, and their entries as journalctl exports them.

Each file is read by itself: within one file the entries stand in the order of their numbers, whatever the clocks said,
and what journald does to other files meanwhile changes nothing. A file is handed to journalctl open, so it is the one
that was looked at, also if journald has renamed or removed it since. journald writes to files that it has mapped, so
their headers say at once what is new, and reading some bytes of each once a second costs less than being told would.
"""
import bisect
import os
import re
import struct
import subprocess
import time
from collections.abc import Callable, Iterator
from contextlib import suppress
from io import BufferedReader
from pathlib import Path
from typing import NamedTuple, cast

from journalcollect.common import files
from journalcollect.common.entries import BLOCK, CutOff, Unfit
from journalcollect.common.fit import Entry, entries

MACHINE_ID = Path("/etc/machine-id")
# The header of a journal file: what stands at which offset.
SIGNATURE, HEADER_BYTES, ARCHIVED = b"LPKSHHRH", 208, 2
# Files are listed anew after so long, whatever has changed; sooner if one couldn't be read.
LISTED_SECONDS, UNREAD_SECONDS = 60.0, 5.0
# What has been written to sooner may be a copy that isn't whole yet.
COPIED_SECONDS = 60.0
# Behind what can't be read so many numbers are tried one by one, and then each at twice the distance.
ONE_BY_ONE = 32


class JournalFile(NamedTuple):
    """What the header of a journal file says."""
    path: Path
    id: str
    sequence: str
    head: int
    tail: int
    head_realtime: int
    tail_realtime: int
    entries: int
    is_archived: bool
    is_cut: bool

    @property
    def kind(self) -> str:
        """`system`, or the user whose it is, in its folder."""
        return f"{self.path.parent.name}/{re.split('[@.]', self.path.name)[0]}"


def read_header(path: Path, handle: int) -> JournalFile:
    """The journal file that is open; a ValueError if it is none."""
    header = os.pread(handle, HEADER_BYTES, 0)
    if len(header) < HEADER_BYTES or header[:8] != SIGNATURE:
        raise ValueError("it has no header of a journal file")
    begins, holds = struct.unpack_from("<2Q", header, 88)
    entries, tail, head, _, head_realtime, tail_realtime = struct.unpack_from("<6Q", header, 152)
    # journald renames a file before it begins the next one, and writes nothing more to it.
    is_archived = header[16] == ARCHIVED or "@" in path.name or path.name.endswith("~")
    # journalctl opens none that has fewer bytes than its header says, as a loss of power may leave it.
    there = os.fstat(handle)
    is_cut = is_archived and there.st_size < begins + holds and time.time() - there.st_mtime > COPIED_SECONDS
    return JournalFile(path, header[24:40].hex(), header[72:88].hex(), head, tail, head_realtime, tail_realtime,
                       entries, is_archived, is_cut)


def looked_at(path: Path) -> JournalFile:
    """The file of this path as it is now; an OSError or a ValueError if it can't be read."""
    with files.opened(path, os.O_NONBLOCK) as handle:
        return read_header(path, handle)


class Reading:
    """The entries of one file from some place on, and how their reading ended."""

    def __init__(self, handle: int, options: list[str]) -> None:
        self.errors = open(os.memfd_create("errors"), "w+b")
        command = ["journalctl", "--quiet", "--output=export", f"--file=/proc/self/fd/{handle}", *options]
        self.process = subprocess.Popen(command, stdin=subprocess.DEVNULL, stdout=subprocess.PIPE, stderr=self.errors,
                                        bufsize=BLOCK, pass_fds=[handle])
        self.output = cast(BufferedReader, self.process.stdout)
        # The metadata of the entry at which journalctl broke off, if it began to write one.
        self.broken: dict[bytes, bytes] | None = None
        self.said, self.status = "", 0

    def entries(self, overflow: Callable[[bytes], object] | None = None) -> Iterator[Entry]:
        try:
            yield from entries(self.output, overflow)
        except CutOff as fault:
            self.broken = fault.known

    def end(self, is_wanted: bool) -> None:
        """Waits for journalctl, none of whose output is read any more; it is killed unless its status is wanted."""
        if not is_wanted:
            self.process.kill()
        self.output.close()
        self.status = self.process.wait()
        self.errors.seek(0)
        with self.errors:
            self.said = self.errors.read().decode(errors="replace").strip()


class Journal:
    """The files as they were listed last, those that are written to first, then the oldest; some may be `unread`."""

    def __init__(self, journals: list[str]) -> None:
        self.journals = [Path(each) for each in journals]
        self.files: list[JournalFile] = []
        self.unread: set[str] = set()
        self.folders: dict[Path, int] = {}
        self.made = -LISTED_SECONDS

    def list_files(self, machines: list[str]) -> None:
        """`machines` are the ids that this machine had: the files of an earlier one lie where they were."""
        own = re.compile(f"({'|'.join(map(re.escape, machines))})(\\..+)?")
        self.made, self.unread, self.folders = time.monotonic(), set(), {}
        found: dict[str, JournalFile] = {}
        for journal in self.journals:
            for folder in (journal, *(journal / each for each in self.names_in(journal) if own.fullmatch(each))):
                for name in self.names_in(folder):
                    if name.endswith((".journal", ".journal~")):
                        self.take(folder / name, found)
        self.files = sorted(found.values(), key=lambda file: (
            file.is_archived, file.head_realtime if file.is_archived else 0, file.sequence, file.head))

    def names_in(self, folder: Path) -> list[str]:
        self.folders[folder] = changed_at(folder)
        try:
            return os.listdir(folder)
        except OSError as error:
            if os.path.exists(folder):
                self.unread.add(f"{folder}: {error.strerror}")
        return []

    def take(self, path: Path, found: dict[str, JournalFile]) -> None:
        try:
            file = looked_at(path)
        except (OSError, ValueError) as error:
            self.unread.add(f"{path}: {getattr(error, 'strerror', error)}")
            return
        # Of a file and a copy of it the one counts that went on.
        if file.id not in found or file.tail > found[file.id].tail:
            found[file.id] = file

    def has_news(self) -> bool:
        """Something is other than it was in the last list."""
        return (time.monotonic() - self.made >= (UNREAD_SECONDS if self.unread else LISTED_SECONDS)
                or any(changed_at(path) != before for path, before in self.folders.items())
                or any(has_changed(file) for file in self.files if not file.is_archived))


def has_changed(file: JournalFile) -> bool:
    with suppress(OSError, ValueError):
        return looked_at(file.path) != file
    return True


def changed_at(path: Path) -> int:
    with suppress(OSError):
        return path.stat().st_mtime_ns
    return 0


def is_removed(handle: int) -> bool:
    """The file has no name any more. journalctl opens none such."""
    return os.fstat(handle).st_nlink == 0


def from_number(sequence: str, number: int) -> list[str]:
    """The options with which journalctl begins at the first entry that has at least this number."""
    return [f"--cursor=s={sequence};i={number:x}"]


def cursor_parts(cursor: str) -> tuple[int, int]:
    """The number and the time that a cursor names; 0 for what it doesn't."""
    parts = dict(part.partition("=")[::2] for part in cursor.split(";"))
    with suppress(ValueError):
        return int(parts.get("i", "0"), 16), int(parts.get("t", "0"), 16)
    return 0, 0


class Unreadable(Exception):
    """journalctl shows nothing of a file, and fails."""


class Search:
    """Looks for what journalctl shows of an open file behind the entry of a number.

    journalctl breaks off within an entry that has a damaged field. It shows nothing from a number on that stands beside
    a damaged entry, though it shows what follows when it reads the file from its beginning. And it shows nothing of
    what it can't find, without a word: that there is more is seen by the file's header."""

    def __init__(self, handle: int, file: JournalFile, after: int) -> None:
        self.handle, self.file, self.after = handle, file, after
        # journalctl did something other than fail.
        self.works = False

    def shows(self, options: list[str]) -> bool:
        """With these options journalctl shows an entry that is behind."""
        reading, is_shown = Reading(self.handle, options), False
        with suppress(Unfit):
            is_shown = any(entry.key()[1] > self.after for entry in reading.entries())
        reading.end(not is_shown)
        self.works = self.works or is_shown or reading.status == 0 or reading.broken is not None
        return is_shown

    def shows_from(self, number: int) -> bool:
        return self.shows(from_number(self.file.sequence, number))

    def first_shown(self) -> list[str] | None:
        """The options that show the most of what is shown from some number on."""
        fails, tried, step = self.after, self.after + 1, 1
        while not self.shows_from(tried):
            fails = tried
            step = step if tried - self.after < ONE_BY_ONE else 2 * step
            tried += step
            if tried > self.file.tail:
                return None
        between = range(fails + 1, tried)
        first = between.start + bisect.bisect_left(between, True, key=self.shows_from)
        return from_number(self.file.sequence, first)


def next_readable(handle: int, file: JournalFile, number: int, broken: dict[bytes, bytes] | None) -> list[str] | None:
    """The options that show more of a file after an entry, if any do; an Unreadable if nothing works at all."""
    at = max(number, cursor_parts((broken or {}).get(b"__CURSOR", b"").decode("ascii", "replace"))[0])
    before, search = Search(handle, file, number), Search(handle, file, at)
    if broken and before.shows_from(at):
        return from_number(file.sequence, at)       # it was only stopped there
    found = search.first_shown() if broken else None
    if found is None:
        found = [] if search.shows([]) else None if broken else search.first_shown()
    if found is None and not search.works:
        raise Unreadable
    return found
