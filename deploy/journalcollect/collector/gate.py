"""The bounds of a machine's connections and uploads: each is answered, logged once a day, and kept for status."""
import collections
import contextlib
import os
import re
import socket
import threading
from collections.abc import Iterator

from ..common import program
from ..common.protocol import COUNT, HEADER, MOST_WINDOWS, START, WHOLE, WINDOW, Put, Verdict
from .notes import Unnoted
from .settings import CONNECTIONS, LARGE, MIB, UPLOAD_BYTES, WINDOWS_A_DAY, Settings
from .state import State

# The lines that say which entry it is. A message may have such lines, too, so these are at least all there are.
NUMBERS = re.compile(rb"^__SEQNUM(?:=|\n.{8})([0-9]{1,20})\n", re.MULTILINE | re.DOTALL)
IDS = re.compile(rb"^__SEQNUM_ID(?:=|\n.{8})([0-9A-Fa-f]{32})\n", re.MULTILINE | re.DOTALL)
# Of more files of notes the program says how many these are.
LOOKED_UP = 2


class Gate:
    def __init__(self, settings: Settings, state: State, counted: Unnoted) -> None:
        self.settings, self.folder, self.state, self.counted = settings, state.folder, state, counted
        self.lock = threading.Lock()
        self.connections: dict[str, collections.deque[socket.socket]] = {}

    @contextlib.contextmanager
    def entered(self, machine: str, one: socket.socket) -> Iterator[None]:
        """A connection is there meanwhile. The newest one ends the oldest if there are too many."""
        with self.lock:
            there = self.connections.setdefault(machine, collections.deque())
            there.append(one)
            oldest = there.popleft() if len(there) > CONNECTIONS else None
        if oldest:
            self.state.tell(f"connections {machine}", f"{machine}: over {CONNECTIONS} connections: the oldest is ended")
            end(oldest)
        self.state.saw(machine)
        try:
            yield
        finally:
            with self.lock, contextlib.suppress(ValueError):
                there.remove(one)

    def end(self, machine: str) -> None:
        """The connections of a machine that may come no more are ended."""
        with self.lock:
            there = list(self.connections.get(machine, ()))
        for each in there:
            end(each)

    def count(self) -> dict[str, int]:
        with self.lock:
            return {machine: len(there) for machine, there in self.connections.items() if there}

    def before(self, machine: str, size: int) -> Put | None:
        """Why an upload of so many bytes isn't taken now; None if it is."""
        if size > UPLOAD_BYTES:
            return self.refuse(machine, Verdict.NEVER, f"it has over {UPLOAD_BYTES // MIB} MiB")
        if why := self.folder.room(self.settings):
            self.state.tell("room", f"{why}: nothing is stored until there is more: move the oldest databases to "
                            "another disk (journal-collect-admin moved), or lower KEEP_DAYS")
            return Put(Verdict.LATER, why)
        self.state.over("room")
        used = self.state.machine(machine)
        if used.bytes + size > self.settings.day_bytes:
            return self.refuse(machine, Verdict.LATER, f"it has sent DAY_BYTES, {self.settings.day_bytes}, today")
        if used.windows > WINDOWS_A_DAY:
            return self.refuse(machine, Verdict.LATER, f"its entries made over {WINDOWS_A_DAY} files of notes today")
        return None

    def of_upload(self, machine: str, handle: int, size: int) -> Put | int:
        """Why an upload that came isn't handed to the program; how many files are made for its notes if it is."""
        header = os.pread(handle, HEADER, 0)
        if len(header) < HEADER or not header.startswith(WHOLE) or any(header[START]):
            return self.refuse(machine, Verdict.NEVER, "it is no upload of a stream that is to be whole")
        if size <= LARGE:
            touched, new = self.windows(machine, handle, size)
            if touched > MOST_WINDOWS:
                return self.refuse(machine, Verdict.NEVER, f"it touches over {MOST_WINDOWS} files of notes")
            self.state.machine(machine).windows += new
            return new
        if int.from_bytes(header[COUNT], "little") != 1:
            return self.refuse(machine, Verdict.NEVER, f"it has over {LARGE // MIB} MiB, and more than one entry")
        return 1

    def windows(self, machine: str, handle: int, size: int) -> tuple[int, int]:
        """How many files of notes an upload touches, and makes that weren't counted: all if its lines show others."""
        body = os.pread(handle, size, HEADER)
        numbers = {int(number) // WINDOW for number in NUMBERS.findall(body)}
        ids = {each.decode("ascii").lower() for each in IDS.findall(body)}
        shown = len(ids) * len(numbers)
        touched = program.touched(handle) if shown > LOOKED_UP else shown
        if touched != shown or touched > MOST_WINDOWS:
            return touched, touched
        return touched, sum(self.is_made(machine, each, number) for each in ids for number in numbers)

    def is_made(self, machine: str, sequence: str, window: int) -> bool:
        """Whether a file of notes isn't there that wasn't counted. It is from now on, and made as a database ends."""
        is_there = (self.folder.sequences / sequence / str(window)).exists()
        return not is_there and self.counted.add(machine, sequence, window)

    def refuse(self, machine: str, verdict: Verdict, why: str) -> Put:
        self.state.tell(f"{verdict} {machine}", f"{machine}: {why}")
        return Put(verdict, why)


def end(one: socket.socket) -> None:
    with contextlib.suppress(OSError):
        one.shutdown(socket.SHUT_RDWR)
