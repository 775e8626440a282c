"""journalctl over chosen files: one after the other, or parts of the time on all processors."""
import json
import math
import os
import shutil
import subprocess
import sys
import time
from collections import Counter
from collections.abc import Iterator
from functools import partial
from itertools import product
from typing import IO, Any, NamedTuple

from ..common.settings import spelled
from .places import FOREVER, File
from .words import Call

PROCESSORS = os.cpu_count() or 1
Entry = dict[str, Any]
Values = tuple[str, ...]
Counts = Counter[tuple[int, Values]]


class Window(NamedTuple):
    """Some files, and the span of which entries of them are asked for, in microseconds."""
    files: list[File]
    since: int = 0
    until: int = FOREVER

    def words(self, call: Call) -> list[str]:
        if self.since:
            call = call.plus(since=spelled(self.since))
        if self.until < FOREVER:
            call = call.plus(until=spelled(self.until))
        return ["journalctl", *(f"--file=/proc/self/fd/{handle}" for handle in self.handles), "--merge", *call.words()]

    @property
    def handles(self) -> list[int]:
        return [file.handle for file in self.files]


def windows(files: list[File], since: int, until: int, many: int) -> list[Window]:
    """About so many windows with as many entries each, the oldest first. The present has one of its own, since its
    entries aren't in the order of their times."""
    present, finished = ([file for file in files if file.is_present is kind] for kind in (True, False))
    each = sum(file.header.entries for file in finished) // many + 1
    bounds, held = [since], 0
    for file in finished:
        if held >= each and file.header.head_realtime > bounds[-1]:
            bounds.append(file.header.head_realtime)
            held = 0
        held += file.header.entries
    ends = [*(bound - 1 for bound in bounds[1:]), until]
    found = [Window([file for file in finished if file.has(begin, end)], begin, end)
             for begin, end in zip(bounds, ends)]
    return [window for window in [*found, Window(present, since, until)] if window.files]


def become(window: Window, call: Call) -> None:
    """This process becomes journalctl, with its pager."""
    for handle in window.handles:
        os.set_inheritable(handle, True)
    words = window.words(call)
    os.execvp(words[0], words)


def entries(window: Window, call: Call, *fields: str, end: float = math.inf) -> Iterator[Entry]:
    """The entries as JSON says them, with some fields alone if named; those until a moment of the monotonic clock."""
    call = call.plus("quiet", output="json", **({"output_fields": ",".join(fields)} if fields else {}))
    words = ["timeout", "--foreground", str(max(end - time.monotonic(), 0.001)), *window.words(call)]
    with subprocess.Popen(words, stdout=subprocess.PIPE, stderr=subprocess.DEVNULL, pass_fds=window.handles) as process:
        assert process.stdout
        yield from (json.loads(line) for line in process.stdout if line.endswith(b"}\n"))


def side_by_side(found: list[Window], call: Call) -> int:
    """Says what each window has in turn, read on all processors; the status is 1 if nothing is found."""
    import tempfile                                     # here, and below, since most calls do without
    from concurrent.futures import ThreadPoolExecutor
    if os.isatty(1):
        os.environ.setdefault("SYSTEMD_COLORS", "1")

    def read(window: Window) -> tuple[IO[bytes], int]:
        said = tempfile.TemporaryFile()
        ended = subprocess.run(window.words(call.plus("quiet")), stdout=said, pass_fds=window.handles, check=False)
        return said, ended.returncode

    failed, is_empty = 0, True
    with ThreadPoolExecutor(PROCESSORS) as pool:
        for said, status in pool.map(read, reversed(found) if call.has("reverse") else found):
            failed = status if status > 1 else failed
            is_empty = is_empty and not os.fstat(said.fileno()).st_size
            said.seek(0)
            shutil.copyfileobj(said, sys.stdout.buffer)
            said.close()
    if is_empty and not call.has("quiet"):
        print("-- No entries --")
    return failed or int(is_empty)


def newest(found: list[Window], call: Call, lines: int, *fields: str, end: float = math.inf) -> list[Entry]:
    """So many newest entries, the newest first. Some windows are read at once, those of the newest entries first."""
    from concurrent.futures import ThreadPoolExecutor
    call, latest = call.plus("reverse", lines=str(lines)), list[Entry]()
    with ThreadPoolExecutor(PROCESSORS) as pool:
        for place in range(len(found), 0, -PROCESSORS):
            if len(latest) < lines and time.monotonic() < end:
                windows = found[max(place - PROCESSORS, 0):place]
                for read in pool.map(lambda window: list(entries(window, call, *fields, end=end)), windows):
                    latest += read
    return sorted(latest, key=lambda entry: int(entry["__REALTIME_TIMESTAMP"]), reverse=True)[:lines]


def count_one(window: Window, call: Call, names: tuple[str, ...], since: int = 0, step: int = 1_000_000,
              end: float = math.inf) -> Counts:
    """How many entries each step of time has, by the values of some fields; of several values of one each counts."""
    found = Counts()
    for entry in entries(window, call, *(names or ["_BOOT_ID"]), end=end):
        place = (int(entry["__REALTIME_TIMESTAMP"]) - since) // step
        found.update((place, each) for each in product(*(texts(entry.get(name, "-")) for name in names)))
    return found


def texts(value: Any) -> list[str]:
    """A value, or several, as JSON says it; what is no text is a list of bytes there."""
    several = value if isinstance(value, list) and value and not isinstance(value[0], int) else [value]
    return [each if isinstance(each, str) else "?" for each in several]


def count(found: list[Window], call: Call, *names: str) -> Counts:
    """The same of each second of all windows, on all processors."""
    from concurrent.futures import ProcessPoolExecutor
    with ProcessPoolExecutor(PROCESSORS) as pool:
        return sum(pool.map(partial(count_one, call=call, names=names), found), Counter())
