"""A socket for each machine that has a key, sockets/NAME: whoever comes by it is that machine."""
import os
import selectors
import shutil
import socket
import time
from collections.abc import Iterator
from pathlib import Path

from ..common import files
from ..common.settings import FOLDER
from ..setup import keys
from .gate import Gate
from .settings import KEYS, Folder

BACKLOG = 16
# The keys are looked at when their folder changed, and at least so often.
LOOK_SECONDS = 10.0


class Doors:
    def __init__(self, folder: Folder, gate: Gate) -> None:
        self.folder, self.gate = folder, gate
        self.there = selectors.DefaultSelector()
        self.open: dict[str, socket.socket] = {}
        self.seen, self.looked = -1, 0.0
        for path in folder.sockets.iterdir():
            shutil.rmtree(path) if path.is_dir() else path.unlink()

    def came(self, seconds: float) -> Iterator[tuple[str, socket.socket]]:
        """The machines that came within so many seconds, and their connections."""
        self.look()
        for key, _ in self.there.select(seconds):
            try:
                one = self.open[key.data].accept()[0]
            except OSError:
                time.sleep(0.1)                        # there are too many open files: it waits
            else:
                yield key.data, one

    def look(self) -> None:
        """Opens a socket for each new machine. Who has no key any more is let in no more, and out."""
        changed, now = KEYS.stat().st_mtime_ns if KEYS.is_dir() else 0, time.monotonic()
        if changed == self.seen and now - self.looked < LOOK_SECONDS:
            return
        self.seen, self.looked = changed, now
        wanted = set(keys.machines(FOLDER))
        for machine in self.open.keys() - wanted:
            self.shut(machine)
        for machine in sorted(wanted - self.open.keys()):
            self.listen(machine)

    def listen(self, machine: str) -> None:
        listening = self.open[machine] = socket.socket(socket.AF_UNIX)
        path = self.folder.sockets / machine
        bind(listening, path)
        path.chmod(0o666)                              # the folder says who may pass
        listening.listen(BACKLOG)
        self.there.register(listening, selectors.EVENT_READ, machine)

    def shut(self, machine: str) -> None:
        listening = self.open.pop(machine)
        self.there.unregister(listening)
        listening.close()
        (self.folder.sockets / machine).unlink(missing_ok=True)
        self.gate.end(machine)

    def close(self) -> None:
        for machine in list(self.open):
            self.shut(machine)


def bind(listening: socket.socket, path: Path) -> None:
    """Gives a socket its name. A name over 107 bytes, which no socket may have, is reached by its open folder."""
    with files.opened(path.parent, os.O_PATH | os.O_DIRECTORY) as folder:
        listening.bind(f"/proc/self/fd/{folder}/{path.name}")
