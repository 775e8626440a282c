"""journal-collect-service: stores what machines send, in the collector's folder."""
import argparse
import resource
import signal
import sqlite3
import threading
import time
from pathlib import Path

from .. import VERSION
from ..admin.operations import Door, Operations
from ..common import program
from ..common.settings import Wrong
from ..reading.present import Present
from . import settings
from .connection import Connection
from .doors import Doors
from .gate import Gate
from .keeping import Keeping
from .recovery import Recovery
from .state import State, log
from .store import Store

STACK = 256 << 10
FLUSH_SECONDS = 5.0


def main() -> int:
    words = argparse.ArgumentParser(prog="journal-collect-service", description="Stores what machines send.")
    words.add_argument("--check", action="store_true", help="say what is wrong with settings or the program, and end")
    asked = words.parse_args()
    try:
        chosen = settings.read()
        look_at_program()
        if not asked.check:
            serve(chosen)
    except Wrong as error:
        log(str(error))
        return 2
    except (OSError, sqlite3.Error) as error:
        log(f"the service can't go on: {error}: look at the disk of its FOLDER; systemd begins it again")
        return 3
    return 0


def serve(chosen: settings.Settings) -> None:
    """With as many open files as it may have: each connection has up to three."""
    _, hard = resource.getrlimit(resource.RLIMIT_NOFILE)
    resource.setrlimit(resource.RLIMIT_NOFILE, (hard, hard))
    folder = settings.Folder(Path(chosen.folder))
    if (lock := folder.locked()) is None:
        log(f"another service, or a process that it began, stores in {folder.path}: this one waits for its end")
        lock = folder.locked(is_waiting=True)
    assert lock is not None
    folder.make()
    state, present = State(folder), Present(folder.path, log, chosen.read_keys)
    store = Store(chosen, Recovery(chosen, state, lock, present))
    gate, keeping = Gate(chosen, state, store.windows), Keeping(chosen, store)
    signal.signal(signal.SIGTERM, lambda *_: store.stops.set())
    signal.signal(signal.SIGINT, lambda *_: store.stops.set())
    signal.signal(signal.SIGHUP, lambda *_: store.is_asked_to_finish.set())
    threading.stack_size(STACK)
    doors = Doors(folder, gate)
    for thread in (present, store, keeping, Door(Operations(store, keeping, gate))):
        thread.start()
    let_in(doors, store, gate)
    doors.close()
    store.stop()
    state.flush()
    present.stop()


def let_in(doors: Doors, store: Store, gate: Gate) -> None:
    """Whoever comes has a connection, until the service is told to stop."""
    flushed = time.monotonic()
    while not store.stops.is_set():
        for machine, one in doors.came(1.0):
            try:
                Connection(one, machine, store, gate).start()
            except RuntimeError as error:
                store.state.tell("threads", f"connections are refused: {error}: raise TasksMax of the service")
                one.close()
        if time.monotonic() - flushed > FLUSH_SECONDS:
            flushed = time.monotonic()
            store.state.flush()


def look_at_program() -> None:
    """The program that is called has to be there, and of the same version."""
    try:
        version = program.said("--version")
    except (OSError, program.Failed) as error:
        raise Wrong(f"{program.path()} can't be called: {error}") from error
    if version != f"journal-collect {VERSION}":
        raise Wrong(f"{program.path()} is `{version}`, and this service of version {VERSION}: "
                    "install both anew")
