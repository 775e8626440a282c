"""losing_power.py FOLDER STOP WORD..: runs the sender, which is killed before its step STOP. FOLDER then has what of
the outbox was on the disk: each file as it was when it was synced last, and the names that a folder had when it was.

A step is a file that is opened for writing, moved or removed, a sync, a program that is begun, or a use of SQLite.
"""
import os
import runpy
import shutil
import signal
import sys
from pathlib import Path

SHADOW, STOP = (Path(sys.argv[1]), int(sys.argv[2])) if __name__ == "__main__" else (Path("/"), 0)
SEND = Path(__file__).resolve().parents[2] / "deploy/programs/journal-collect-send"
EVENTS = ("os.rename", "os.remove", "os.mkdir", "subprocess.Popen", "sqlite3.connect")
left, sync = [STOP], os.fsync


def step() -> None:
    left[0] -= 1
    if left[0] == 0:
        os.kill(os.getpid(), signal.SIGKILL)


def look(event: str, arguments: tuple[object, ...]) -> None:
    flags = arguments[2] if event == "open" else None
    if event in EVENTS or (isinstance(flags, int) and flags & (os.O_WRONLY | os.O_RDWR)):
        step()


def keep_and_sync(handle: int) -> None:
    step()
    sync(handle)
    path = Path(os.readlink(f"/proc/self/fd/{handle}"))
    SHADOW.mkdir(exist_ok=True)
    if path.is_dir():
        names = "".join(f"{each.name} {each.stat().st_ino}\n" for each in path.iterdir())
        (SHADOW / f"names-{path.name}").write_text(names)
    elif path.parent.name == "outbox":
        shutil.copy(path, SHADOW / str(path.stat().st_ino))


def restore(outbox: Path, shadow: Path) -> None:
    """Power was lost: the outbox has what of it was on the disk."""
    for each in outbox.iterdir():
        each.unlink()
    listed = shadow / "names-outbox"
    for line in listed.read_text().splitlines() if listed.exists() else []:
        name, node = line.split()
        kept = shadow / node
        (outbox / name).write_bytes(kept.read_bytes() if kept.exists() else b"")


if __name__ == "__main__":
    os.fsync = keep_and_sync  # type: ignore[assignment]
    sys.addaudithook(look)
    sys.argv = [str(SEND), *sys.argv[3:]]
    runpy.run_path(str(SEND), run_name="__main__")
