"""Looks at what others write meanwhile: their tables, and what systemd says of their units."""
import os
import sqlite3
import subprocess
import tempfile
from contextlib import closing, suppress
from pathlib import Path
from typing import Any

from journalcollect.status.findings import Findings

SECONDS, RUNS = 10, ("active", "activating", "reloading")


def unit(name: str) -> dict[str, str]:
    """What systemd says of it; nothing if systemd doesn't know it, or can't be asked."""
    try:
        told = subprocess.run(["systemctl", "show", "--property=LoadState,ActiveState,UnitFileState", "--", name],
                              capture_output=True, check=False, timeout=SECONDS, stdin=subprocess.DEVNULL)
    except (OSError, subprocess.TimeoutExpired):
        return {}
    known = dict(line.partition("=")[::2] for line in told.stdout.decode("utf-8", "replace").splitlines())
    return known if known.get("LoadState") == "loaded" else {}


def service(name: str, about: str, findings: Findings) -> str:
    """How a service stands that is to run; `unknown` where systemd doesn't know it."""
    told = unit(name)
    if not told:
        return "unknown"
    if told["ActiveState"] not in RUNS:
        findings.failed("service", about, f"{name} doesn't run",
                        f"systemctl enable --now {name}; journalctl -u {name} says why it ended")
        return "doesn't run"
    if told["UnitFileState"] != "enabled":
        findings.look("service", about, f"{name} isn't started with the computer", f"systemctl enable {name}")
    return "runs"


def answer(path: Path, mode: str, query: str, *values: str) -> list[Any]:
    with closing(sqlite3.connect(f"file:{path}?mode={mode}", uri=True, timeout=SECONDS)) as table:
        return table.execute(query, values).fetchall()


def rows(path: Path, query: str) -> list[Any]:
    """What a question finds; nothing of a file that isn't there, or has no such table. The file stays as it is: if
    nobody has it open, its log can't be read there, and a copy is read."""
    if not os.path.exists(path):                    # or the disk can't say so
        return []
    with suppress(sqlite3.DatabaseError):
        return answer(path, "ro", query)
    with tempfile.TemporaryDirectory() as folder, suppress(OSError, sqlite3.DatabaseError):
        for each in path.parent.glob(f"{path.name}*"):
            (Path(folder) / each.name).write_bytes(each.read_bytes())
        return answer(Path(folder) / path.name, "rw", query)
    return []
