"""Journal files that systemd's own programs write, and what is in them."""
from __future__ import annotations

import os
import subprocess
from dataclasses import dataclass, field
from pathlib import Path

REMOTE = "/lib/systemd/systemd-journal-remote"
BOOT = "404142434445464748494a4b4c4d4e4f"
MACHINE_ID = Path("/etc/machine-id").read_text(encoding="ascii").strip()
BEGIN = 1_700_000_000_000_000


@dataclass
class Entry:
    """What somebody logs. Messages differ, so an entry is known by its own."""
    message: str
    realtime: int
    fields: dict[str, str | bytes] = field(default_factory=dict)

    def export(self) -> bytes:
        text = b"__REALTIME_TIMESTAMP=%d\n__MONOTONIC_TIMESTAMP=%d\n_BOOT_ID=%s\n" % (
            self.realtime, self.realtime % 10**12, BOOT.encode())
        for name, value in {"PRIORITY": "6", "MESSAGE": self.message, **self.fields}.items():
            data = value.encode() if isinstance(value, str) else value
            text += name.encode() + b"\n" + len(data).to_bytes(8, "little") + data + b"\n"
        return text + b"\n"


def entries(prefix: str, count: int, begin: int = BEGIN, pad: int = 0) -> list[Entry]:
    """So many entries, a second apart."""
    return [Entry(f"{prefix} {number}" + " x" * (pad // 2), begin + 1_000_000 * number) for number in range(count)]


def write(path: Path, logged: list[Entry]) -> None:
    """Makes a journal file, or adds to it. The numbers go on where it ends."""
    path.parent.mkdir(parents=True, exist_ok=True)
    subprocess.run([REMOTE, f"--output={path}", "-"], input=b"".join(each.export() for each in logged), check=True,
                   capture_output=True, env=dict(os.environ, SYSTEMD_JOURNAL_COMPACT="0"))


def offsets(path: Path) -> list[int]:
    """Where the entries of a journal file stand, in order, as its first arrays of the regular layout name them."""
    data = path.read_bytes()
    found: list[int] = []
    array = int.from_bytes(data[176:184], "little")
    while array:
        size = int.from_bytes(data[array + 8:array + 16], "little")
        items = [int.from_bytes(data[at:at + 8], "little") for at in range(array + 24, array + size, 8)]
        found += [item for item in items if item]
        array = int.from_bytes(data[array + 16:array + 24], "little")
    return found
