"""A machine's journal: real journal files, which systemd's own writer grows, rotates and repairs."""
from __future__ import annotations

import json
import random
import subprocess
import time
from pathlib import Path

from disks import Disk

REMOTE = Path("/lib/systemd/systemd-journal-remote")
TEXTS = ("ready", "größer", "tab\there", "=", "x" * 700, "two\nlines", "__CURSOR=s=1;i=2", "y" * 5_000)
BOOT = "0123456789abcdef0123456789abcdef"


class Journal:
    """A folder of journal files on a disk. Each entry's message is its own: it begins with the machine and a number."""

    def __init__(self, disk: Disk, name: str, dice: random.Random) -> None:
        self.disk, self.name, self.dice = disk, name, dice
        self.count = 0
        self.time = 1_700_000_000_000_000
        self.writer: subprocess.Popen[bytes] | None = None
        self.folder.mkdir(exist_ok=True)

    @property
    def folder(self) -> Path:
        return self.disk.at / "journal"

    @property
    def present(self) -> Path:
        return self.folder / "system.journal"

    def write(self, text: bytes) -> None:
        """The writer ends if its disk is full, or its power went: another one is begun."""
        if not self.disk.runs(self.writer):
            self.writer = self.disk.begin(
                "journal", [REMOTE, "--output", self.present, "--split-mode=none", "--compress=no", "-"],
                stdin=subprocess.PIPE, stdout=subprocess.DEVNULL, stderr=subprocess.DEVNULL)
        assert self.writer
        assert self.writer.stdin
        try:
            self.writer.stdin.write(text)
            self.writer.stdin.flush()
        except BrokenPipeError:
            pass

    def grow(self, entries: int) -> None:
        self.write(b"".join(self.entry() for _ in range(entries)))

    def entry(self) -> bytes:
        self.count += 1
        self.time += self.dice.randint(1, 10**6)
        message = f"{self.name} {self.count} {self.dice.choice(TEXTS)}".encode()
        size = len(message).to_bytes(8, "little")
        return (b"__REALTIME_TIMESTAMP=%d\n__MONOTONIC_TIMESTAMP=%d\n_BOOT_ID=%s\nMESSAGE\n%s%s\nPRIORITY=6\n\n"
                % (self.time, self.time, BOOT.encode(), size, message))

    def end(self) -> None:
        """The writer writes what it was given, and ends."""
        if self.writer and self.disk.runs(self.writer):
            assert self.writer.stdin
            try:
                self.writer.stdin.close()
                self.writer.wait(timeout=60)
            except (BrokenPipeError, subprocess.TimeoutExpired):
                self.disk.kill("journal")
        self.writer = None

    def rotate(self) -> None:
        """The present file is archived; the next one has a sequence of its own."""
        self.end()
        if self.present.exists():
            self.present.rename(self.folder / f"system@{time.time_ns():x}.journal")

    def vacuum(self) -> None:
        """The oldest archived file goes."""
        if files := sorted(self.folder.glob("system@*"), key=lambda each: each.stat().st_mtime):
            files[0].unlink()

    def set_clock(self, by: int) -> None:
        self.time = max(10**15, self.time + by)

    def messages(self) -> set[str]:
        """What systemd's own reader finds in it. A loss of power may leave an entry without its message."""
        told = subprocess.run(["journalctl", "-D", self.folder, "--output=json", "--output-fields=MESSAGE", "--quiet",
                               "--all"], capture_output=True, check=False)
        found = map(json.loads, told.stdout.splitlines())
        return {message_of(each["MESSAGE"]) for each in found if "MESSAGE" in each}


def message_of(value: str | list[int]) -> str:
    """journalctl writes what isn't plain text as numbers."""
    return value if isinstance(value, str) else bytes(value).decode()
