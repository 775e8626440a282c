"""What a set-up does to a computer: each deed is done only where it isn't done yet, and is said in one line.

A rehearsal says the same lines and does nothing.
"""
import os
import shutil
import subprocess
import sys
from collections.abc import Callable
from pathlib import Path

from journalcollect.common import files, settings

USERS = "journal-collect", "journal-collect-login", "journal-collect-send", "journal-collect-alarm"


class Stopped(Exception):
    """The set-up can't go on, and what to do."""


class Deeds:
    def __init__(self, is_rehearsal: bool) -> None:
        self.is_rehearsal, self.count = is_rehearsal, 0

    def begin(self, text: str) -> bool:
        """Says one deed. False if it is only to be said."""
        self.count += 1
        print(f"would: {text}" if self.is_rehearsal else text, flush=True)
        return not self.is_rehearsal

    def write(self, path: Path, text: str) -> bool:
        """A file has this text. True if it hadn't before."""
        if path.is_file() and path.read_text(encoding="utf-8", errors="replace") == text:
            return False
        if self.begin(f"writes {path}"):
            path.parent.mkdir(parents=True, exist_ok=True)
            files.replace(path, text.encode(), 0o644)
        return True

    def folder(self, path: Path, mode: int, owner: str = "root", group: str = "root") -> None:
        try:
            is_so = (path.stat().st_mode & 0o7777, path.owner(), path.group()) == (mode, owner, group)
        except (FileNotFoundError, KeyError):
            is_so = False
        if not is_so and self.begin(f"makes the folder {path}, mode {mode:04o}, of {owner}:{group}"):
            path.mkdir(parents=True, exist_ok=True)
            shutil.chown(path, owner, group)
            path.chmod(mode)

    def call(self, text: str, *words: str | Path, given: bytes = b"") -> None:
        """A command that changes something. It has to end with 0."""
        if self.begin(text):
            output(*words, given=given)

    def users(self) -> None:
        if not (is_true("getent", "passwd", *USERS) and is_true("getent", "group", "journal-collect-read")):
            self.call("makes the users journal-collect..", "systemd-sysusers", "journal-collect.conf")

    def runs(self, unit: str, is_new: bool) -> None:
        """A unit is enabled and runs. It is begun again if what it reads at its start is new."""
        if not (is_true("systemctl", "is-enabled", unit) and is_true("systemctl", "is-active", unit)):
            self.call(f"enables and starts {unit}", "systemctl", "enable", "--quiet", "--now", unit)
        elif is_new:
            self.call(f"restarts {unit}", "systemctl", "restart", unit)


def output(*words: str | Path, given: bytes = b"") -> str:
    """What a command says; if it fails, what it says of that."""
    try:
        told = subprocess.run(words, input=given, capture_output=True, check=False)
    except FileNotFoundError:
        raise Stopped(f"there is no {words[0]}") from None
    if told.returncode:
        what = " ".join(map(str, words))
        raise Stopped(f"{what}: status {told.returncode}: {told.stderr.decode(errors='replace').strip()}")
    return told.stdout.decode(errors="replace")


def is_true(*words: str | Path) -> bool:
    """Whether a command that asks something ends with 0."""
    return subprocess.run(words, capture_output=True, check=False).returncode == 0


def status(program: str, do: Callable[[], int]) -> int:
    """What a set-up ends with, as only root may do one: 1 if it can't go on, and what it says of that."""
    try:
        if os.geteuid():
            raise Stopped("root sets up a computer: call it with sudo")
        return do()
    except (Stopped, OSError, settings.Wrong) as error:
        print(f"{program}: {error}", file=sys.stderr)
        return 1
