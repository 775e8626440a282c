"""A machine and its collector: the real sender, journalctl and program over a socket."""
from __future__ import annotations

import contextlib
import os
import subprocess
import sys
from collections.abc import Iterator
from pathlib import Path

import pytest

ROOT = Path(__file__).resolve().parents[2]
os.environ.setdefault("JOURNAL_COLLECT", str(ROOT / "crates/jc_cli/out/jc_cli"))
sys.path[:0] = [str(Path(__file__).parent), str(Path(__file__).parents[1]), str(Path(__file__).parents[1] / "world")]
from collector import Collector  # noqa: E402
from disks import Disk, can_mount  # noqa: E402
from journals import MACHINE_ID, Entry, write  # noqa: E402
from sshd import Sshd  # noqa: E402
from waiting import PATIENCE  # noqa: E402

SEND = ROOT / "deploy/programs/journal-collect-send"


Command = tuple[str | Path, ...]
SENDER: Command = ("/usr/bin/python3", "-IB", SEND)


class Machine:
    def __init__(self, folder: Path, connect: str) -> None:
        self.base = folder
        self.folder, self.journals = folder / "send", folder / "journal"
        self.journal = self.journals / MACHINE_ID
        self.journal.mkdir(parents=True)
        self.settings = {"FOLDER": str(self.folder), "JOURNALS": str(self.journals), "CONNECT": connect}
        self.environment = dict(os.environ, JOURNAL_COLLECT_SETTINGS=str(folder / "etc"), TZ="UTC")
        self.said = ""

    def set(self, **settings: object) -> None:
        self.settings |= {name: str(value) for name, value in settings.items()}

    def write_settings(self) -> None:
        folder = self.base / "etc" / "machine.conf.d"
        folder.mkdir(parents=True, exist_ok=True)
        (folder / "10-test.conf").write_text("".join(f"{name}={value}\n" for name, value in self.settings.items()))

    def begin(self, *words: str, command: Command = SENDER) -> subprocess.Popen[str]:
        self.write_settings()
        return subprocess.Popen([*command, *words], env=self.environment, stderr=subprocess.PIPE, text=True)

    @contextlib.contextmanager
    def running(self, command: Command = SENDER) -> Iterator[subprocess.Popen[str]]:
        """A sender that stays, meanwhile; then what it said is there."""
        process = self.begin(command=command)
        try:
            yield process
        finally:
            process.kill()
            self.said = process.communicate()[1]
        assert "Traceback" not in self.said, self.said

    def send(self, *words: str, command: Command = SENDER) -> int:
        """One run; its status."""
        process = self.begin(*(words or ("--once",)), command=command)
        self.said = process.communicate(timeout=PATIENCE)[1]
        assert "Traceback" not in self.said, self.said
        return process.returncode

    def log_and_send(self, logged: list[Entry]) -> None:
        """The journal has some more entries, and all that is new goes out well."""
        write(self.journal / "system.journal", logged)
        assert self.send() == 0, self.said

    def gather(self) -> list[Path]:
        """One run without a connection; the uploads that wait then."""
        connect = self.settings["CONNECT"]
        self.set(CONNECT="false")
        assert self.send() == 3, self.said
        self.set(CONNECT=connect)
        return self.outbox()

    def outbox(self) -> list[Path]:
        return sorted((self.folder / "outbox").glob("*.upload"), key=lambda path: int(path.stem))

    def refused(self) -> list[str]:
        return sorted(each.name for each in (self.folder / "refused").iterdir())


@pytest.fixture
def collector(tmp_path: Path) -> Iterator[Collector]:
    collector = Collector(tmp_path / "collector")
    yield collector
    collector.close()


@pytest.fixture
def machine(tmp_path: Path, collector: Collector) -> Machine:
    return Machine(tmp_path, f"nc.openbsd -NU {collector.socket}")


@pytest.fixture
def sshd(machine: Machine, collector: Collector) -> Iterator[Sshd]:
    server = Sshd(machine, collector.socket)
    yield server
    server.end()


@pytest.fixture
def disk(machine: Machine, tmp_path: Path) -> Iterator[Disk]:
    """The machine's folder is on a disk of its own."""
    if os.geteuid() or not can_mount(tmp_path):
        pytest.skip("no disk can be mounted here")
    disk = Disk(tmp_path / "disk")
    machine.folder = disk.at / "send"
    machine.set(FOLDER=machine.folder)
    yield disk
    disk.remove()
