"""A machine and the collector, by their public commands alone. Each is a disk with processes."""
from __future__ import annotations

import os
import random
import signal
import subprocess
from pathlib import Path

import processes
from disks import Disk
from journals import Journal
from waiting import PATIENCE

HERE = Path(__file__).resolve().parent
PROGRAMS = Path(os.environ.get("PROGRAMS", HERE.parents[1] / "deploy" / "programs"))
PROGRAM = Path(os.environ["PROGRAM"])


class Computer:
    """What machine and collector share: settings, a service, calls, and what they said."""

    service = ""
    conf = ""

    def __init__(self, folder: Path, disk: Disk, settings: dict[str, object], environment: dict[str, str]) -> None:
        self.folder, self.disk = folder, disk
        self.environment = {**os.environ, "JOURNAL_COLLECT": str(PROGRAM),
                            "JOURNAL_COLLECT_SETTINGS": str(folder / "etc"), **environment}
        self.process: subprocess.Popen[bytes] | None = None
        (folder / "etc" / self.conf).mkdir(parents=True)
        self.write(settings)
        self.data.mkdir(exist_ok=True)
        disk.sync()

    def write(self, settings: dict[str, object]) -> None:
        text = "".join(f"{name}={value}\n" for name, value in settings.items())
        (self.folder / "etc" / self.conf / "50-world.conf").write_text(text)

    @property
    def data(self) -> Path:
        return self.disk.at / "data"

    @property
    def said(self) -> str:
        path = self.folder / "said"
        return path.read_text(errors="replace") if path.exists() else ""

    def start(self) -> None:
        """Begins the service, unless it runs."""
        if self.is_running():
            return
        with (self.folder / "said").open("ab") as said:
            self.process = self.disk.begin("service", [PROGRAMS / self.service], env=self.environment,
                                           stdin=subprocess.DEVNULL, stdout=said, stderr=said)

    def is_running(self) -> bool:
        return self.disk.runs(self.process)

    def stop(self, number: signal.Signals = signal.SIGTERM) -> int | None:
        """As systemd stops it: the signal goes to the service alone, and what is left of it is killed then."""
        status = None
        if self.process and self.is_running():
            self.process.send_signal(number)
            status = self.process.wait(PATIENCE)
        self.disk.kill("service")
        return status

    def kill_a_child(self, dice: random.Random) -> None:
        """Any program that the service runs, however deep below it."""
        if self.process and (found := processes.descendants(self.process.pid)):
            processes.kill(dice.choice(found))

    def call(self, program: str, *words: str | Path, seconds: float = 300) -> subprocess.CompletedProcess[bytes]:
        """A command; what it says is among what the computer said."""
        told = subprocess.run([PROGRAMS / program, *words], env=self.environment, stdin=subprocess.DEVNULL,
                              capture_output=True, check=False, timeout=seconds)
        with (self.folder / "said").open("ab") as said:
            said.write(told.stdout + told.stderr)
        return told


class Collector(Computer):
    service, conf = "journal-collect-service", "collector.conf.d"

    def __init__(self, folder: Path, disk: Disk, environment: dict[str, str]) -> None:
        self.keys = folder / "etc" / "keys"
        self.keys.mkdir(parents=True)
        super().__init__(folder, disk, self.settings(disk, 5, 300_000), environment)

    def settings(self, disk: Disk, seconds: int, size: int) -> dict[str, object]:
        return {"FOLDER": disk.at / "data", "DATABASE_SECONDS": seconds, "DATABASE_BYTES": size,
                "FREE_BYTES": 1_000_000}

    def rests(self) -> None:
        """Databases are few from now on: each has journal files for an hour, which fill the disk of a slow computer."""
        self.write(self.settings(self.disk, 60, 3_000_000))
        self.stop()

    def admit(self, name: str) -> None:
        (self.keys / f"{name}.pub").write_text(f"ssh-ed25519 AAAAC3NzaC1lZDI1NTE5AAAAI{name} {name}\n")

    def socket(self, name: str) -> Path:
        return self.data / "sockets" / name


class Machine(Computer):
    service, conf = "journal-collect-send", "machine.conf.d"

    def __init__(self, folder: Path, disk: Disk, name: str, collector: Collector, dice: random.Random) -> None:
        self.name, self.collector = name, collector
        self.ledger, self.fault = folder / "ledger", folder / "fault"
        self.ledger.mkdir()
        self.heal()
        super().__init__(folder, disk, self.settings(folder, disk), {})
        self.journal = Journal(disk, name, dice)

    def settings(self, folder: Path, disk: Disk) -> dict[str, object]:
        return {"FOLDER": disk.at / "data", "JOURNALS": disk.at / "journal", "COLLECTOR": "logs.example.org",
                "CONNECT": f"{HERE / 'link.py'} {self.collector.socket(self.name)} {self.fault} {self.ledger}",
                "EVERY_SECONDS": 1, "IDLE_SECONDS": 3, "FOLDER_BYTES": 3_000_000}

    @property
    def places(self) -> Path:
        """The last file of places that was begun: one that the disk can't read any more has its name still."""
        return max(self.data.glob("places*.sqlite"), default=self.data / "places.sqlite")

    def rename(self, name: str) -> None:
        self.name = name
        self.write(self.settings(self.folder, self.disk))

    def break_link(self, word: str, number: int) -> None:
        self.fault.write_text(f"{word} {number}\n")

    def heal(self) -> None:
        self.break_link("whole", 0)

    def once(self) -> subprocess.CompletedProcess[bytes]:
        return self.call("journal-collect-send", "--once")
