"""What happens in the world: each method whose name begins with `machine_` or `collector_` is an event, and so is each
name of `of_each`."""
from __future__ import annotations

import os
import random
import shutil
import signal
import subprocess
import sys
import time
from collections import Counter
from collections.abc import Callable
from pathlib import Path

import preload
from computers import HERE, PROGRAM, Collector, Machine
from disks import COLLECTOR_INODES, COLLECTOR_SIZE, Disk
from judge import Entry, acknowledged

NAMES = ("web", "mail", "db-1")
MOST_MACHINES = 6
DAY = 86_400


def clock_library(folder: Path) -> str:
    """What sets a program's clock, if there is a compiler, and the program can be run with it: one that checks its own
    memory can't."""
    if not shutil.which("rt"):
        return ""
    library = preload.built(str(HERE / "clock.c"), str(folder))
    environment = {**os.environ, "LD_PRELOAD": library}
    told = subprocess.run([PROGRAM, "--version"], env=environment, capture_output=True, check=False)
    return "" if told.returncode else library


class World:
    """Machines, the collector, a hostile machine, and what was taken away from them."""

    def __init__(self, folder: Path, seed: int, pace: float) -> None:
        self.folder, self.dice, self.pace = folder, random.Random(seed), pace
        self.library = clock_library(folder)
        home = self.at("collector")
        self.collector = Collector(home, Disk(home / "disk", size=COLLECTOR_SIZE, inodes=COLLECTOR_INODES),
                                   self.clock_of(home))
        self.machines = [self.machine(name) for name in NAMES]
        self.collector.admit("evil")
        self.hostile: subprocess.Popen[bytes] | None = None
        self.snapshots: dict[object, Path] = {}
        self.backups: list[Path] = []
        self.at_risk: set[Entry] = set()
        self.counts: Counter[str] = Counter()
        for machine in self.machines:
            machine.journal.grow(1)
        self.events: dict[str, Callable[[], object]] = {
            name: getattr(self, name) for name in dir(self) if name.startswith(("machine_", "collector_"))}
        self.events |= self.of_each("machine", self.any, (0, 4_096, 100_000), (0, 1, 2), 40)
        self.events |= self.of_each("collector", lambda: self.collector, (0, 8_192, 300_000, 2_000_000), (0, 1, 5), 400)

    def at(self, name: str) -> Path:
        path = self.folder / f"{len(list(self.folder.glob('*-*'))) + 1}-{name}"
        path.mkdir()
        return path

    def clock_of(self, home: Path) -> dict[str, str]:
        return {"LD_PRELOAD": self.library, "CLOCK_FILE": str(home / "clock")} if self.library else {}

    def machine(self, name: str, image: Path | None = None) -> Machine:
        home = self.at(name)
        machine = Machine(home, Disk(home / "disk", image), name, self.collector, self.dice)
        machine.environment.update(self.clock_of(home))
        self.collector.admit(name)
        return machine

    def any(self) -> Machine:
        return self.dice.choice(self.machines)

    def computers(self) -> list[Machine | Collector]:
        return [self.collector, *self.machines]

    def go_on(self) -> None:
        """Journals grow, and what ended is begun again, as systemd does."""
        for machine in self.machines:
            if self.dice.random() < 0.7:
                machine.journal.grow(self.dice.choice((1, 3, 20, 100)))
        for computer in self.computers():
            computer.start()

    def round(self) -> None:
        self.go_on()
        time.sleep(self.pace * self.dice.choice((0.05, 0.2, 0.5, 1.0)))
        event = self.dice.choice(sorted(self.events))
        self.counts[event] += 1
        with (self.folder / "events").open("a") as file:
            print(time.strftime("%H:%M:%S"), event, file=file)
        self.events[event]()
        for computer in self.computers():
            if self.dice.random() < 0.3:
                computer.disk.free()
        if self.dice.random() < 0.3:
            self.any().heal()

    def of_each(self, kind: str, one: Callable[[], Machine | Collector], filled: tuple[int, ...],
                inodes: tuple[int, ...], days: int) -> dict[str, Callable[[], object]]:
        """What happens to machines and to the collector alike."""
        clocks = (0, 60, -60, DAY, -3 * DAY, days * DAY)
        return {
            f"{kind}_killed": lambda: one().stop(signal.SIGKILL),
            f"{kind}_child_killed": lambda: one().kill_a_child(self.dice),
            f"{kind}_stopped": lambda: one().stop(),
            f"{kind}_loses_power": lambda: one().disk.lose_power(),
            f"{kind}_disk_full": lambda: one().disk.fill(self.dice.choice(filled)),
            f"{kind}_no_inodes": lambda: one().disk.take_inodes(self.dice.choice(inodes)),
            f"{kind}_clock": lambda: self.set_clock(one(), self.dice.choice(clocks))}

    # Machines

    def machine_link(self) -> None:
        word = self.dice.choice(("refused", "cut", "deaf", "open", "slow"))
        number = {"slow": 30_000, "deaf": self.dice.randrange(200)}.get(word, self.dice.randrange(100_000))
        self.any().break_link(word, number)

    def machine_snapshot(self) -> None:
        machine = self.any()
        self.snapshots[machine] = machine.folder / "snapshot"
        machine.disk.snapshot(self.snapshots[machine])

    def machine_set_back(self) -> None:
        machine = self.any()
        if machine in self.snapshots:
            machine.disk.set_back(self.snapshots[machine])

    def machine_cloned(self) -> None:
        """With a key of its own, or with the same one."""
        machine = self.any()
        if machine in self.snapshots and len(self.machines) < MOST_MACHINES:
            name = self.dice.choice((machine.name, f"clone-{len(self.machines)}"))
            clone = self.machine(name, self.snapshots[machine])
            clone.journal.name, clone.journal.time = f"clone-{len(self.machines)}", machine.journal.time
            self.machines.append(clone)

    def machine_loses_places(self) -> None:
        machine = self.any()
        machine.stop(signal.SIGKILL)
        self.take_away(machine.data, machine.places.name)

    def machine_places_damaged(self) -> None:
        machine = self.any()
        if os.path.isfile(machine.places):
            machine.disk.damage(machine.places)

    def machine_upload_damaged(self) -> None:
        machine = self.any()
        if found := [each for each in sorted((machine.data / "outbox").glob("*.upload")) if os.path.isfile(each)]:
            machine.disk.damage(self.dice.choice(found))

    def machine_rotates(self) -> None:
        self.any().journal.rotate()

    def machine_vacuums(self) -> None:
        self.any().journal.vacuum()

    def machine_journal_clock(self) -> None:
        self.any().journal.set_clock(self.dice.choice((-DAY, -1, DAY)) * 1_000_000)

    # The collector

    def collector_finishes(self) -> None:
        if self.collector.is_running() and self.collector.process:
            self.collector.process.send_signal(signal.SIGHUP)

    def collector_snapshot(self) -> None:
        self.snapshots[self.collector] = self.collector.folder / "snapshot"
        self.collector.disk.snapshot(self.snapshots[self.collector])

    def collector_set_back(self) -> None:
        """What was acknowledged since is there again only as far as journals have it, which the judge holds it to."""
        if self.collector in self.snapshots and not self.share_a_key():
            self.collector.disk.set_back(self.snapshots[self.collector])
            self.risk()

    def collector_backup(self) -> None:
        folder = self.collector.folder / f"backup-{len(self.backups)}"
        if self.collector.call("journal-collect-admin", "backup", folder).returncode == 0:
            self.backups.append(folder)

    def collector_restored(self) -> None:
        """All of its folder is lost, and a backup is put back."""
        if self.backups and not self.share_a_key():
            self.collector.stop(signal.SIGKILL)
            shutil.rmtree(self.collector.data)
            self.collector.data.mkdir()
            self.collector.disk.free()
            told = self.collector.call("journal-collect-admin", "restore", self.backups[-1])
            assert told.returncode == 0, told.stderr.decode()
            self.risk()

    def collector_renames(self) -> None:
        """The administrator gives a machine another name, and its key goes with it."""
        old = self.any().name
        new = f"{old.partition('.')[0]}.{self.counts['collector_renames']}"
        if self.collector.call("journal-collect-admin", "rename", old, new).returncode == 0:
            for machine in self.machines:
                if machine.name == old:
                    machine.rename(new)

    def collector_loses_notes(self) -> None:
        self.collector.stop(signal.SIGKILL)
        if found := sorted(path for path in (self.collector.data / "sequences").rglob("*") if path.is_file()):
            path = self.dice.choice(found)
            self.take_away(path.parent, path.name)

    def collector_loses_state(self) -> None:
        self.collector.stop(signal.SIGKILL)
        self.take_away(self.collector.data, "state.sqlite")

    def collector_database_damaged(self) -> None:
        """The present one is overwritten: what was acknowledged of it is made anew of `recent`."""
        self.collector.stop(signal.SIGKILL)
        databases = self.collector.data / "databases"
        for path in databases.glob("*.db"):
            if not path.with_name(path.name + ".sha256").exists():
                overwrite(path, b"x" * path.stat().st_size)

    def collector_hostile(self) -> None:
        self.end_hostile()
        ledgers = [str(each.ledger) for each in self.machines]
        words = [str(self.collector.socket("evil")), str(self.dice.random()), *ledgers]
        self.hostile = subprocess.Popen([sys.executable, "-B", HERE / "hostile.py", *words], stderr=subprocess.DEVNULL)

    def end_hostile(self) -> None:
        if self.hostile:
            self.hostile.kill()
            self.hostile.wait()
        self.hostile = None

    # What events share

    def take_away(self, folder: Path, name: str) -> None:
        """A file with what belongs to it is gone, or was cut, or has something else in it."""
        path = folder / name
        if not os.path.isfile(path):                # or its disk can't read it any more
            return
        match self.dice.choice(("gone", "cut", "overwritten")):
            case "gone":
                for each in folder.glob(f"{name}*"):
                    each.unlink()
            case "cut":
                os.truncate(path, self.dice.randrange(path.stat().st_size + 1))
            case _:
                overwrite(path, self.dice.randbytes(path.stat().st_size))

    def set_clock(self, computer: Machine | Collector, seconds: int) -> None:
        """The program's clocks are wrong by so much from now on."""
        new = computer.folder / "clock.new"
        new.write_text(f"{seconds} 0 0\n")
        new.replace(computer.folder / "clock")

    def share_a_key(self) -> bool:
        """Two computers with one key are one machine to the collector: each takes what the other stored for its own, so
        neither notices that the collector was set back."""
        return len({machine.name for machine in self.machines}) < len(self.machines)

    def risk(self) -> None:
        """What was acknowledged until now, when no service runs, may be lost."""
        for machine in self.machines:
            self.at_risk |= acknowledged(machine)


def overwrite(path: Path, data: bytes) -> None:
    """In its place, for which a full disk has room."""
    with path.open("r+b") as file:
        file.write(data)
