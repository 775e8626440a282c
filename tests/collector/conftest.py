"""A collector that runs: the real service over real sockets and the real program, and machines that talk to it."""
import contextlib
import hashlib
import json
import os
import socket
import sqlite3
import subprocess
import sys
import time
from collections.abc import Iterator
from pathlib import Path

import pytest

ROOT = Path(__file__).resolve().parents[2]
sys.path[:0] = [str(ROOT / "deploy"), str(ROOT / "tests"), str(ROOT / "tests" / "world")]
import processes  # noqa: E402
from disks import COLLECTOR_INODES, COLLECTOR_SIZE, Disk, can_mount  # noqa: E402
from waiting import PATIENCE, wait_until  # noqa: E402

PROGRAM = Path(os.environ["JOURNAL_COLLECT"])
REALTIME = 1_700_000_000_000_000


def entry(sequence: str, number: int, **fields: str) -> bytes:
    """An entry as journalctl exports it."""
    lines = [f"__REALTIME_TIMESTAMP={REALTIME + number}", f"__MONOTONIC_TIMESTAMP={number}", f"__SEQNUM={number}",
             f"__SEQNUM_ID={sequence}", *(f"{name}={value}" for name, value in fields.items())]
    return ("\n".join(lines) + "\n\n").encode()


def entries(sequence: str, numbers: range | list[int], text: str = "m") -> bytes:
    return b"".join(entry(sequence, number, MESSAGE=f"{text}{number}") for number in numbers)


def upload(body: bytes, count: int, source: str = "cd" * 16) -> bytes:
    """An upload of version 2 that is to be whole, by the table of the formats."""
    return b"JCUPLD02\1\1" + bytes(6) + bytes.fromhex(source) + bytes(8) + count.to_bytes(8, "little") + body


def sequence(letter: str) -> str:
    return letter * 32


# Two sequences, and the source of uploads.
A, B, ID = sequence("a"), sequence("b"), "cd" * 16


class Machine:
    """A machine's connection."""

    def __init__(self, path: Path) -> None:
        self.socket = socket.socket(socket.AF_UNIX)
        self.socket.settimeout(PATIENCE)
        self.socket.connect(str(path))
        self.file = self.socket.makefile("rb")
        self.greeting = self.line()

    def line(self) -> str:
        """The next line; none if the service ended the connection, also before it read all."""
        with contextlib.suppress(ConnectionResetError):
            return self.file.readline().decode().rstrip("\n")
        return ""

    def say(self, text: str) -> None:
        self.socket.sendall(text.encode() + b"\n")

    def put(self, data: bytes, digest: str | None = None) -> None:
        self.say(f"upload {len(data)} {digest or hashlib.sha256(data).hexdigest()} {time.time_ns() // 1000}")
        self.socket.sendall(data)

    def send(self, data: bytes) -> str:
        """Sends an upload; the answer's line."""
        self.put(data)
        return self.line()

    def had(self, sequence: str, number: int) -> str:
        self.say(f"had {sequence} {number}")
        return self.line()

    def close(self) -> None:
        self.file.close()
        self.socket.close()


class Collector:
    """A collector's folder, its settings and keys, and its service, which may be stopped, killed and begun again."""

    def __init__(self, folder: Path) -> None:
        self.settings, self.folder, self.keys = folder / "etc", folder / "var", folder / "etc" / "keys"
        self.keys.mkdir(parents=True)
        self.folder.mkdir()
        self.values = {"FOLDER": str(self.folder), "FREE_BYTES": "0"}
        self.process: subprocess.Popen[bytes] | None = None
        self.log = folder / "log"
        self.program = PROGRAM
        self.under: list[str] = []

    def admit(self, *names: str) -> None:
        """These machines have keys from now on, if they have none."""
        for path in (self.keys / f"{name}.pub" for name in names):
            if not path.exists():
                path.write_text(f"ssh-ed25519 {path.stem} {path.stem}\n")

    def environment(self) -> dict[str, str]:
        (self.settings / "collector.conf.d").mkdir(exist_ok=True)
        text = "".join(f"{name}={value}\n" for name, value in self.values.items())
        (self.settings / "collector.conf.d" / "10-test.conf").write_text(text)
        return {**os.environ, "JOURNAL_COLLECT": str(self.program),
                "JOURNAL_COLLECT_SETTINGS": str(self.settings)}

    def start(self, *admitted: str) -> None:
        """Starts the service; these machines have keys from now on."""
        self.admit(*admitted)
        with open(self.log, "ab") as log:
            self.process = subprocess.Popen([*self.under, ROOT / "deploy/programs/journal-collect-service"], stderr=log,
                                            env=self.environment())

    def stop(self) -> int:
        assert self.process
        self.process.terminate()
        return self.ended()

    def stops_with(self, stored: list[tuple[str, int, bytes]]) -> None:
        """It stops, and these entries are stored, each once."""
        assert self.stop() == 0
        assert self.stored() == stored

    def ended(self) -> int:
        """Its status, once it has ended."""
        assert self.process
        return self.process.wait(PATIENCE)

    def kill(self) -> None:
        """Kills the service and its program at once, as a failure of power does."""
        assert self.process
        children = processes.children(self.process.pid)
        self.process.kill()
        for child in children:
            processes.kill(child)
        self.process.wait()

    def programs(self) -> list[int]:
        """The processes of the program that store."""
        assert self.process
        return [each for each in processes.children(self.process.pid) if b"collect" in processes.words(each)]

    def connect(self, name: str) -> Machine:
        path, end = self.folder / "sockets" / name, time.monotonic() + PATIENCE
        while True:
            try:
                return Machine(path)
            except (FileNotFoundError, ConnectionRefusedError):
                if time.monotonic() > end:
                    raise
                time.sleep(0.05)

    def send(self, name: str, data: bytes) -> str:
        machine = self.connect(name)
        try:
            return machine.send(data)
        finally:
            machine.close()

    def runs(self) -> bool:
        return self.process is not None and self.process.poll() is None

    def admin(self, *words: str | Path, given: str = "") -> subprocess.CompletedProcess[str]:
        """Calls journal-collect-admin. The service runs meanwhile, unless that isn't asked for."""
        if not self.runs() and words[0] not in ("admit", "retire", "restore"):
            self.start()
            wait_until(self.is_begun)
            try:
                return self.admin(*words, given=given)
            finally:
                assert self.stop() == 0
        return subprocess.run([ROOT / "deploy/programs/journal-collect-admin", *words], env=self.environment(),
                              input=given, capture_output=True, text=True, timeout=600)

    def is_begun(self) -> object:
        """Whether the service has taken up what was left."""
        return self.ask("status")[0]["say"]["is_begun"]   # type: ignore[index]

    def ask(self, do: str, *words: str) -> list[dict[str, object]]:
        """Asks the service as journal-collect-admin does."""
        with socket.socket(socket.AF_UNIX) as one:
            wait_until(lambda: one.connect_ex(str(self.folder / "admin")) == 0)
            one.sendall(json.dumps({"do": do, "words": words}).encode())
            lines = []
            with one.makefile() as file:
                for line in file:
                    lines.append(json.loads(line))
                    if "status" in lines[-1]:
                        break
        return lines

    def rows(self, text: str, *values: object) -> list[tuple[object, ...]]:
        """What a statement says of state.sqlite, or changes in it."""
        there = sqlite3.connect(self.folder / "state.sqlite", timeout=PATIENCE)
        with contextlib.closing(there) as tables, tables:
            return tables.execute(text, values).fetchall()

    def said(self) -> str:
        return self.log.read_text()

    @contextlib.contextmanager
    def on_disk(self, disk: Path, options: str) -> Iterator[None]:
        """Its folder is a disk of its own, with these options of tmpfs, while this lasts."""
        disk.mkdir()
        words = ["mount", "-t", "tmpfs", "-o", options, "tmpfs", disk]
        if subprocess.run(words, capture_output=True).returncode:
            pytest.skip("no file system can be mounted here")
        self.folder = disk
        self.values["FOLDER"] = str(disk)
        try:
            yield
        finally:
            if self.runs():
                self.kill()
            subprocess.run(["umount", "--lazy", disk], check=True)

    def databases(self) -> list[Path]:
        """Those that the disk can read."""
        return [path for path in sorted((self.folder / "databases").glob("*.db")) if os.path.isfile(path)]

    def stored(self) -> list[tuple[str, int, bytes]]:
        """All entries of all finished databases: sequence, number and text, as the program exports them."""
        found = []
        for path in self.databases():
            assert path.with_name(path.name + ".sha256").exists(), f"{path} isn't finished"
            text = subprocess.run([PROGRAM, "export", path], capture_output=True, check=True).stdout
            for each in text.split(b"\n\n")[:-1]:
                lines = dict(line.split(b"=", 1) for line in each.split(b"\n"))
                found.append((lines[b"__SEQNUM_ID"].decode(), int(lines[b"__SEQNUM"]), lines.get(b"MESSAGE", b"")))
        return sorted(found)


@pytest.fixture
def collector(tmp_path: Path) -> Iterator[Collector]:
    made = Collector(tmp_path)
    yield made
    if made.runs():
        made.kill()


@pytest.fixture
def disk(collector: Collector, tmp_path: Path) -> Iterator[Disk]:
    """The collector's folder is on a disk of its own."""
    if os.geteuid() or not can_mount(tmp_path):
        pytest.skip("no disk can be mounted here")
    disk = Disk(tmp_path / "disk", size=COLLECTOR_SIZE, inodes=COLLECTOR_INODES)
    collector.folder = disk.at / "var"
    collector.folder.mkdir()
    collector.values["FOLDER"] = str(collector.folder)
    yield disk
    if collector.runs():
        collector.kill()
    disk.remove()


def texts(numbers: range) -> list[tuple[str, int, bytes]]:
    return [(A, number, b"m%d" % number) for number in numbers]


def store_and_stop(collector: Collector, numbers: range, of: str = A, machine: str = "web") -> None:
    """A run that stores entries in a database of its own, which is finished."""
    collector.start(machine)
    assert collector.send(machine, upload(entries(of, numbers), len(numbers))).startswith("ack ")
    assert collector.stop() == 0


def comes_again(collector: Collector, numbers: range, new: int, *beside: tuple[str, int, bytes]) -> None:
    """These entries come, perhaps again, so many of them new: then they, and others beside, are stored, each once."""
    if not collector.runs():
        collector.start()
    count = len(numbers)
    assert collector.send("web", upload(entries(A, numbers), count)) == f"ack {ID} 0 {count} {new} 0"
    collector.stops_with([*texts(numbers), *beside])
