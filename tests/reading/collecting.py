"""A collector's folder, made by the real program without the service; and entries of machines."""
import hashlib
import itertools
import os
import shutil
import sqlite3
import struct
import subprocess
import sys
from dataclasses import dataclass, field
from pathlib import Path

import pytest

ROOT = Path(__file__).resolve().parents[2]
sys.path.insert(0, str(ROOT / "deploy"))
os.environ["PYTHONPATH"] = str(ROOT / "deploy")

from journalcollect.reading.present import Present  # noqa: E402

REMOTE = Path("/lib/systemd/systemd-journal-remote")
SEARCH = ROOT / "deploy" / "programs" / "journal-collect-search"
BEGIN = 1_790_000_000_000_000
NUMBERS = itertools.count(1)


def digits(*words: object) -> str:
    """An id that depends on nothing but some words."""
    return hashlib.md5(" ".join(map(str, words)).encode()).hexdigest()


@dataclass
class Entry:
    """An entry of a machine: when it came, in which boot, and its fields."""
    machine: str
    number: int
    realtime: int
    monotonic: int
    boot: str
    fields: dict[str, bytes | str]
    sequence: str = ""

    def text(self, with_key: bool = True) -> bytes:
        sequence = self.sequence or digits("sequence", self.machine)
        key = f"__SEQNUM={self.number}\n__SEQNUM_ID={sequence}\n" if with_key else ""
        head = f"__REALTIME_TIMESTAMP={self.realtime}\n__MONOTONIC_TIMESTAMP={self.monotonic}\n{key}"
        own = {"_BOOT_ID": self.boot, "_MACHINE_ID": digits("machine", self.machine),
               "_HOSTNAME": f"{self.machine}.lan"}
        return head.encode() + b"".join(spelled(*each) for each in (own | self.fields).items()) + b"\n"


def spelled(name: str, value: bytes | str) -> bytes:
    data = value.encode() if isinstance(value, str) else value
    if b"\n" in data or any(each < 32 and each != 9 for each in data):
        return name.encode() + b"\n" + struct.pack("<Q", len(data)) + data + b"\n"
    return name.encode() + b"=" + data + b"\n"


def plain(machine: str, number: int, message: str | bytes, realtime: int | None = None, **fields: str) -> Entry:
    at = BEGIN + number * 1_000_000 if realtime is None else realtime
    return Entry(machine, number, at, at - BEGIN + 50_000_000_000, digits("boot", machine),
                 {"MESSAGE": message, "PRIORITY": "6", "_TRANSPORT": "journal", **fields})


def upload(entries: list[Entry]) -> bytes:
    """An upload of version 2 that is to be whole."""
    return (b"JCUPLD02\x01\x01" + bytes(6) + hashlib.md5(b"%d" % next(NUMBERS)).digest()
            + struct.pack("<QQ", 0, len(entries)) + b"".join(each.text() for each in entries))


@dataclass
class Collector:
    """The folder, and what a service would know of it."""
    path: Path
    count: int = 0
    settings: dict[str, str] = field(default_factory=dict)

    def __post_init__(self) -> None:
        for name in ("databases", "sequences", "recent", "scratch"):
            (self.path / name).mkdir(parents=True)
        self.state = sqlite3.connect(self.path / "state.sqlite", isolation_level=None)
        self.state.execute("CREATE TABLE sequence(id TEXT, machine TEXT, PRIMARY KEY(id, machine))")
        self.state.execute("CREATE TABLE machine(name TEXT PRIMARY KEY, seen REAL, skew REAL)")
        config = self.path / "settings" / "collector.conf.d"
        config.mkdir(parents=True)
        lines = {"FOLDER": str(self.path), "FREE_BYTES": "0", **self.settings}
        (config / "test.conf").write_text("".join(f"{name}={value}\n" for name, value in lines.items()))

    @property
    def environment(self) -> dict[str, str]:
        return {**os.environ, "JOURNAL_COLLECT_SETTINGS": str(self.path / "settings"), "TZ": "UTC", "LC_ALL": "C.UTF-8"}

    def recent(self, name: str, entries: list[Entry]) -> Path:
        """An upload that is stored, as the service leaves it."""
        self.count += 1
        path = self.path / "recent" / name / f"{self.count:020}.{entries[0].machine}"
        path.parent.mkdir(exist_ok=True)
        new = self.path / ".upload"
        new.write_bytes(upload(entries))
        new.rename(path)
        return path

    def finish(self, name: str, uploads: list[Path] | None = None) -> None:
        """The database of what is in recent/NAME, finished."""
        given = uploads or sorted((self.path / "recent" / name).iterdir())
        self.store(name, given)
        for machine in {path.name.partition(".")[2] for path in given}:
            self.state.execute("INSERT OR IGNORE INTO sequence VALUES(?, ?)", (digits("sequence", machine), machine))

    def database(self, name: str, *entries: Entry) -> None:
        """A finished one of these entries, an upload for each machine, which is gone."""
        for machine in dict.fromkeys(entry.machine for entry in entries):
            self.recent(name, [entry for entry in entries if entry.machine == machine])
        self.finish(name)
        shutil.rmtree(self.path / "recent" / name)

    def store(self, name: str, uploads: list[Path]) -> None:
        database = self.path / "databases" / f"{name}.db"
        words = [os.environ["JOURNAL_COLLECT"], "collect", "--sequences", self.path / "sequences", "--tables", "3"]
        said = subprocess.run([*words, "--files-from", "-", database], input="".join(f"{path}\n" for path in uploads),
                              text=True, capture_output=True, check=True)
        assert all(line.startswith("ack ") for line in said.stdout.splitlines()), said.stdout
        Path(f"{database}-wal").unlink(missing_ok=True)
        Path(f"{database}.sha256").write_text(f"{hashlib.sha256(database.read_bytes()).hexdigest()}  {name}.db\n")

    def make(self, *words: str) -> subprocess.CompletedProcess[str]:
        """The maker of journal files."""
        return subprocess.run([sys.executable, "-B", "-m", "journalcollect.reading.making", *words, self.path],
                              env=self.environment, capture_output=True, text=True, check=False)

    def search(self, *words: str) -> subprocess.CompletedProcess[str]:
        return subprocess.run([SEARCH, *words], env=self.environment, capture_output=True, text=True, errors="replace",
                              check=False)

    def messages(self, *words: str) -> list[str]:
        done = self.search("-o", "cat", "-q", *words)
        assert done.returncode in (0, 1), done.stderr
        return done.stdout.splitlines()


@pytest.fixture
def collector(tmp_path: Path) -> Collector:
    return Collector(tmp_path / "collector")


__all__ = ["BEGIN", "Collector", "Entry", "Present", "REMOTE", "ROOT", "SEARCH", "digits", "plain"]
