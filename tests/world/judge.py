"""What was acknowledged, what databases have, and what may not be: an entry that is missing, or there twice, untold."""
from __future__ import annotations

import hashlib
import io
import subprocess
import sys
from collections import Counter
from collections.abc import Iterator
from pathlib import Path
from typing import NamedTuple

from computers import PROGRAM, Collector, Machine

sys.path.append(str(Path(__file__).parents[1] / "shared"))
from export_streams import pairs_of  # noqa: E402

HEAD = 48


class Entry(NamedTuple):
    """The key, a digest of all its fields, and the message."""
    sequence: str
    number: int
    digest: bytes
    message: str


def entries_of(text: bytes) -> Iterator[Entry]:
    """Keys are compared as numbers and ids, and fields in any order; a cursor says nothing that isn't in the key."""
    for fields in pairs_of(io.BytesIO(text)):
        own = dict(fields)
        content = sorted(field for field in fields if field[0] not in (b"__CURSOR", b"__SEQNUM", b"__SEQNUM_ID"))
        yield Entry(own[b"__SEQNUM_ID"].decode().lower(), int(own[b"__SEQNUM"]),
                    hashlib.sha256(repr(content).encode()).digest(), own.get(b"MESSAGE", b"").decode(errors="replace"))


def acknowledged(machine: Machine) -> set[Entry]:
    """The entries of all uploads that the collector acknowledged, as their link saw it."""
    return {entry for path in machine.ledger.iterdir() if not path.name.startswith("new.")
            for entry in entries_of(path.read_bytes()[HEAD:])}


def stored(collector: Collector) -> Iterator[Entry]:
    """What `journal-collect export` gives of all databases. Packed ones are unpacked beside the world."""
    copy = collector.folder / "copy.db"
    for path in sorted((collector.data / "databases").iterdir()):
        if path.name.endswith(".db"):
            copy.write_bytes(path.read_bytes())
        elif path.name.endswith(".db.zst"):
            subprocess.run(["zstd", "-q", "-d", "-f", "-o", copy, path], check=True)
        else:
            continue
        log = path.with_name(path.name + "-wal")
        copy.with_name("copy.db-wal").write_bytes(log.read_bytes() if log.exists() else b"")
        told = subprocess.run([PROGRAM, "export", copy], capture_output=True, check=False)
        if told.returncode:
            raise AssertionError(f"{path}: {told.stderr.decode()}")
        yield from entries_of(told.stdout)


class Judge:
    """Gathers what is wrong. A loss is allowed only of what `lost` names: the world knows what it took away."""

    def __init__(self, collector: Collector, machines: list[Machine]) -> None:
        self.machines = machines
        self.stored = list(stored(collector))
        self.wrong: list[str] = []

    def judge(self, lost: set[Entry]) -> list[str]:
        self.nothing_twice()
        self.nothing_lost(lost)
        for machine in self.machines:
            self.all_came(machine)
            self.once_each(machine)
        return self.wrong

    def nothing_twice(self) -> None:
        keys = Counter(entry[:2] for entry in self.stored)
        self.tell("stored twice", [key for key, count in keys.items() if count > 1])

    def nothing_lost(self, lost: set[Entry]) -> None:
        there = set(self.stored)
        for machine in self.machines:
            self.tell(f"{machine.name}: acknowledged, and not stored", acknowledged(machine) - there - lost)

    def all_came(self, machine: Machine) -> None:
        """Nothing that its journal has stayed behind: it is stored, under a key of its own or of a fork."""
        there = {entry.message for entry in self.stored}
        self.tell(f"{machine.name}: in the journal, and not stored", machine.journal.messages() - there)

    def once_each(self, machine: Machine) -> None:
        """An entry has two keys only if it was forked, which was told."""
        twice = Counter(entry.message for entry in acknowledged(machine))
        found = [message for message, count in twice.items() if count > 1]
        if "forked" not in machine.said:
            self.tell(f"{machine.name}: under two keys, and nothing was forked", found)

    def tell(self, what: str, found: object) -> None:
        if isinstance(found, (set, list)) and found:
            self.wrong.append(f"{what}: {len(found)}, such as {sorted(map(str, found))[0][:160]}")
