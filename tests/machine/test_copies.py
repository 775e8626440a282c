"""Machines that are cloned under another name, set back in part, or reflashed: each entry that any of them logged is
stored once. Clones with the same key, and whole machines that are set back, are in tests/world."""
import shutil
import sqlite3
from pathlib import Path

from collector import Collector
from conftest import Machine
from journals import BEGIN, entries, write
from test_stops import settle


def copied(machine: Machine, to: Path) -> Machine:
    """A machine with all that this one has."""
    clone = Machine(to, machine.settings["CONNECT"])
    shutil.rmtree(clone.journals)
    shutil.copytree(machine.journals, clone.journals)
    shutil.copytree(machine.folder, clone.folder)
    return clone


def test_a_clone_with_a_name_of_its_own(machine: Machine, collector: Collector, tmp_path: Path) -> None:
    """What the other one's sequence has is refused with 71: the clone's goes on in one fork. It has a machine-id of its
    own, so it doesn't ask for what the other one sent, which the collector wouldn't tell it."""
    machine.log_and_send(entries("before", 3))
    clone = copied(machine, machine.base / "clone")
    write(machine.journal / "system.journal", entries("one", 2, BEGIN + 10_000_000))
    write(clone.journal / "system.journal", entries("two", 2, BEGIN + 10_000_000))
    settle(machine)
    with sqlite3.connect(clone.folder / "places.sqlite") as rows:
        rows.execute("UPDATE machine SET id = ?", ["ab" * 16])
    rows.close()
    collector.name, collector.knows = "clone", lambda sequence, number: False
    settle(clone)
    collector.name = "web"
    settle(machine)
    assert collector.messages() == ["before 0", "before 1", "before 2", "one 0", "one 1", "two 0", "two 1"]


def test_folder_alone_is_set_back(machine: Machine, collector: Collector) -> None:
    """Places and outbox are older than the journal: what they had goes out once more, and is stored once."""
    machine.log_and_send(entries("one", 3))
    shutil.copytree(machine.folder, machine.base / "snapshot")
    machine.log_and_send(entries("two", 3, BEGIN + 100_000_000))
    shutil.rmtree(machine.folder)
    shutil.copytree(machine.base / "snapshot", machine.folder)
    assert machine.send() == 0, machine.said
    assert len(collector.messages()) == 6 and len({sequence for sequence, _, _ in collector.stored()}) == 1


def test_another_sequence(machine: Machine, collector: Collector) -> None:
    """A reflashed machine: no folder, another journal, the same key."""
    machine.log_and_send(entries("one", 2))
    shutil.rmtree(machine.folder)
    shutil.rmtree(machine.journal)
    machine.log_and_send(entries("two", 2))
    assert collector.messages() == ["one 0", "one 1", "two 0", "two 1"]
    assert len({sequence for sequence, _, _ in collector.stored()}) == 2
