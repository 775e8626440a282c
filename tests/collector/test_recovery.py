"""Kills, and files that were damaged while the service didn't run or ran."""
import os
from pathlib import Path

import processes
import pytest
from conftest import A, B, ID, Collector, comes_again, entries, store_and_stop, texts, upload
from disks import Disk
from waiting import wait_until


def begun(collector: Collector, numbers: range = range(1, 4)) -> None:
    """A collector that has acknowledged some entries of a sequence, in a database that isn't finished."""
    collector.start("web")
    count = len(numbers)
    assert collector.send("web", upload(entries(A, numbers), count)) == f"ack {ID} 0 {count} {count} 0"


def test_what_was_acknowledged_is_there_after_a_kill(collector: Collector) -> None:
    begun(collector)
    collector.kill()
    (collector.folder / "state.sqlite").unlink()
    comes_again(collector, range(1, 5), 1)
    assert len(collector.databases()) == 2


def test_the_program_is_killed_and_nothing_is_lost(collector: Collector) -> None:
    begun(collector)
    assert collector.process
    for child in processes.children(collector.process.pid):
        processes.kill(child)
    comes_again(collector, range(1, 5), 1)


def killed(collector: Collector) -> Path:
    """The database with an entry more, of another sequence, once the service is killed."""
    begun(collector)
    assert collector.send("web", upload(entries(B, [5]), 1)) == f"ack {ID} 0 1 1 0"
    collector.kill()
    [database] = collector.databases()
    return database


def test_an_unfinished_database_that_is_damaged_is_stored_again_from_its_uploads(collector: Collector) -> None:
    database = killed(collector)
    database.write_bytes(b"x" * 20480)
    database.with_name(database.name + "-wal").unlink(missing_ok=True)
    comes_again(collector, range(1, 4), 0, (B, 5, b"m5"))
    assert (collector.folder / "quarantine" / database.name).read_bytes() == b"x" * 20480
    assert collector.rows("SELECT cause FROM told WHERE cause LIKE 'quarantined %'")


@pytest.mark.parametrize("name", ["databases/{}.db", "databases/{}.db-wal", "recent/{}/000000001.web", "recent/{}"])
def test_what_the_disk_cannot_read_of_an_unfinished_database(collector: Collector, disk: Disk, name: str) -> None:
    """It can't be moved either. It holds nothing up, is told, and what was acknowledged is stored."""
    database = killed(collector)
    damaged = collector.folder / name.format(database.stem)
    disk.damage(damaged)
    for _ in range(2):
        comes_again(collector, range(1, 4), 0, (B, 5, b"m5"))
    assert ("recent" in name) or collector.rows("SELECT 1 FROM told WHERE cause = ?", f"unreadable {damaged}")


def test_what_the_disk_cannot_read_is_stored_once_it_can(collector: Collector, disk: Disk) -> None:
    """An upload of a database that has to be set aside."""
    database = killed(collector)
    damaged = collector.folder / "recent" / database.stem / "000000001.web"
    disk.damage(damaged)
    disk.damage(database)
    collector.start()
    assert collector.send("web", upload(entries(B, [5]), 1)) == f"ack {ID} 0 1 0 0"
    collector.stops_with([(B, 5, b"m5")])
    told = "SELECT 1 FROM told WHERE cause = ?"
    assert all(collector.rows(told, f"unreadable {path}") for path in (damaged, database))
    disk.mend()
    comes_again(collector, range(1, 4), 0, (B, 5, b"m5"))
    assert not damaged.exists() and (collector.folder / "quarantine" / database.name).exists()


@pytest.mark.parametrize("end", [".db", ".db.sha256"])
def test_what_the_disk_cannot_read_of_a_finished_database(collector: Collector, disk: Disk, end: str) -> None:
    """It holds nothing up, is told, and still goes after its days."""
    store_and_stop(collector, range(1, 4))
    [database] = collector.databases()
    disk.damage(database.with_suffix(end))
    store_and_stop(collector, range(1, 7))
    answers = collector.admin("check")
    assert answers.returncode == 1 and database.stem in answers.stdout
    collector.rows("UPDATE database SET age = -100 WHERE name = ?", database.stem)
    for numbers in (range(7, 10), range(10, 13)):
        collector.start()
        wait_until(lambda: collector.rows("SELECT 1 FROM database WHERE standing = 'deleted'"))
        assert collector.send("web", upload(entries(A, numbers), 3)) == f"ack {ID} 0 3 3 0"
        assert collector.stop() == 0


def test_the_notes_of_a_window_are_made_anew_whatever_became_of_it(collector: Collector) -> None:
    store_and_stop(collector, range(1, 4))
    store_and_stop(collector, range(4, 7))
    window = collector.folder / "sequences" / A / "0"
    before = window.read_bytes()

    for damage in (None, b"", before[:60], bytes(len(before)), "folder"):
        if isinstance(damage, bytes):
            window.write_bytes(damage)
        else:
            window.unlink()
        if damage == "folder":
            window.mkdir()
        comes_again(collector, range(1, 7), 0)
        assert window.read_bytes() == before, damage
    assert str(window) in collector.said()


def test_a_window_that_is_damaged_while_the_service_runs_sets_no_database_aside(collector: Collector) -> None:
    store_and_stop(collector, range(1, 4))
    collector.start()
    assert collector.send("web", upload(entries(B, [1]), 1)) == f"ack {ID} 0 1 1 0"
    window = collector.folder / "sequences" / A / "0"
    window.unlink()
    window.mkdir()
    answers: list[str] = []

    def is_taken() -> bool:
        answers.append(collector.send("web", upload(entries(A, range(1, 5)), 4)))
        return not answers[-1].startswith("later")

    wait_until(is_taken)
    assert answers[-1] == f"ack {ID} 0 4 1 0"
    assert collector.stop() == 0
    assert collector.rows("SELECT name FROM database WHERE standing <> 'finished'") == []
    assert collector.stored() == [*texts(range(1, 5)), (B, 1, b"m1")]


def test_a_byte_of_a_note_that_changed_by_itself_is_found_by_the_check(collector: Collector) -> None:
    store_and_stop(collector, range(1, 4))
    window = collector.folder / "sequences" / A / "0"
    before, told = window.read_bytes(), window.stat()
    window.write_bytes(before[:41 + 1] + bytes([before[42] ^ 1]) + before[43:])
    os.utime(window, ns=(told.st_atime_ns, told.st_mtime_ns))
    collector.start()
    collector.connect("web").close()
    said = collector.ask("check")
    assert said[-1]["status"] == 1 and A in str(said)
    assert window.read_bytes() == before
    assert collector.send("web", upload(entries(A, range(1, 4)), 3)) == f"ack {ID} 0 3 0 0"
    assert collector.stop() == 0


def test_what_a_missing_database_had_is_stored_if_it_comes_again(collector: Collector) -> None:
    store_and_stop(collector, range(1, 4))
    store_and_stop(collector, range(4, 7))
    first = collector.databases()[0]
    first.unlink()
    first.with_name(first.name + ".sha256").unlink()
    comes_again(collector, range(1, 7), 3)
    assert f"{first.stem} is missing" in collector.said()


def test_state_that_is_damaged_or_gone_is_made_anew(collector: Collector) -> None:
    store_and_stop(collector, range(1, 4))
    store_and_stop(collector, range(4, 7))
    databases = "SELECT name, standing, first, last, entries, bytes, digest FROM database"
    windows = "SELECT sequence, window, notes, sum FROM noted"
    known, noted = collector.rows(databases), collector.rows(windows)
    for damage in (lambda path: path.unlink(), lambda path: path.write_bytes(b"no table" * 1000)):
        damage(collector.folder / "state.sqlite")
        comes_again(collector, range(1, 7), 0)
        assert collector.rows(databases) == known
        assert collector.rows(windows) == noted
        assert collector.rows("SELECT id, machine FROM sequence") == [(A, "web")]


def test_a_copy_by_hard_links_of_an_unfinished_database_stays_as_it_is(collector: Collector, tmp_path: Path) -> None:
    begun(collector)
    collector.kill()
    [database] = collector.databases()
    copies = {path: tmp_path / path.name for path in (database, database.with_name(database.name + "-wal"))}
    for path, copy in copies.items():
        os.link(path, copy)
    before = {copy: copy.read_bytes() for copy in copies.values()}
    collector.start()
    collector.send("web", upload(entries(A, range(1, 5)), 4))
    assert collector.stop() == 0
    assert {copy: copy.read_bytes() for copy in copies.values()} == before
    assert collector.stored() == texts(range(1, 5))


def test_a_full_disk_is_told_later_and_nothing_is_lost(collector: Collector) -> None:
    begun(collector)
    assert collector.stop() == 0
    collector.values["FREE_BYTES"] = str(10**17)
    collector.start()
    answer = collector.send("web", upload(entries(A, range(1, 5)), 4))
    assert answer.startswith("later only ")
    assert "FREE_BYTES" in collector.said()
    assert collector.stop() == 0
    assert collector.rows("SELECT count FROM told WHERE cause = 'room'") == [(1,)]
    collector.values["FREE_BYTES"] = "0"
    store_and_stop(collector, range(1, 5))
    assert collector.stored() == texts(range(1, 5))
    assert collector.rows("SELECT count FROM told WHERE cause = 'room'") == []


def test_a_program_of_another_version_stores_nothing(collector: Collector, tmp_path: Path) -> None:
    other = tmp_path / "other"
    other.write_text("#!/bin/sh\necho journal-collect 0.0.9\n")
    other.chmod(0o755)
    collector.program = other
    collector.start()
    assert collector.ended() == 2
    assert "0.0.9" in collector.said()
    assert not (collector.folder / "databases").exists()
