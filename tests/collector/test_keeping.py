"""How long things are kept, and how finished databases are packed."""
import os
import shutil
import subprocess
from pathlib import Path

import pytest
from conftest import A, B, ID, Collector, entries, store_and_stop, upload
from disks import Disk
from waiting import wait_until

NEEDS_REMOTE = pytest.mark.skipif(not Path("/lib/systemd/systemd-journal-remote").exists(),
                                  reason="there is no systemd-journal-remote")


def grow_older(collector: Collector, days: float) -> None:
    """The collector runs for so many days."""
    collector.rows("UPDATE clock SET days = days + ?", days)


def test_databases_and_notes_go_after_their_days(collector: Collector) -> None:
    store_and_stop(collector, range(1, 4))
    store_and_stop(collector, range(1, 3), B)
    first, second = collector.databases()
    collector.rows("UPDATE database SET age = age + 20 WHERE name = ?", second.stem)
    collector.rows("UPDATE noted SET age = age + 20 WHERE sequence = ?", B)
    grow_older(collector, 30.5)
    collector.start()
    wait_until(lambda: f"deleted: {first.stem}, 30.5 days after" in collector.said())
    assert not first.exists() and not first.with_name(first.name + ".sha256").exists() and second.exists()
    assert collector.send("web", upload(entries(B, [9]), 1)) == f"ack {ID} 0 1 1 0"
    assert collector.stop() == 0
    assert not (collector.folder / "sequences" / A).exists()
    assert collector.rows("SELECT sequence, notes FROM noted") == [(B, 3)]
    store_and_stop(collector, range(1, 4))
    assert "missing" not in collector.said()


def test_the_clock_of_the_day_deletes_nothing(collector: Collector) -> None:
    store_and_stop(collector, range(1, 4))
    collector.rows("UPDATE clock SET wall = wall - 40 * 86400, boot = 'another'")
    collector.start()
    wait_until(lambda: "40 days more went by" in collector.said())
    assert len(collector.databases()) == 1
    assert collector.admin("passed", "41").returncode == 1
    assert collector.admin("passed", "40").returncode == 0
    assert collector.stop() == 0
    collector.start()
    wait_until(lambda: not collector.databases())
    assert collector.stop() == 0


def test_each_day_all_databases_are_looked_at(collector: Collector) -> None:
    """Nobody asks for it."""
    store_and_stop(collector, range(1, 4))
    [path] = collector.databases()
    path.write_bytes(path.read_bytes().replace(b"m2", b"M2"))
    collector.start()
    wait_until(collector.is_begun)
    assert collector.stop() == 0
    assert "isn't as it was finished" not in collector.said()
    grow_older(collector, 1.5)
    collector.start()
    wait_until(lambda: f"{path} isn't as it was finished: restore it" in collector.said())
    assert collector.stop() == 0


def test_the_oldest_go_if_all_have_too_many_bytes(collector: Collector) -> None:
    for number in range(1, 4):
        store_and_stop(collector, range(number, number + 1))
    size = sum(path.stat().st_size for path in collector.databases()[1:])
    names = [path.name for path in collector.databases()]
    collector.values["KEEP_BYTES"] = str(size)
    collector.start()
    wait_until(lambda: "over KEEP_BYTES" in collector.said())
    assert [path.name for path in collector.databases()] == names[1:]
    assert collector.stop() == 0


@NEEDS_REMOTE
def test_journal_files_leave_their_room_to_what_is_stored(collector: Collector) -> None:
    """Packing doesn't wait for them then. Those of the present stay."""
    journals = collector.folder / "journals"
    store_and_stop(collector, range(1, 4))
    [first] = collector.databases()
    made = journals / "today" / f"{first.stem}.journal"
    collector.start()
    wait_until(made.with_suffix(".json").exists)
    wait_until(collector.is_begun)
    assert collector.stop() == 0
    collector.values |= {"FREE_BYTES": str(shutil.disk_usage(collector.folder).free * 3 // 4), "PACK_DAYS": "0"}
    store_and_stop(collector, range(4, 7))
    second = collector.databases()[-1]
    collector.start()
    assert collector.send("web", upload(entries(A, range(7, 10)), 3)) == f"ack {ID} 0 3 3 0"
    wait_until(lambda: not made.exists() and second.with_name(second.name + ".zst").exists())
    wait_until(lambda: len(list((journals / "present").glob("*.journal"))) == 1)
    assert collector.stop() == 0
    assert not (journals / "today" / f"{second.stem}.json").exists()
    assert collector.rows("SELECT 1 FROM told WHERE cause = 'journals'")
    collector.values["FREE_BYTES"] = "0"
    assert collector.admin("rebuild", "--journals").returncode == 0
    assert made.exists() and (journals / "today" / f"{second.stem}.journal").exists()
    assert not collector.rows("SELECT 1 FROM told WHERE cause = 'journals'")


@NEEDS_REMOTE
def test_a_database_that_the_disk_cannot_read_holds_up_no_packing(collector: Collector, disk: Disk) -> None:
    store_and_stop(collector, range(1, 4))
    store_and_stop(collector, range(4, 7))
    first, second = collector.databases()
    collector.start()
    wait_until(lambda: len(list((collector.folder / "journals" / "today").glob("*.json"))) == 2)
    wait_until(collector.is_begun)
    assert collector.stop() == 0
    disk.damage(first)
    collector.values["PACK_DAYS"] = "0"
    collector.start()
    wait_until(second.with_name(second.name + ".zst").exists)
    assert collector.stop() == 0
    assert collector.rows("SELECT 1 FROM told WHERE cause = ?", f"damaged {first.stem}")


@NEEDS_REMOTE
def test_a_finished_database_is_packed_once_journal_files_are_made(
        collector: Collector, tmp_path: Path) -> None:
    store_and_stop(collector, range(1, 400))
    [path] = collector.databases()
    collector.values["PACK_DAYS"] = "0"
    packed = path.with_name(path.name + ".zst")
    collector.start()
    wait_until(lambda: packed.exists() and not path.exists())
    assert packed.stat().st_size < collector.rows("SELECT bytes FROM database")[0][0] // 2  # type: ignore[operator]
    assert collector.send("web", upload(entries(A, range(1, 400)), 399)) == f"ack {ID} 0 399 0 0"
    assert collector.admin("check").returncode == 0
    assert collector.admin("backup", tmp_path / "backup").returncode == 0
    assert collector.stop() == 0
    (collector.folder / "state.sqlite").unlink()
    window = collector.folder / "sequences" / A / "0"
    before = window.read_bytes()
    os.truncate(window, 100)
    collector.start()
    assert collector.send("web", upload(entries(A, range(1, 400)), 399)) == f"ack {ID} 0 399 0 0"
    assert collector.stop() == 0
    assert window.read_bytes() == before
    packed.write_bytes(packed.read_bytes()[:-9])
    assert collector.admin("check").returncode == 1
    assert collector.admin("restore", tmp_path / "backup").returncode == 0
    assert collector.admin("check").returncode == 0
    subprocess.run(["zstd", "-dq", packed], check=True)
    subprocess.run(["sha256sum", "--check", "--quiet", f"{path.name}.sha256"], cwd=path.parent, check=True)
