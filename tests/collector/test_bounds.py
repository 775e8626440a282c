"""What a machine may not do: each bound is answered, told once, and holds up nobody else."""
import contextlib
import re
import subprocess
import time
from pathlib import Path

import pytest
from conftest import A, B, ID, PROGRAM, Collector, entries, entry, upload
from waiting import PATIENCE, wait_until


def causes(collector: Collector) -> dict[str, int]:
    collector.ask("status")
    return dict(collector.rows("SELECT cause, count FROM told"))  # type: ignore[arg-type]


def test_only_whole_export_uploads_of_some_size_come(collector: Collector) -> None:
    collector.start("web")
    web = collector.connect("web")
    assert web.send(b"JCUPLD02\1\0" + upload(entries(A, [1]), 1)[10:]).startswith("never it is no upload of a stream")
    assert web.send(b"JCUPLD02\2\0" + bytes(300)).startswith("never it is no upload of a stream")
    assert web.send(b"JCUPLD01" + upload(entries(A, [1]), 1)[8:]).startswith("never it is no upload of a stream")
    assert web.send(b"").startswith("never it is no upload of a stream")
    assert web.send(bytes((36 << 20) + 1)) == "never it has over 36 MiB"
    large = entry(A, 1, MESSAGE="x" * (1 << 20))
    assert web.send(upload(large + entry(A, 2), 2)) == "never it has over 1 MiB, and more than one entry"
    assert web.send(upload(large, 1)) == f"ack {ID} 0 1 1 0"
    assert web.send(upload(entries(A, [2]), 1)) == f"ack {ID} 0 1 1 0"
    assert causes(collector)["never web"] == 6
    assert collector.said().count("web: it ") == 1
    assert collector.stop() == 0


def test_a_day_has_a_share_of_bytes(collector: Collector) -> None:
    data = upload(entries(A, [1]), 1)
    collector.values["DAY_BYTES"] = str(len(data))
    collector.start("web", "mail")
    web = collector.connect("web")
    assert web.send(data).startswith("ack")
    assert web.send(data) == f"later it has sent DAY_BYTES, {len(data)}, today"
    assert collector.send("mail", upload(entries(B, [1]), 1)).startswith("ack")
    assert "later web" in causes(collector)
    collector.rows("UPDATE machine SET day = '2000-01-01'")
    assert collector.stop() == 0


def test_the_newest_connection_ends_the_oldest(collector: Collector) -> None:
    collector.start("web")
    there = [collector.connect("web") for _ in range(5)]
    assert there[0].line() == ""
    for each in there[1:]:
        assert each.send(upload(entries(A, [1]), 1)).startswith("ack")
    assert "connections web" in causes(collector)
    assert collector.ask("status")[0]["say"]["connections"] == {"web": 4}  # type: ignore[index]
    assert collector.stop() == 0


def test_thousands_of_sequences_and_windows_are_refused_at_once_beside_others(collector: Collector) -> None:
    collector.start("hostile", *(f"m{number}" for number in range(4)))
    sequences = b"".join(entry(f"{number:032x}", 1) for number in range(1, 3901))
    windows = b"".join(entry(A, 1 + 4096 * number) for number in range(3900))
    others = [collector.connect(f"m{number}") for number in range(4)]
    assert others[0].send(upload(entries(B, [1]), 1)).startswith("ack")
    hostile = collector.connect("hostile")
    hostile.put(upload(sequences, 3900))
    for number, other in enumerate(others):
        other.put(upload(entries(f"{number:032d}", [1]), 1))
    assert hostile.line() == "never it touches over 16 files of notes"
    assert all(other.line() == f"ack {ID} 0 1 1 0" for other in others)
    assert hostile.send(upload(windows, 3900)) == "never it touches over 16 files of notes"
    assert not (collector.folder / "sequences" / A).exists()
    assert len(list((collector.folder / "sequences").iterdir())) == 5
    assert collector.stop() == 0


def test_an_upload_whose_files_of_notes_cannot_be_counted_comes_again(collector: Collector, tmp_path: Path) -> None:
    """The program is killed as it counts them, as where memory is short."""
    odd = tmp_path / "odd"
    odd.write_text(f'#!/bin/bash\n[[ $1 != inspect ]] || kill -KILL $$\nexec {PROGRAM} "$@"\n')
    odd.chmod(0o755)
    collector.program = odd
    collector.start("web")
    data = upload(b"".join(entry(A, 1 + 4096 * number) for number in range(3)), 3)
    assert collector.send("web", data) == ""
    wait_until(lambda: "web: Failed: journal-collect inspect: status -9" in collector.said())
    collector.stops_with([])


def test_new_files_of_notes_have_a_share_of_the_day(collector: Collector) -> None:
    collector.start("web")
    web = collector.connect("web")
    assert web.send(upload(b"".join(entry(A, 1 + 4096 * number) for number in range(16)), 16)).startswith("ack")
    assert web.send(upload(entries(A, [2, 3]), 2)).startswith("ack")
    assert web.send(upload(entries(A, [1 << 40]), 1)).startswith("ack")
    collector.ask("status")
    assert collector.rows("SELECT windows FROM machine") == [(17,)]
    assert collector.stop() == 0
    collector.rows("UPDATE machine SET windows = 10001")
    collector.start()
    assert collector.send("web", upload(entries(A, [4]), 1)).startswith("later its entries made over 10000 files")
    assert collector.stop() == 0


def test_a_file_of_notes_counts_once_though_it_is_made_later(collector: Collector) -> None:
    collector.start("web")
    web = collector.connect("web")

    def counted(*numbers: int) -> object:
        assert web.send(upload(entries(A, list(numbers)), len(numbers))).startswith("ack")
        collector.ask("status")
        return collector.rows("SELECT windows FROM machine")[0][0]

    spread = [1 + 4096 * number for number in range(4)]
    assert [counted(1), counted(2), counted(*spread), counted(*spread)] == [1, 1, 4, 4]
    assert not (collector.folder / "sequences" / A / "0").exists()
    collector.ask("finish")
    assert (collector.folder / "sequences" / A / "0").exists()
    assert [counted(3), counted(*spread), counted(4 * 4096), counted(4 * 4096 + 1)] == [4, 4, 5, 5]
    assert collector.stop() == 0


def test_a_database_is_finished_before_it_has_many_files_of_notes_to_make(collector: Collector) -> None:
    """Whatever else comes waits for these."""
    collector.start("web")
    web = collector.connect("web")
    for first in range(0, 528, 16):
        assert not list((collector.folder / "databases").glob("*.sha256"))
        spread = [1 + 4096 * number for number in range(first, first + 16)]
        assert web.send(upload(entries(A, spread), 16)) == f"ack {ID} 0 16 16 0"
    wait_until(lambda: list((collector.folder / "databases").glob("*.sha256")))
    assert len([path for path in (collector.folder / "sequences" / A).iterdir()]) == 528 + 1
    assert web.send(upload(entries(A, [1, 2]), 2)) == f"ack {ID} 0 2 1 0"
    assert collector.stop() == 0


def test_a_message_that_looks_like_many_entries_counts_for_none(collector: Collector) -> None:
    """A user of a machine logs lines that look like numbers of entries."""
    collector.start("web")
    text = b"".join(b"\n__SEQNUM=%d\n__SEQNUM_ID=%032x" % (4096 * number, number) for number in range(1000))
    odd = entry(A, 1)[:-1] + b"MESSAGE\n" + len(text).to_bytes(8, "little") + text + b"\n\n"
    assert collector.send("web", upload(odd, 1)) == f"ack {ID} 0 1 1 0"
    collector.ask("status")
    assert collector.rows("SELECT windows FROM machine") == [(1,)]
    assert collector.stop() == 0
    assert collector.rows("SELECT id FROM sequence") == [(A,)]


def test_the_program_has_bounds_of_memory_and_time(collector: Collector) -> None:
    collector.start("web")
    assert collector.send("web", upload(entries(A, [1]), 1)) == f"ack {ID} 0 1 1 0"
    [program] = collector.programs()
    bounds = dict(re.findall(r"^(Max [a-z ]+?)  +(\w+)", Path(f"/proc/{program}/limits").read_text(), re.MULTILINE))
    assert bounds["Max address space"] == str(1 << 30)
    assert 60 < int(bounds["Max cpu time"]) < 70
    assert collector.stop() == 0


@pytest.mark.parametrize("by", ["SIGSEGV", "SIGXCPU"])
def test_what_ends_the_program_is_to_come_smaller_and_others_are_stored(
        collector: Collector, tmp_path: Path, by: str) -> None:
    """A program that is ended by a signal of its own, or for its time, when an upload has a word. It takes a while to
    end, as where the disk is slow."""
    odd = tmp_path / "odd"
    odd.write_text(f"""#!/usr/bin/python3
import os, signal, subprocess, sys, time
if sys.argv[1] != "collect" or sys.argv[-2] != "-":
    os.execv("{PROGRAM}", ["{PROGRAM}", *sys.argv[1:]])
real = subprocess.Popen(["{PROGRAM}", *sys.argv[1:]], stdin=subprocess.PIPE)
for line in sys.stdin:
    if b"KILLER" in open(line.rstrip("\\n").partition("\\t")[2], "rb").read():
        real.kill()
        real.wait()
        os.close(1)
        time.sleep(1)
        signal.signal(signal.{by}, signal.SIG_DFL)
        os.kill(os.getpid(), signal.{by})
    real.stdin.write(line.encode())
    real.stdin.flush()
real.stdin.close()
sys.exit(real.wait())
""")
    odd.chmod(0o755)
    collector.program = odd
    collector.start("web", "mail")
    mail, web = collector.connect("mail"), collector.connect("web")
    assert mail.send(upload(entries(B, [1]), 1)) == f"ack {ID} 0 1 1 0"
    web.put(upload(entries(A, [1], "KILLER"), 1))
    mail.put(upload(entries(B, [2]), 1))
    assert web.line() == "smaller it ended the program"
    assert mail.line() == f"ack {ID} 0 1 1 0"
    assert web.send(upload(entries(A, [2]), 1)) == f"ack {ID} 0 1 1 0"
    collector.stops_with([(A, 2, b"m2"), (B, 1, b"m1"), (B, 2, b"m2")])
    assert "smaller web" in dict(collector.rows("SELECT cause, count FROM told"))


def test_a_disk_without_files_left_is_told_later(collector: Collector, tmp_path: Path) -> None:
    """A file system of its own, with few inodes."""
    with collector.on_disk(tmp_path / "disk", "nr_inodes=9000"):
        collector.start("web")
        assert collector.send("web", upload(entries(A, [1]), 1)).startswith("later only ")
        assert "more files can be made" in collector.said()
        assert collector.stop() == 0


def test_a_full_disk_loses_nothing_and_all_goes_on_when_it_has_room(collector: Collector, tmp_path: Path) -> None:
    """A file system of 6 MiB, filled to its last byte, as no FREE_BYTES keeps anything free."""
    with collector.on_disk(tmp_path / "disk", "size=6m"):
        collector.values["DATABASE_BYTES"] = "1000000"
        collector.start("web")
        acknowledged, first, end = 0, 1, time.monotonic() + PATIENCE
        while time.monotonic() < end:
            answer = collector.send("web", upload(entries(A, range(first, first + 500), "x" * 300), 500))
            if not answer.startswith("ack"):
                break
            acknowledged, first = first + 499, first + 500
        assert answer.startswith("later"), answer
        subprocess.run(["mount", "-o", "remount,size=64m", collector.folder], check=True)
        while not answer.startswith("ack"):
            assert time.monotonic() < end + PATIENCE, answer
            answer = collector.send("web", upload(entries(A, range(first, first + 500), "x" * 300), 500))
        assert re.fullmatch(f"ack {ID} 0 500 (0|500) 0", answer), answer      # what was told later may be stored
        assert acknowledged >= 500
        assert collector.stop() == 0
        assert [number for _, number, _ in collector.stored()] == list(range(1, first + 500))
        assert collector.rows("SELECT name FROM database WHERE standing <> 'finished'") == []


@pytest.mark.parametrize("damage", ["gone", "overwritten"])
def test_a_service_that_begins_on_a_full_disk_is_begun_again(
        collector: Collector, tmp_path: Path, damage: str) -> None:
    """It can't make a table. That is no damage: what was damaged is set aside once, and what is new never."""
    with collector.on_disk(tmp_path / "disk", "size=6m"):
        collector.start("web")
        assert collector.send("web", upload(entries(A, [1]), 1)) == f"ack {ID} 0 1 1 0"
        assert collector.stop() == 0
        (collector.folder / "state.sqlite").unlink()
        if damage == "overwritten":
            (collector.folder / "state.sqlite").write_bytes(b"no table" * 1000)
        with contextlib.suppress(OSError), open(collector.folder / "others", "wb", buffering=0) as file:
            while file.write(bytes(4096)):
                pass
        for _ in range(3):
            collector.start()
            assert collector.ended() == 3
        assert collector.said().count("disk is full: look at the disk of its FOLDER") == 3
        assert "Traceback" not in collector.said()
        assert len(list((collector.folder / "quarantine").iterdir())) == (damage == "overwritten")
        (collector.folder / "others").unlink()
        collector.start()
        assert collector.send("web", upload(entries(A, [1, 2]), 2)) == f"ack {ID} 0 2 1 0"
        collector.stops_with([(A, 1, b"m1"), (A, 2, b"m2")])
