"""What a journal has comes to the collector once, whatever becomes of its files meanwhile."""
import os
import shutil
import sqlite3
import time
from pathlib import Path

from collector import Collector
from conftest import Machine
from journals import BEGIN, MACHINE_ID, Entry, entries, offsets, write


def texts(logged: list[Entry]) -> list[str]:
    return sorted(each.message.strip() for each in logged)


def test_what_is_new_comes_once(machine: Machine, collector: Collector) -> None:
    machine.set(UPLOAD_BYTES=4000)
    first, second = entries("first", 30, pad=100), entries("second", 5, begin=1_800_000_000_000_000)
    machine.log_and_send(first)
    assert len(collector.uploads) > 2 and all(len(data) <= 4000 for data in collector.uploads)
    before = len(collector.uploads)
    assert machine.send() == 0, machine.said
    assert len(collector.uploads) == before
    machine.log_and_send(second)
    assert machine.outbox() == []
    assert collector.messages() == texts(first + second)


def test_rotation_users_and_namespaces(machine: Machine, collector: Collector) -> None:
    """Files get other names, others begin, and users and namespaces have their own."""
    logged = entries("system", 6) + entries("user", 4) + entries("apart", 3)
    write(machine.journal / "system.journal", logged[:3])
    write(machine.journal / "user-1000.journal", logged[6:10])
    write(machine.journals / f"{MACHINE_ID}.apart" / "system.journal", logged[10:])
    assert machine.send() == 0, machine.said
    write(machine.journal / "system.journal", logged[3:5])
    os.rename(machine.journal / "system.journal", machine.journal / "system@0005d0e1.journal")
    machine.log_and_send(logged[5:6])
    assert machine.said == ""
    assert collector.messages() == texts(logged)


def test_one_namespace(machine: Machine, collector: Collector) -> None:
    for name in (".apart", ".other"):
        write(machine.journals / (MACHINE_ID + name) / "system.journal", entries(f"apart of {name}", 1))
    write(machine.journal / "system.journal", entries("own", 1))
    machine.set(JOURNALS=machine.journals / f"{MACHINE_ID}.apart")
    assert machine.send() == 0, machine.said
    assert collector.messages() == ["apart of .apart 0"]


def test_a_volatile_journal(machine: Machine, collector: Collector) -> None:
    """It lies in a folder of its own. Of a file and a copy of it the one counts that went on."""
    run = machine.base / "run" / MACHINE_ID
    machine.set(JOURNALS=f"{machine.journals} {run.parent}")
    write(run / "system.journal", entries("early", 3))
    write(run / "user-1.journal", entries("user", 1))
    shutil.copy(run / "system.journal", machine.journal)
    machine.log_and_send(entries("late", 2, BEGIN + 60_000_000))
    (run / "system.journal").unlink()
    assert machine.send() == 0 and machine.said == ""
    assert collector.messages() == ["early 0", "early 1", "early 2", "late 0", "late 1", "user 0"]


def test_many_files_go_in_few_uploads(machine: Machine, collector: Collector) -> None:
    """Files of users that have one sequence, as journald writes them, go together."""
    write(machine.journal / "system.journal", entries("one", 2))
    for user in range(20):
        copy = machine.journal / f"user-{1000 + user}.journal"
        write(copy, entries(f"user {user}", 1))
        data = bytearray(copy.read_bytes())
        data[72:88] = (machine.journal / "system.journal").read_bytes()[72:88]
        # each has a number of its own
        for offset in (160, 168, offsets(copy)[0] + 16):
            data[offset:offset + 8] = (100 + user).to_bytes(8, "little")
        copy.write_bytes(data)
    assert machine.send() == 0, machine.said
    assert len(collector.uploads) == 1
    assert len(collector.messages()) == 22


def test_a_file_that_is_set_back_goes_once_more(machine: Machine, collector: Collector) -> None:
    """The file alone is set back, and goes on with other entries: these go on in a fork."""
    path = machine.journal / "system.journal"
    old, mine = entries("old", 3), entries("lost", 3, BEGIN + 100_000_000)
    other = entries("new", 4, BEGIN + 200_000_000)
    write(path, old)
    shutil.copy(path, machine.base / "snapshot")
    write(path, mine)
    assert machine.send() == 0, machine.said
    shutil.copy(machine.base / "snapshot", path)
    write(path, other)
    assert machine.send() == 1
    assert "was set back" in machine.said and "forked: " in machine.said
    assert machine.send() == 0, machine.said
    assert collector.messages() == texts(old + mine + other)
    assert len({sequence for sequence, _, _ in collector.stored()}) == 2


def test_set_back_with_as_many_entries(machine: Machine, collector: Collector) -> None:
    path = machine.journal / "system.journal"
    write(path, entries("old", 2))
    shutil.copy(path, machine.base / "snapshot")
    write(path, entries("lost", 2, begin=1_700_000_100_000_000))
    assert machine.send() == 0, machine.said
    shutil.copy(machine.base / "snapshot", path)
    write(path, entries("new", 2, begin=1_700_000_200_000_000))
    assert machine.send() == 1
    assert collector.messages() == ["lost 0", "lost 1", "new 0", "new 1", "old 0", "old 1"]


def test_removed_before_it_was_gathered(machine: Machine, collector: Collector) -> None:
    path = machine.journal / "system.journal"
    write(path, entries("one", 2))
    write(machine.journal / "user-1.journal", entries("user", 1))
    assert machine.send() == 0, machine.said
    write(path, entries("two", 2, begin=1_700_000_100_000_000))
    path.unlink()
    assert machine.send() == 1
    assert "a gap: " in machine.said
    assert machine.send() == 0 and machine.said == ""


def test_removed_after_it_was_gathered(machine: Machine, collector: Collector) -> None:
    """journald removes what it has archived, and that was gathered."""
    path = machine.journal / "system@00.journal"
    write(path, entries("one", 2))
    machine.log_and_send(entries("two", 2))
    path.unlink()
    assert machine.send() == 0 and machine.said == ""


def test_another_machine_id(machine: Machine, collector: Collector) -> None:
    """What lies in the folder of the id that this machine had is gathered, too; a container's isn't."""
    old = machine.journals / ("ab" * 16)
    write(old / "system.journal", entries("old", 1))
    write(machine.journals / ("cd" * 16) / "system.journal", entries("container", 1))
    patched = machine.base / "patched"
    patched.write_text(f"""import sys
sys.path.insert(0, {str(Path(__file__).resolve().parents[2] / 'deploy')!r})
from pathlib import Path
from journalcollect.machine import journal, run
journal.MACHINE_ID = Path({str(machine.base / 'machine-id')!r})
sys.exit(run.main())
""")
    (machine.base / "machine-id").write_text("ab" * 16 + "\n")
    command = ("/usr/bin/python3", "-IB", patched)
    assert machine.send(command=command) == 0, machine.said
    write(old / "system.journal", entries("old later", 1))
    (machine.base / "machine-id").write_text(MACHINE_ID + "\n")
    write(machine.journal / "system.journal", entries("new", 1))
    assert machine.send(command=command) == 0, machine.said
    assert collector.messages() == ["new 0", "old 0", "old later 0"]


def test_since(machine: Machine, collector: Collector) -> None:
    """What the first list of files has begins at SINCE; a clock that goes back later hides nothing."""
    machine.set(SINCE="@1700000003")
    machine.log_and_send(entries("first", 5))
    write(machine.journal / "user-1.journal", entries("later", 2, begin=1_000_000))
    assert machine.send() == 0, machine.said
    assert collector.messages() == ["first 3", "first 4", "later 0", "later 1"]


def test_since_is_looked_up_once(machine: Machine, collector: Collector) -> None:
    machine.set(SINCE="now")
    machine.log_and_send(entries("old", 2))
    machine.log_and_send([Entry("new", time.time_ns() // 1_000)])
    assert collector.messages() == ["new"]


def test_a_time_that_is_none(machine: Machine) -> None:
    machine.set(SINCE="soon")
    assert machine.send() == 2
    assert "soon" in machine.said


def test_again(machine: Machine, collector: Collector) -> None:
    """What the collector has is sent once more since a time, and stored once."""
    machine.log_and_send(entries("one", 5))
    before = len(collector.uploads)
    assert machine.send("--again", "@1700000003") == 0, machine.said
    assert len(collector.uploads) == before
    assert machine.send() == 0, machine.said
    assert [data.count(b"one ") for data in collector.uploads[before:]] == [2]
    assert len(collector.messages()) == 5


def test_a_folder_that_is_full(machine: Machine, collector: Collector) -> None:
    """Without a collector the outbox grows to FOLDER_BYTES; then all goes out in the end."""
    logged = entries("one", 60, pad=300)
    write(machine.journal / "system.journal", logged)
    machine.set(UPLOAD_BYTES=4000, FOLDER_BYTES=12000)
    assert 8000 <= sum(path.stat().st_size for path in machine.gather()) <= 12000
    assert "paused: " in machine.said
    assert machine.send() in (0, 1), machine.said
    assert machine.send() == 0, machine.said
    assert collector.messages() == texts(logged)


def test_places_that_are_lost(machine: Machine, collector: Collector) -> None:
    """All goes out once more, and is stored once."""
    machine.log_and_send(entries("one", 5))
    for damage in (b"", b"SQLite format 3\0" + bytes(5000), b"no database" * 1000):
        for end in ("", "-wal", "-shm"):
            (machine.folder / f"places.sqlite{end}").unlink(missing_ok=True)
        if damage:
            (machine.folder / "places.sqlite").write_bytes(damage)
        assert machine.send() == (1 if damage else 0), machine.said
    assert len(collector.uploads) == 4
    assert len(collector.messages()) == 5


def test_places_of_a_later_version(machine: Machine, collector: Collector) -> None:
    """An earlier program says why it puts them aside."""
    machine.log_and_send(entries("one", 5))
    with sqlite3.connect(machine.folder / "places.sqlite") as rows:
        rows.execute("PRAGMA user_version = 9")
    rows.close()
    assert machine.send() == 1 and "of version 9, and this program knows " in machine.said
    assert len(collector.messages()) == 5
