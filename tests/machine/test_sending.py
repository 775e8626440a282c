"""Answers, refusals and links: what is logged comes in the end, and nothing waits behind what can't be sent."""
import os
import re
import sqlite3
import threading
import time
from pathlib import Path

from collector import PROGRAM, Collector, Cut
from conftest import Machine
from journals import BEGIN, Entry, entries, write
from waiting import PATIENCE, wait_until


def rest(machine: Machine) -> None:
    """What rests may go out now."""
    with sqlite3.connect(machine.folder / "places.sqlite") as rows:
        rows.execute("UPDATE try SET until = 0")
    rows.close()


def entries_of(data: bytes) -> int:
    return int.from_bytes(data[40:48], "little")


def test_nothing_is_deleted_without_an_acknowledgement(machine: Machine, collector: Collector) -> None:
    """Answers about something else, of other counts, cut ones and lies about codes delete nothing."""
    write(machine.journal / "system.journal", entries("one", 3))
    answers = [
        lambda data: f"ack {'ab' * 16} 0 3 3 0",
        lambda data: f"ack {data[16:32].hex()} 0 2 2 0",
        lambda data: f"ack {data[16:32].hex()} 1 3 3 0",
        lambda data: f"ack {data[16:32].hex()} 0 3 3 1",
        lambda data: f"no {data[16:32].hex()} 0 62 0",
        lambda data: f"no {data[16:32].hex()} 0 61 0",
        lambda data: f"no {data[16:32].hex()} 0 63 0",
        lambda data: "ack",
        lambda data: "later the disk is full",
    ]
    for each in answers:
        collector.before = each
        assert machine.send() > 0
        assert len(machine.outbox()) == 1
        rest(machine)
    first = collector.uploads[0]
    assert all(data == first for data in collector.uploads)
    collector.before = lambda data: None
    assert machine.send() == 0, machine.said
    assert collector.messages() == ["one 0", "one 1", "one 2"]


def lose_an_answer(machine: Machine, collector: Collector) -> None:
    """What goes out is stored, and its answer doesn't come."""
    def cut(data: bytes) -> str:
        collector.store(data, "web")
        raise Cut
    collector.before = cut
    assert machine.send() == 3
    collector.before = lambda data: None
    rest(machine)


def test_an_answer_that_is_lost(machine: Machine, collector: Collector) -> None:
    """It was stored, and the answer didn't come: it goes out once more, and is stored once."""
    write(machine.journal / "system.journal", entries("one", 3))
    lose_an_answer(machine, collector)
    assert machine.send() == 0, machine.said
    assert collector.messages() == ["one 0", "one 1", "one 2"]


def test_the_newest_and_the_oldest_take_turns(machine: Machine, collector: Collector) -> None:
    machine.set(UPLOAD_BYTES=1500)
    write(machine.journal / "system.journal", entries("one", 12, pad=200))
    waiting = [path.read_bytes() for path in machine.gather()]
    assert len(waiting) > 3
    assert machine.send() == 0, machine.said
    assert collector.uploads[:4] == [waiting[-1], waiting[0], waiting[-2], waiting[1]]
    assert sorted(collector.uploads) == sorted(waiting)


def test_a_backlog_that_is_gathered_later_buries_nothing(machine: Machine, collector: Collector) -> None:
    """The times of entries say what is new: neither when they were gathered, nor when an upload was cut."""
    machine.set(UPLOAD_BYTES=50_000)
    write(machine.journal / "system@01.journal", entries("one", 12, pad=200))
    machine.gather()
    machine.set(UPLOAD_BYTES=1500)
    write(machine.journal / "system@02.journal", entries("two", 12, BEGIN + 1_000_000_000, pad=200))
    write(machine.journal / "system.journal", entries("new", 9, BEGIN + 2_000_000_000, pad=200))
    machine.gather()
    assert machine.send() == 0, machine.said
    went = [re.findall(rb"^MESSAGE=(\w+ \d+)", data, re.MULTILINE) for data in collector.uploads]
    by_time = went[1::2] + went[0::2][::-1]
    assert sum(by_time, []) == [b"%s %d" % (word, number) for word, count in ((b"one", 12), (b"two", 12), (b"new", 9))
                                for number in range(count)]


def test_split_at_a_bound(machine: Machine, collector: Collector) -> None:
    write(machine.journal / "system.journal", entries("one", 10))
    collector.before = lambda data: f"no {data[16:32].hex()} 0 6 4" if entries_of(data) == 10 else None
    assert machine.send() == 0, machine.said
    assert sorted(entries_of(data) for data in collector.uploads) == [4, 6, 10]
    assert len(collector.messages()) == 10


def test_what_ends_the_program_is_halved(machine: Machine, collector: Collector) -> None:
    """One entry ends the program each time: all others are stored, and it is kept."""
    write(machine.journal / "system.journal", entries("one", 9))
    collector.before = lambda data: "smaller" if b"MESSAGE=one 5\n" in data else None
    assert machine.send() == 1, machine.said
    assert len(collector.messages()) == 8
    assert [name.endswith("-6.export") for name in machine.refused()] == [True]
    assert b"MESSAGE=one 5\n" in next((machine.folder / "refused").iterdir()).read_bytes()


def test_too_large_for_the_collector(machine: Machine, collector: Collector) -> None:
    """An entry that passes a bound of the collector goes out with less, under its key."""
    large = Entry("large", BEGIN + 500_000, {"COREDUMP": b"\0" * 100_000})
    write(machine.journal / "system.journal", [*entries("one", 1), large, *entries("two", 2, begin=BEGIN + 1_000_000)])
    collector.before = lambda data: "never an upload has at most 64000 bytes" if len(data) > 64_000 else None
    assert machine.send() == 1
    assert [number for _, number, _ in collector.stored()] == [1, 2, 3, 4]
    assert any(b"_JOURNAL_COLLECT_LEFT_OUT=1 fields, 100018 bytes: COREDUMP\n" in data for data in collector.uploads)
    assert len(machine.refused()) == 1


def test_a_key_that_is_taken(machine: Machine, collector: Collector) -> None:
    """The place is that of the entry: what is before it keeps its sequence, and the rest goes on in a fork."""
    write(machine.journal / "system.journal", entries("one", 5))
    upload = machine.gather()[0].read_bytes()
    strange = upload.replace(b"one 3", b"six 3")
    assert collector.store(strange, "web").startswith("ack")
    assert machine.send() == 1 and "forked: " in machine.said
    assert machine.send() == 0, machine.said
    stored = collector.stored()
    own = next(sequence for sequence, _, message in stored if message == "six 3")
    assert [(sequence == own, number) for sequence, number, message in sorted(stored) if message.startswith("one")
            and sequence == own] == [(True, 1), (True, 2), (True, 3), (True, 5)]
    forked = sorted((number, message) for sequence, number, message in stored if sequence != own)
    assert forked == [(4, "one 3"), (5, "one 4")]


def test_a_sequence_of_another_machine(machine: Machine, collector: Collector) -> None:
    """A clone under a name of its own: all of the sequence goes on in one fork, also what was gathered before."""
    write(machine.journal / "system.journal", entries("one", 4))
    machine.set(UPLOAD_BYTES=250)
    uploads = [path.read_bytes() for path in machine.gather()]
    assert len(uploads) == 4
    assert collector.store(uploads[0], "other").startswith("ack")
    assert machine.send() == 1
    machine.log_and_send(entries("two", 1, begin=BEGIN + 1_000_000_000))
    stored = collector.stored()
    assert len({sequence for sequence, _, _ in stored}) == 2
    assert sorted(message for _, _, message in stored) == ["one 0", "one 0", "one 1", "one 2", "one 3", "two 0"]


def test_an_entry_at_fault(machine: Machine, collector: Collector) -> None:
    """A code with a byte: it is believed the second time, and that entry alone is kept."""
    write(machine.journal / "system.journal", entries("one", 5))

    def refuse(data: bytes) -> str | None:
        place = data[48:].find(b"MESSAGE=one 2")
        return f"no {data[16:32].hex()} 0 13 {place}" if place >= 0 else None
    collector.before = refuse
    assert machine.send() == 1 and len(machine.outbox()) == 1
    rest(machine)
    assert machine.send() == 1, machine.said
    assert machine.outbox() == [] and len(machine.refused()) == 1
    assert collector.messages() == ["one 0", "one 1", "one 3", "one 4"]


def test_an_upload_that_is_damaged_here(machine: Machine, collector: Collector) -> None:
    """What can be followed of it goes on, and the rest is kept."""
    write(machine.journal / "system.journal", entries("one", 5))
    path = machine.gather()[0]
    data = path.read_bytes()
    for at, damaged in ((0, b"X"), (data.rfind(b"MESSAGE=one 3") + 7, b"\n")):
        path.write_bytes(data[:at] + damaged + data[at + 1:])
        machine.send()
        rest(machine)
        machine.send()
        assert machine.outbox() == [], machine.said
        path.write_bytes(data)
    machine.send()
    assert machine.send() == 0, machine.said
    assert set(collector.messages()) >= {f"one {number}" for number in range(5)}


def test_a_collector_that_was_restored(machine: Machine, collector: Collector) -> None:
    """It doesn't know the last key that was acknowledged: what the journal has goes out once more."""
    machine.log_and_send(entries("one", 4))
    assert [line for line in collector.heard if line.startswith("had")] == []
    write(machine.journal / "system.journal", entries("two", 1, begin=BEGIN + 1_000_000_000))
    asked: list[tuple[str, int]] = []

    def knows(sequence: str, number: int) -> bool:
        asked.append((sequence, number))
        return len(asked) > 1
    collector.knows = knows
    assert machine.send() == 1 and "lost" in machine.said
    assert machine.send() == 0, machine.said
    assert [number for _, number in asked] == [4, 5]
    assert sum(data.count(b"MESSAGE=one") for data in collector.uploads) == 8
    assert len(collector.messages()) == 5


def test_a_collector_that_was_restored_behind_a_lost_answer(machine: Machine, collector: Collector) -> None:
    """What it stored and didn't answer isn't new when it is acknowledged: it is asked for, too."""
    machine.log_and_send(entries("one", 2))
    write(machine.journal / "system.journal", entries("two", 1, begin=BEGIN + 1_000_000_000))
    lose_an_answer(machine, collector)
    assert machine.send() == 0, machine.said
    asked: list[int] = []

    def knows(sequence: str, number: int) -> bool:
        asked.append(number)
        return number < 3
    collector.knows = knows
    write(machine.journal / "system.journal", entries("three", 1, begin=BEGIN + 2_000_000_000))
    before = len(collector.uploads)
    assert machine.send() == 1 and "lost" in machine.said
    assert asked == [2, 3]
    machine.send()
    assert any(b"MESSAGE=two 0" in data for data in collector.uploads[before:])


def test_power_that_is_lost_behind_an_acknowledgement(machine: Machine, collector: Collector) -> None:
    """What was noted since isn't on the disk, and the upload is out of the way: it is asked for nevertheless."""
    machine.log_and_send(entries("one", 2))
    write(machine.journal / "system.journal", entries("two", 1, begin=BEGIN + 1_000_000_000))
    machine.gather()
    noted = {path: path.read_bytes() for path in machine.folder.glob("places.sqlite*")}
    assert machine.send() == 0, machine.said
    for path in machine.folder.glob("places.sqlite*"):
        path.unlink()
    for path, data in noted.items():
        path.write_bytes(data)
    asked: list[int] = []
    collector.knows = lambda sequence, number: asked.append(number) or number < 3  # type: ignore[func-returns-value]
    write(machine.journal / "system.journal", entries("three", 1, begin=BEGIN + 2_000_000_000))
    assert machine.send() == 1 and "lost" in machine.said
    assert asked == [3]


def test_a_clock_that_is_wrong(machine: Machine, collector: Collector) -> None:
    write(machine.journal / "system.journal", entries("one", 1))
    collector.greeting = lambda: f"journal-collect 1 {time.time_ns() // 1000 + 3 * 86_400_000_000} {'ab' * 32}"
    assert machine.send() == 1
    assert "clock is +2591" in machine.said or "clock is +2592" in machine.said
    assert collector.messages() == ["one 0"]


def test_greetings_that_are_none(machine: Machine, collector: Collector) -> None:
    write(machine.journal / "system.journal", entries("one", 1))
    for greeting in ("journal-collect 2 5 -", "hello", "", "x" * 1000):
        collector.greeting = lambda: greeting
        assert machine.send() == 3
        assert len(machine.outbox()) == 1 and collector.uploads == []


def test_a_link_that_is_cut(machine: Machine, collector: Collector) -> None:
    """Nothing gets through that has over 3,000 bytes: uploads become smaller until they do."""
    logged = entries("one", 40, pad=150)
    write(machine.journal / "system.journal", logged)

    def cut(came: int, size: int) -> None:
        if size > 3_000 and came > 1_000:
            raise Cut
    collector.takes = cut
    for _ in range(60):
        if machine.send() == 0:
            break
        rest(machine)
    assert machine.outbox() == []
    assert collector.messages() == sorted(each.message.strip() for each in logged)


def test_a_stick(machine: Machine, collector: Collector) -> None:
    """Uploads are carried by hand, and the answers come back in a file."""
    machine.set(CONNECT="", UPLOAD_BYTES=500)
    write(machine.journal / "system.journal", entries("one", 5))
    assert machine.send() == 1, machine.said
    carried = machine.outbox()
    lines = [collector.store(path.read_bytes(), "web") for path in carried[:-1]]
    answers = machine.base / "answers"
    answers.write_text("\n".join(lines) + "\n")
    assert machine.send("--answers", str(answers), "--once") == 1, machine.said
    assert machine.outbox() == carried[-1:]


def test_two_at_once(machine: Machine, collector: Collector) -> None:
    is_told = threading.Event()
    collector.before = lambda data: None if is_told.wait(PATIENCE) else "later nobody else came"
    write(machine.journal / "system.journal", entries("one", 1))
    first = machine.begin("--once")
    wait_until(lambda: collector.uploads)
    assert machine.send() == 75
    is_told.set()
    assert first.wait() == 0


def test_what_check_says(machine: Machine, tmp_path: Path) -> None:
    assert machine.send("--check") == 0 and machine.said == ""
    for said, reason in (("Host key verification failed.", "the collector's host key isn't the one in"),
                         ("u@h: Permission denied (publickey).", "doesn't take this machine's key"),
                         ("nc.openbsd: /run/x: No such file or directory", "its service doesn't run"),
                         ("ssh: connect to host h port 22: Connection refused", "Connection refused")):
        machine.set(CONNECT=f"sh -c 'echo \"{said}\" >&2; exit 255'")
        assert machine.send("--check") == 3
        assert reason in machine.said
    assert not machine.folder.exists()


def test_the_program_is_not_there(machine: Machine, collector: Collector) -> None:
    write(machine.journal / "system.journal", entries("one", 1))
    machine.environment["JOURNAL_COLLECT"] = "/nonexistent/journal-collect"
    assert machine.send() == 3
    machine.environment["JOURNAL_COLLECT"] = PROGRAM
    assert machine.send() == 0, machine.said
    assert collector.messages() == ["one 0"]


def test_a_repeat_says_nothing_of_a_collector_that_was_restored(machine: Machine, collector: Collector) -> None:
    """What is asked for is the last entry that was new: one that was stored before may be in the backup."""
    machine.log_and_send(entries("one", 4))
    assert machine.send("--again", "@1700000001", "--once") == 0, machine.said
    asked: list[int] = []

    def knows(sequence: str, number: int) -> bool:
        asked.append(number)
        return True
    collector.knows = knows
    write(machine.journal / "user-1.journal", entries("two", 1))
    assert machine.send() == 0, machine.said
    assert set(asked) == {4}


def test_a_clock_that_goes_back(machine: Machine, collector: Collector) -> None:
    """The last key was acknowledged a day ahead by this clock: it is asked for nevertheless."""
    machine.log_and_send(entries("one", 2))
    os.utime(machine.folder / "outbox" / "had", (time.time() + 86_400, time.time() + 86_400))
    collector.knows = lambda sequence, number: False
    write(machine.journal / "system.journal", entries("two", 1, BEGIN + 60_000_000))
    assert machine.send() == 1 and "lost" in machine.said
