"""Journal files that are damaged, and odd or large entries: what can be read of them comes, the rest is said."""
import contextlib
import gzip
import os
import random
import re
import shutil
import sqlite3
import subprocess
from pathlib import Path

import pytest
from collector import Collector
from conftest import ROOT, SENDER, Machine
from disks import Disk
from journals import BEGIN, Entry, entries, offsets, write
from test_sending import entries_of, rest
from test_stops import settle

REAL = shutil.which("journalctl")


def fixture(release: int, kind: str) -> bytes:
    return gzip.decompress((ROOT / f"tests/fixtures/systemd-{release}/{kind}.journal.gz").read_bytes())


def put(machine: Machine, name: str, data: bytes | bytearray) -> Path:
    path = machine.journal / f"{name}.journal"
    path.write_bytes(data)
    return path


def numbers(collector: Collector) -> list[int]:
    return sorted(number for _, number, _ in collector.stored())


def use(machine: Machine, journalctl: str) -> None:
    """What is called in place of journalctl; $REAL is that one."""
    folder = machine.base / "bin"
    folder.mkdir(exist_ok=True)
    (folder / "journalctl").write_text(f"#!/bin/sh\nREAL={REAL}\n{journalctl}\n")
    (folder / "journalctl").chmod(0o755)
    machine.environment["PATH"] = f"{folder}:{os.environ['PATH']}"


def test_all_layouts(machine: Machine, collector: Collector) -> None:
    """Regular, compact and compressed files of three releases, with the entries that systemd itself showed."""
    for release in (252, 254, 257):
        for kind in ("regular", "compact", "compressed"):
            put(machine, f"{kind}-{release}", fixture(release, kind))
    assert machine.send() == 0, machine.said
    assert numbers(collector) == sorted([1, 2, 3, 4, 5, 6] * 9)
    keys = set()
    for path in machine.journal.iterdir():
        shown = subprocess.run(["journalctl", "-q", "-o", "export", f"--file={path}"], capture_output=True,
                               check=True).stdout
        keys |= set(re.findall(rb"^__CURSOR=s=([0-9a-f]+);i=([0-9a-f]+)", shown, re.MULTILINE))
    assert {(sequence, number) for sequence, number, _ in collector.stored()} == \
        {(sequence.decode(), int(number, 16)) for sequence, number in keys}


def test_a_damaged_field(machine: Machine, collector: Collector) -> None:
    """A field without `=`: journalctl breaks off there."""
    data = bytearray(fixture(252, "regular"))
    data[[match.start() for match in re.finditer(rb"MESSAGE=", data)][3] + 7] = ord("A")
    put(machine, "system", data)
    put(machine, "other", fixture(254, "regular"))
    assert machine.send() == 1
    assert "left out, for journalctl doesn't show them: 1 of the entries" in machine.said
    assert numbers(collector) == [1, 1, 2, 2, 3, 3, 4, 5, 5, 6, 6]
    assert machine.send() == 0 and machine.said == ""


def test_a_damaged_entry(machine: Machine, collector: Collector) -> None:
    """An entry that is none: journalctl finds nothing beside it, and passes over it when it reads on."""
    path = put(machine, "system", fixture(252, "regular"))
    data = bytearray(fixture(252, "regular"))
    data[offsets(path)[2]] = 9
    put(machine, "system", data)
    assert machine.send() == 1
    assert "left out" in machine.said
    assert numbers(collector) == [1, 2, 4, 5, 6]
    assert machine.send() == 0 and machine.said == ""


def test_a_damaged_entry_beside_the_place(machine: Machine, collector: Collector) -> None:
    path = machine.journal / "system.journal"
    write(path, entries("one", 2))
    assert machine.send() == 0, machine.said
    write(path, entries("two", 4, begin=BEGIN + 60_000_000))
    data = bytearray(path.read_bytes())
    data[offsets(path)[2]] = 9
    path.write_bytes(data)
    assert machine.send() == 1
    assert "left out, for journalctl doesn't show them: 1 of the entries" in machine.said
    assert numbers(collector) == [1, 2, 4, 5, 6]


@pytest.mark.parametrize("begin", ["", "2023-11-14 22:13:22 UTC"])
def test_a_journalctl_that_a_signal_ends(machine: Machine, collector: Collector, begin: str) -> None:
    """Nothing is left out, and nothing is said to be."""
    machine.set(SINCE=begin)
    write(machine.journal / "system.journal", entries("one", 20, pad=100))
    use(machine, f'if [ -e {machine.base}/ended ]; then exec $REAL "$@"; fi\ntouch {machine.base}/ended\n'
        '$REAL "$@" | head -c 3000\nkill -9 $$')
    assert machine.send() in (0, 1)
    assert machine.send() == 0, machine.said
    assert "left out" not in machine.said
    assert numbers(collector) == list(range(3 if begin else 1, 21))


def test_files_that_cannot_be_read(machine: Machine, collector: Collector) -> None:
    """They are told; the others are gathered, and nothing of them is said to be a gap."""
    put(machine, "system", fixture(252, "regular"))
    put(machine, "user-1000", fixture(254, "regular"))
    assert machine.send() == 0, machine.said
    damaged = bytearray(fixture(252, "regular"))
    damaged[88:96] = b"\xff" * 8
    damaged[160:168] = (7).to_bytes(8, "little")
    put(machine, "system", damaged)
    put(machine, "user-1001", fixture(254, "compact")[:300])
    put(machine, "user-1002", b"no journal")
    write(machine.journal / "user-1003.journal", entries("one", 1))
    assert machine.send() == 1
    assert "a gap" not in machine.said and "user-1002.journal: it has no header" in machine.said
    assert "journalctl can't read" in machine.said
    put(machine, "system", fixture(252, "regular"))
    (machine.journal / "user-1002.journal").unlink()
    put(machine, "user-1001", fixture(254, "compact"))
    machine.send()
    assert numbers(collector) == sorted([1, 2, 3, 4, 5, 6] * 3 + [1])


def test_a_file_that_a_loss_of_power_cut(machine: Machine, collector: Collector) -> None:
    """Its header names entries that no byte is there of. That is told once; a copy may become whole yet."""
    put(machine, "other", fixture(254, "regular"))
    path = put(machine, "system@1", fixture(252, "regular")[:264])
    assert machine.send() == 1 and "journalctl can't read" in machine.said
    os.utime(path, (BEGIN // 10**6,) * 2)
    assert machine.send() == 1
    assert f"left out, for {path} has fewer bytes than its header says" in machine.said
    assert machine.send() == 0 and machine.said == ""
    assert numbers(collector) == [1, 2, 3, 4, 5, 6]


def test_removed_while_it_is_read(machine: Machine, collector: Collector) -> None:
    """journalctl opens no file that is removed: the others are gathered, and a gap is told once."""
    path = put(machine, "system", fixture(252, "regular"))
    put(machine, "other", fixture(254, "regular"))
    use(machine, f'case $(readlink /proc/self/fd/"${{3##*/}}") in {path}) rm {path} ;; esac\nexec $REAL "$@"')
    machine.send()
    first = machine.said
    machine.send()
    assert (first + machine.said).count("a gap: ") == 1
    assert numbers(collector) == [1, 2, 3, 4, 5, 6]
    assert machine.send() == 0 and machine.said == ""


def test_entries_that_are_odd(machine: Machine, collector: Collector) -> None:
    """Binary values, empty ones, empty lines, names and values that look like metadata."""
    odd: list[dict[str, str | bytes]] = [
        {"BINARY": bytes(range(256)) * 20}, {"LINES": b"a\n\n__SEQNUM=7\n__CURSOR=s=1;i=1\n\nb"},
        {"A": b"\n\n\n"}, {"LONG": b"x" * 70_000}, {"UTF": "\u00fc\u4e16"}, {"MESSAGE_ID": b"\xff\xfe"},
    ]
    logged = [Entry(f"odd {at}", BEGIN + at, fields) for at, fields in enumerate(odd)]
    machine.log_and_send(logged)
    assert collector.messages() == [each.message for each in logged]
    exported = subprocess.run([os.environ["JOURNAL_COLLECT"], "export", collector.folder / "0.db"], capture_output=True,
                              check=True).stdout
    for fields in odd:
        for name, value in fields.items():
            data = value.encode() if isinstance(value, str) else value
            assert name.encode() + b"=" + data + b"\n" in exported or \
                name.encode() + b"\n" + len(data).to_bytes(8, "little") + data + b"\n" in exported


@pytest.mark.parametrize("keeps", ["yes", "no"])
def test_an_entry_over_a_limit(machine: Machine, collector: Collector, keeps: str) -> None:
    """A value of 20 MiB: the entry goes out with less, and its whole text is kept if that is wanted."""
    machine.set(LEAVE_OUT_LARGE=keeps)
    large = Entry("large", BEGIN + 500_000, {"COREDUMP": b"\0" * (20 << 20), "UNIT": "a.service"})
    long = Entry("x" * (20 << 20), BEGIN + 600_000)
    two = entries("two", 1, begin=BEGIN + 1_000_000)
    write(machine.journal / "system.journal", [*entries("one", 1), large, long, *two])
    assert machine.send() == 0 and "over a limit" in machine.said
    stored = sorted((number, message) for _, number, message in collector.stored())
    assert stored == [(1, "one 0"), (2, "large"), (3, "x" * 2_048), (4, "two 0")]
    exported = subprocess.run([os.environ["JOURNAL_COLLECT"], "export", collector.folder / "0.db"], capture_output=True,
                              check=True).stdout
    assert exported.count(b"_JOURNAL_COLLECT_LEFT_OUT=1 fields, ") == 2 and b"UNIT=a.service\n" in exported
    kept = [(machine.folder / "refused" / name).stat().st_size > (20 << 20) for name in machine.refused()]
    assert kept == ([True, True] if keeps == "no" else [])


def test_a_folder_that_is_damaged(machine: Machine, collector: Collector) -> None:
    """A byte, a part or a file of what the machine keeps is other than it was: no run ends by a traceback, and all that
    the journal has is stored in the end. A changed value within an upload can't be noticed, and is stored, too."""
    seed = int(os.environ.get("SEED", random.randrange(1 << 30)))
    draw, logged = random.Random(seed), list[Entry]()
    connect = machine.settings["CONNECT"]
    for round in range(int(os.environ.get("EDITS", "25"))):
        more = entries(f"round {round}", 2, BEGIN + 60_000_000 * round)
        logged += more
        write(machine.journal / "system.journal", more)
        machine.set(CONNECT=draw.choice([connect, "false"]))
        machine.send()
        kept = [each for each in machine.folder.rglob("*") if each.is_file()]
        for path in draw.sample(kept, min(2, len(kept))):
            data = bytearray(path.read_bytes())
            at = draw.randrange(len(data)) if data else 0
            match draw.choice(["bit", "cut", "gone", "page"]):
                case "bit" if data:
                    data[at] ^= 1 << draw.randrange(8)
                case "cut":
                    del data[at:]
                case "page":
                    data[at:at + 512] = draw.randbytes(512)
                case "gone":
                    path.unlink()
                    continue
            path.write_bytes(data)
    machine.set(CONNECT=connect)
    settle(machine)
    assert machine.send("--again", "@0", "--once") in (0, 1), machine.said
    settle(machine)
    assert set(collector.messages()) >= {each.message for each in logged}, f"SEED={seed}"


@pytest.mark.parametrize("name", ["upload", "had", "stream"])
def test_what_the_disk_cannot_read_any_more(machine: Machine, collector: Collector, disk: Disk, name: str) -> None:
    """A file of the outbox can neither be read nor moved. It is put aside, told once, and holds nothing up; what it had
    comes again from the journal."""
    machine.set(UPLOAD_BYTES=1500)
    machine.log_and_send(entries("one", 2))
    write(machine.journal / "system.journal", entries("two", 12, BEGIN + 60_000_000, pad=200))
    waiting = machine.gather()
    assert len(waiting) > 2
    disk.damage(waiting[1] if name == "upload" else machine.folder / "outbox" / name)
    write(machine.journal / "system.journal", entries("three", 2, BEGIN + 120_000_000))
    told = ""
    for _ in range(3):
        machine.send()
        told += machine.said
        rest(machine)
    assert machine.send() == 0 and machine.outbox() == [], machine.said
    assert told.count("is put aside in") == 1
    assert collector.messages() == sorted(each.message.strip() for each in [
        *entries("one", 2), *entries("two", 12, pad=200), *entries("three", 2)])
    aside = list((machine.folder / "refused").glob("outbox-*"))
    assert [sum(path.suffix == ".upload" for path in each.iterdir()) for each in aside] == [name == "upload"]


@pytest.mark.parametrize("part", ["", "-wal", "-shm"])
def test_places_that_the_disk_cannot_read(machine: Machine, collector: Collector, disk: Disk, part: str) -> None:
    """A file that can't be opened can't be moved either: another one takes its place, which is told once, and what the
    journal has goes out once more."""
    machine.log_and_send(entries("one", 2))
    path = machine.folder / f"places.sqlite{part}"
    path.touch()
    disk.damage(path)
    write(machine.journal / "system.journal", entries("two", 2, BEGIN + 60_000_000))
    assert machine.send() == 1
    assert re.search(r"places.sqlite can't be used .*, and can't be moved either, so places_\d+.sqlite takes its place",
                     machine.said)
    assert collector.messages() == ["one 0", "one 1", "two 0", "two 1"]
    assert sum(entries_of(data) for data in collector.uploads) == 6
    write(machine.journal / "system.journal", entries("three", 2, BEGIN + 120_000_000))
    assert machine.send() == 0 and machine.said == ""
    assert collector.messages() == ["one 0", "one 1", "three 0", "three 1", "two 0", "two 1"]
    assert sum(entries_of(data) for data in collector.uploads) == 8
    assert any("can't be moved either" in text for text in told(machine))


def told(machine: Machine) -> list[str]:
    """What the sender noted for `journal-collect-status`."""
    with contextlib.closing(sqlite3.connect(max(machine.folder.glob("places*.sqlite")))) as rows:
        return [row[0] for row in rows.execute("SELECT text FROM told")]


def disturbed(machine: Machine, calls: str, error: str) -> tuple[str | Path, ...]:
    """A sender for which the first of such calls on its places fails."""
    names = [word for end in ("", "-wal", "-shm") for word in ("-P", machine.folder / f"places.sqlite{end}")]
    injected = [word for call in calls.split(",") for word in ("-e", f"inject={call}:error={error}:when=1")]
    return ("strace", "-f", "-qqq", "-o", "/dev/null", *names, *injected, *SENDER)


@pytest.mark.skipif(not shutil.which("strace"), reason="there is no strace")
def test_places_of_which_a_part_cannot_be_read(machine: Machine, collector: Collector) -> None:
    """The disk can't read what is in the file, which can be moved: it is put aside whole, and told."""
    machine.log_and_send(entries("one", 2))
    before = (machine.folder / "places.sqlite").read_bytes()
    assert machine.send("--once", command=disturbed(machine, "pread64,read", "EIO")) == 1, machine.said
    aside = next((machine.folder / "refused").glob("places-*"))
    assert f"places.sqlite can't be used (disk I/O error), and is put aside in {aside}" in machine.said
    assert (aside / "places.sqlite").read_bytes() == before
    assert len(told(machine)) == 1
    assert [entries_of(data) for data in collector.uploads] == [2, 2] and len(collector.messages()) == 2
    assert machine.send() == 0 and machine.said == ""


@pytest.mark.skipif(not shutil.which("strace"), reason="there is no strace")
@pytest.mark.parametrize("call", ["pwrite64", "ftruncate"])
def test_places_on_a_full_disk_stay(machine: Machine, collector: Collector, call: str) -> None:
    """SQLite says of a full disk what it says of one that can't be read. Nothing is put aside, or sent again."""
    machine.log_and_send(entries("one", 2))
    assert machine.send("--once", command=disturbed(machine, call, "ENOSPC")) == 3, machine.said
    assert machine.said == "disk I/O error\n"
    write(machine.journal / "system.journal", entries("two", 2, BEGIN + 60_000_000))
    assert machine.send() == 0 and machine.refused() == [], machine.said
    assert [entries_of(data) for data in collector.uploads] == [2, 2]
