"""The sender as a service: a real journald, sshd and ssh."""
import os
import subprocess
import time
from collections.abc import Iterator
from contextlib import suppress
from pathlib import Path

import journald
import processes
import pytest
from collector import Collector
from conftest import ROOT, Machine
from sshd import Sshd
from waiting import wait_until


@pytest.fixture
def daemon(tmp_path: Path) -> Iterator[journald.Journald]:
    if why := journald.lacking(str(tmp_path)):
        pytest.skip(why)
    with journald.Journald(f"{tmp_path}/journald", f"{ROOT}/deploy/units/journald.conf") as daemon:
        yield daemon


def processor_seconds(process: int) -> float:
    """What a process and those that it began used."""
    fields = Path(f"/proc/{process}/stat").read_text().rpartition(")")[2].split()
    return sum(map(int, fields[11:15])) / os.sysconf("SC_CLK_TCK")


def memory(process: int) -> int:
    """Bytes that a process has for itself, and its part of what it shares (Pss), with all that it began."""
    lines = Path(f"/proc/{process}/smaps_rollup").read_text().splitlines()
    own = int(next(line.split()[1] for line in lines if line.startswith("Pss:"))) << 10
    for child in processes.children(process):
        with suppress(OSError):                         # it may end meanwhile
            own += memory(child)
    return own


def wait_for(what: str, collector: Collector) -> None:
    """Until an upload has it."""
    wait_until(lambda: any(what.encode() in data for data in collector.uploads), what)


def test_what_check_says_of_ssh(machine: Machine, sshd: Sshd) -> None:
    """The keys of both sides are told apart, and a service that doesn't run."""
    assert machine.send("--check") == 0, machine.said
    known = (machine.base / "etc/known_hosts").read_text()
    (machine.base / "etc/known_hosts").write_text(known.replace("AAAA", "AAAB", 1))
    assert machine.send("--check") == 3
    assert "the collector's host key isn't the one in" in machine.said
    (machine.base / "etc/known_hosts").write_text(known)
    keys = sshd.folder / "authorized_keys"
    line = keys.read_text()
    keys.write_text(line.replace(str(machine.base / "collector/socket"), "/nowhere"))
    assert machine.send("--check") == 3
    assert "its service doesn't run" in machine.said
    keys.write_text("")
    assert machine.send("--check") == 3
    assert "doesn't take this machine's key" in machine.said
    keys.write_text(line)
    sshd.end()
    assert machine.send("--check") == 3
    assert "Connection refused" in machine.said


def test_a_service_that_stays(machine: Machine, collector: Collector, sshd: Sshd, daemon: journald.Journald) -> None:
    """What users log comes, by journald, ssh and sshd; also after the connection was lost."""
    machine.set(JOURNALS=Path(daemon.journal).parent, IDLE_SECONDS=5)
    daemon.log(0, [b"MESSAGE=before\n"])
    daemon.wait_for_message("before")
    with machine.running() as process:
        wait_for("MESSAGE=before\n", collector)
        for number in range(6):
            time.sleep(0.7 * number)
            daemon.log(1000 + number % 2, [b"MESSAGE=message %d\n" % number])
            wait_for(f"MESSAGE=message {number}\n", collector)
        sshd.end()
        subprocess.run(["pkill", "-P", str(process.pid), "ssh"], check=False)
        daemon.log(1000, [b"MESSAGE=without a connection\n"])
        time.sleep(3)
        sshd.begin()
        wait_for("MESSAGE=without a connection\n", collector)
        wait_until(lambda: not processes.children(process.pid), "a connection that carries nothing is closed: that")
    assert machine.send() in (0, 1), machine.said
    messages = collector.messages()
    assert [each for each in messages if each.startswith("message")] == [f"message {number}" for number in range(6)]


def test_an_idle_machine(machine: Machine, collector: Collector, sshd: Sshd, daemon: journald.Journald) -> None:
    """It takes under a thousandth of a processor, and 20 MB with its ssh."""
    machine.set(JOURNALS=Path(daemon.journal).parent)
    daemon.log(0, [b"MESSAGE=one\n"])
    daemon.wait_for_message("one")
    with machine.running() as process:
        wait_for("MESSAGE=one\n", collector)
        time.sleep(3)
        before, begin = processor_seconds(process.pid), time.monotonic()
        time.sleep(30)
        used = (processor_seconds(process.pid) - before) / (time.monotonic() - begin)
        print(f"a part of a processor: {used:.5f}; bytes: {memory(process.pid)}")
        assert used < 0.001
        assert memory(process.pid) < 20_000_000


def test_vacuum_and_many_files(machine: Machine, collector: Collector, daemon: journald.Journald) -> None:
    """200 files of users, rotated and vacuumed once they were gathered: all came, and no gap is told. Those of one
    sequence go together: systemd 254 gives all files one, and earlier ones have one for each user."""
    machine.set(JOURNALS=Path(daemon.journal).parent)
    for user in range(100):
        daemon.log(2000 + user, [b"MESSAGE=user %d\n" % user])
    daemon.wait_for_message("user 99")
    assert machine.send() in (0, 1), machine.said
    journalctl = ["journalctl", f"--directory={daemon.journal}", "--vacuum-files=1"]
    for round in range(3):
        os.kill(daemon.process.pid, 12)             # SIGUSR2 rotates
        for user in range(100):
            daemon.log(2000 + user, [b"MESSAGE=round %d user %d\n" % (round, user)])
        daemon.wait_for_message(f"round {round} user 99")
        assert machine.send() == 0, machine.said
        subprocess.run(journalctl, capture_output=True, check=True)
        assert machine.send() == 0 and machine.said == ""
    wanted = [f"user {user}" for user in range(100)]
    wanted += [f"round {round} user {user}" for round in range(3) for user in range(100)]
    stored = collector.stored()
    assert sorted(message for _, _, message in stored if message in set(wanted)) == sorted(wanted)
    assert len(collector.uploads) < 5 * len({sequence for sequence, _, _ in stored}) + 20
