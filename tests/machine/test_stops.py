"""Kills, failures of calls and losses of power at each step: all that was logged comes, and comes once."""
import os
import shutil
from pathlib import Path

import losing_power
import pytest
from collector import Collector
from conftest import SEND, Machine
from journals import BEGIN, Entry, entries, write
from test_sending import rest
from waiting import wait_until

# Each call is stopped if it is set; else some of them.
STEP = 1 if os.environ.get("STOPS") == "all" else 11
CALLS = {"write": 1, "pwrite64": STEP, "fsync": 1, "fdatasync": 1, "rename": 1, "unlink": 1, "ftruncate": 1,
         "openat": 9 * STEP}


def settle(machine: Machine) -> None:
    """Runs until nothing waits."""
    for _ in range(4):
        if (machine.folder / "places.sqlite").exists():
            try:
                rest(machine)
            except Exception:  # a file that isn't one yet
                pass
        if machine.send() in (0, 1) and not machine.outbox():
            return
    raise AssertionError(f"something waits: {machine.said}")


@pytest.mark.parametrize("how", ["signal=KILL", "error=EIO", "error=ENOSPC"])
@pytest.mark.parametrize("call", CALLS)
def test_a_call_that_is_stopped(machine: Machine, collector: Collector, call: str, how: str) -> None:
    """The sender is killed, or one of the programs that it began; or a call of the sender fails."""
    if call == "openat" and how != "signal=KILL":
        pytest.skip("Python's own files are opened, too")
    logged: list[Entry] = []
    log = machine.base / "strace"
    for number in range(1, 2_000, CALLS[call]):
        more = entries(f"call {number}", 2, begin=BEGIN + number * 60_000_000)
        logged += more
        write(machine.journal / "system.journal", more)
        machine.send("--once", command=("strace", *(["-f"] if how == "signal=KILL" else []), "-qq", "-o", log,
                                        f"--inject={call}:{how}:when={number}", "/usr/bin/python3", "-IB", SEND))
        told = log.read_text()
        if "INJECTED" not in told and "killed by SIGKILL" not in told:
            break
        if number % 5 == 0:
            settle(machine)
    settle(machine)
    assert collector.messages() == sorted(each.message for each in logged)


def test_power_that_is_lost(machine: Machine, collector: Collector) -> None:
    """What wasn't synced is gone of the outbox, while the places are there. The journal keeps nothing that is behind a
    place: so an upload has to be on the disk before its place moves."""
    machine.set(UPLOAD_BYTES=700)
    shadow, logged = machine.base / "shadow", list[Entry]()
    connect = machine.settings["CONNECT"]
    for stop in range(1, 200):
        more = entries(f"stop {stop}", 4, begin=BEGIN + stop * 60_000_000)
        logged += more
        write(machine.journal / "system.journal", more)
        shutil.rmtree(shadow, ignore_errors=True)
        machine.set(CONNECT="false" if stop % 2 else connect)
        command = ("/usr/bin/python3", "-IB", Path(losing_power.__file__), shadow, str(stop))
        status = machine.send("--once", command=command)
        if status >= 0:
            break
        if machine.folder.exists() and (machine.folder / "outbox").exists():
            losing_power.restore(machine.folder / "outbox", shadow)
        machine.set(CONNECT=connect)
        settle(machine)
    else:
        raise AssertionError("it never ends by itself")
    machine.set(CONNECT=connect)
    settle(machine)
    assert stop > 20
    assert collector.messages() == sorted(each.message for each in logged)


def test_places_that_are_damaged_while_it_runs(machine: Machine, collector: Collector) -> None:
    """A sender that stays goes on; whoever reads the file next puts it aside, and says so."""
    machine.set(EVERY_SECONDS=0.2)
    write(machine.journal / "system.journal", entries("one", 3))
    with machine.running():
        wait_for("one 2", collector)
        for name in ("places.sqlite", "places.sqlite-wal"):
            path = machine.folder / name
            if path.exists():
                path.write_bytes(b"\xff" * path.stat().st_size)
        write(machine.journal / "system.journal", entries("two", 3, BEGIN + 60_000_000))
        wait_for("two 2", collector)
    said = machine.said
    machine.send()
    assert "places.sqlite can't be used (" in said + machine.said
    assert any(name.startswith("places-") for name in machine.refused())
    settle(machine)
    assert collector.messages() == ["one 0", "one 1", "one 2", "two 0", "two 1", "two 2"]


def wait_for(message: str, collector: Collector) -> None:
    wait_until(lambda: any(f"MESSAGE={message}\n".encode() in data for data in collector.uploads), message)
