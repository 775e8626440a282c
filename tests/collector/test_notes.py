"""Notes that are made anew: what stops that at any step lets nothing in twice."""
import os
import signal
import time
from pathlib import Path

import processes
import pytest
from conftest import A, ID, PROGRAM, Collector, Machine, comes_again, entries, store_and_stop, texts, upload
from journalcollect.collector.recovery import Recovery
from journalcollect.collector.settings import Folder, Settings
from journalcollect.collector.state import State
from journalcollect.reading.present import Present
from waiting import wait_until

DATABASES, NOTE = 3, 41


def window(collector: Collector) -> Path:
    return collector.folder / "sequences" / A / "0"


@pytest.fixture
def emptied(collector: Collector) -> Collector:
    """A collector with three entries in each of three databases, whose window of notes was emptied."""
    for first in range(1, 1 + 3 * DATABASES, 3):
        store_and_stop(collector, range(first, first + 3))
    os.truncate(window(collector), 0)
    return collector


def between(collector: Collector, kind: str, before: dict[int, str], after: str = "") -> Path:
    """From now on the program is one that does something before its calls of a kind, by their numbers, or behind the
    last of them; the folder that has a file for each of those calls."""
    folder = collector.folder.parent / "calls"
    folder.mkdir()
    script = collector.folder.parent / "between"
    cases = "".join(f"{number}) {what} ;;\n" for number, what in before.items())
    script.write_text(f"""#!/bin/bash
if [[ "$*" != *"--files-from {kind} "* ]]; then exec {PROGRAM} "$@"; fi
call=$(($(ls {folder} | wc -l) + 1))
touch {folder}/$call
case $call in
{cases}esac
if [[ $call -lt {max(before)} || -z '{after}' ]]; then exec {PROGRAM} "$@"; fi
{PROGRAM} "$@"
{after}
""")
    script.chmod(0o755)
    collector.program = script
    return folder


def wait_for(collector: Collector) -> str:
    """What the program does that waits until it may go on."""
    return f"until [[ -e {collector.folder.parent}/go ]]; do sleep 0.05; done"


def go(collector: Collector) -> None:
    (collector.folder.parent / "go").touch()


def sent(collector: Collector, numbers: range) -> Machine:
    """A machine whose upload waits for its turn."""
    machine = collector.connect("web")
    machine.put(upload(entries(A, numbers), len(numbers)))
    wait_until(lambda: collector.ask("status")[0]["say"]["waiting"] == 1)   # type: ignore[index]
    return machine


def nothing_comes_twice(collector: Collector) -> None:
    """The next service, with the program as it is."""
    collector.program = PROGRAM
    comes_again(collector, range(1, 10), 0)


def once_killed(collector: Collector) -> Path:
    """The database that has three entries, once the service is killed."""
    collector.start("web")
    assert collector.send("web", upload(entries(A, range(1, 4)), 3)) == f"ack {ID} 0 3 3 0"
    collector.kill()
    [database] = collector.databases()
    return database


@pytest.mark.parametrize("call", range(1, DATABASES + 1))
def test_the_service_is_stopped_while_notes_are_made(emptied: Collector, call: int) -> None:
    wait = wait_for(emptied)
    between(emptied, "/dev/null", {1: wait, call: f"{wait}; kill -TERM $PPID; exec sleep 1000"})
    emptied.start()
    machine = sent(emptied, range(1, 10))
    go(emptied)
    assert emptied.ended() == 0
    assert not machine.line().startswith("ack ")
    nothing_comes_twice(emptied)


@pytest.mark.parametrize("call", range(1, DATABASES + 1))
def test_the_service_is_killed_while_notes_are_made(emptied: Collector, call: int) -> None:
    between(emptied, "/dev/null", {call: "kill -KILL $PPID"})
    emptied.start()
    assert emptied.ended() == -signal.SIGKILL
    nothing_comes_twice(emptied)


def test_a_gate_that_isnt_open_yet_when_the_service_is_killed(emptied: Collector) -> None:
    gate = (DATABASES - 1) * 3 * NOTE
    close = f"printf '\\0' | dd of={window(emptied)} bs=1 seek={gate} conv=notrunc status=none; kill -KILL $PPID"
    between(emptied, "/dev/null", {DATABASES: ":"}, close)
    emptied.start()
    assert emptied.ended() == -signal.SIGKILL
    nothing_comes_twice(emptied)


def test_the_next_service_waits_for_a_process_that_notes(emptied: Collector) -> None:
    calls = between(emptied, "/dev/null", {2: wait_for(emptied)})
    emptied.start()
    wait_until((calls / "2").exists)
    assert emptied.process
    emptied.process.kill()
    assert emptied.ended() == -signal.SIGKILL
    emptied.program = PROGRAM
    emptied.start()
    wait_until(lambda: "a process that it began" in emptied.said())
    time.sleep(1.0)
    assert not window(emptied).exists() or window(emptied).stat().st_size < 9 * NOTE
    go(emptied)
    comes_again(emptied, range(1, 10), 0)


def test_the_process_that_notes_is_killed(emptied: Collector) -> None:
    between(emptied, "/dev/null", {1: wait_for(emptied), 2: "kill -KILL $$"})
    emptied.start()
    machine = sent(emptied, range(1, 10))
    go(emptied)
    assert machine.line().startswith("later ")
    wait_until(lambda: emptied.send("web", upload(entries(A, range(1, 10)), 9)) == f"ack {ID} 0 9 0 0")
    emptied.stops_with(texts(range(1, 10)))


def test_a_window_that_is_emptied_while_the_program_has_it(collector: Collector) -> None:
    """What the program adds stands where it was to stand, so the file is as long as it ought to be."""
    store_and_stop(collector, range(1, 4))
    collector.start()
    assert collector.send("web", upload(entries(A, range(4, 7)), 3)) == f"ack {ID} 0 3 3 0"
    os.truncate(window(collector), 0)
    assert collector.send("web", upload(entries(A, range(7, 10)), 3)).startswith(f"ack {ID} 0 3 3 ")
    assert collector.stop() == 0
    comes_again(collector, range(1, 10), 0)
    assert f"{window(collector)}: " in collector.said()


def test_what_was_acknowledged_is_known_until_it_is_noted(collector: Collector) -> None:
    """The program is killed, its database is damaged, and it takes a while until the uploads are stored again."""
    between(collector, "-", {1: ":", 2: wait_for(collector)})
    collector.start("web")
    asks = collector.connect("web")
    assert asks.send(upload(entries(A, range(1, 4)), 3)) == f"ack {ID} 0 3 3 0"
    assert not window(collector).exists()
    for each in collector.programs():
        processes.kill(each)
    [database] = collector.databases()
    database.write_bytes(b"x" * 20480)
    database.with_name(database.name + "-wal").unlink(missing_ok=True)
    machine = collector.connect("web")
    machine.put(upload(entries(A, range(4, 7)), 3))
    wait_until((collector.folder.parent / "calls/2").exists)
    assert asks.had(A, 3) == "had"
    go(collector)
    assert machine.line() == f"ack {ID} 0 3 3 0"
    assert (asks.had(A, 3), asks.had(A, 6), asks.had(A, 7)) == ("had", "had", "lost")
    collector.stops_with(texts(range(1, 7)))


def test_uploads_of_a_damaged_database_are_stored_again_though_nothing_is_known(collector: Collector) -> None:
    """The service is killed before that, and state.sqlite is lost."""
    database = once_killed(collector)
    database.write_bytes(b"x" * 20480)
    database.with_name(database.name + "-wal").unlink(missing_ok=True)
    between(collector, "-", {1: "kill -KILL $PPID; exit 1"})
    collector.start()
    assert collector.ended() == -signal.SIGKILL
    (collector.folder / "state.sqlite").unlink()
    collector.program = PROGRAM
    comes_again(collector, range(1, 4), 0)


def test_uploads_that_cannot_be_stored_again_yet_stay(collector: Collector) -> None:
    database = once_killed(collector)
    database.write_bytes(b"x" * 20480)
    database.with_name(database.name + "-wal").unlink(missing_ok=True)
    between(collector, "-", {1: f"{wait_for(collector)}; echo no room >&2; exit 3"})
    collector.start()
    machine = sent(collector, range(4, 7))
    go(collector)
    assert machine.line().startswith("later ")
    wait_until(lambda: collector.send("web", upload(entries(A, range(1, 4)), 3)) == f"ack {ID} 0 3 0 0")
    collector.stops_with(texts(range(1, 4)))


def test_the_service_is_killed_once_a_database_is_known_to_be_missing(
        collector: Collector, monkeypatch: pytest.MonkeyPatch) -> None:
    """What it had is noted no more, though its notes weren't touched yet."""
    for first in (1, 4):
        store_and_stop(collector, range(first, first + 3))
    missing = collector.databases()[0]
    missing.unlink()
    missing.with_name(missing.name + ".sha256").unlink()

    def killed(*_: object) -> None:
        raise InterruptedError

    folder = Folder(collector.folder)
    recovery = Recovery(Settings(str(collector.folder)), State(folder), -1, Present(collector.folder, print))
    monkeypatch.setattr(recovery.notes, "make_anew", killed)
    with pytest.raises(InterruptedError):
        recovery.start()
    recovery.state.rows.close()
    comes_again(collector, range(1, 7), 3)
