"""What journal-collect-status says of known states: names that monitors go by, and what to do."""
from __future__ import annotations

import sqlite3
import time

import pytest
from conftest import Computer

NOW = time.time()
KEY = "ssh-ed25519 AAAAC3NzaC1lZDI1NTE5AAAAIFxuY2jTBP9Yq5nP6jZc1x5Z8yXyqyPa9qJ7nF1j9s1c web\n"


def machine(computer: Computer, *values: tuple[str, object], told: str = "", told_at: float = NOW) -> None:
    """A machine, of which its sender knows these values, and told something."""
    computer.write("etc/machine.conf.d/10.conf", f"COLLECTOR=logs.example.org\nFOLDER={computer.folder}/send\n")
    computer.write("etc/key", "")
    computer.write("etc/known_hosts", "")
    computer.write("send/outbox/.keep", "")
    with sqlite3.connect(computer.folder / "send/places.sqlite") as rows:
        rows.execute("CREATE TABLE value(name TEXT PRIMARY KEY, value TEXT)")
        rows.executemany("INSERT INTO value VALUES(?, ?)", values)
        rows.execute("CREATE TABLE told(time, status, text)")
        rows.executemany("INSERT INTO told VALUES(?, 3, ?)", [(told_at, told)] if told else [])


def collector(computer: Computer, seen: float = NOW, stored: float = NOW, skew: float = 0) -> sqlite3.Connection:
    """A collector that has one machine, with what it knows of it."""
    computer.write("etc/collector.conf.d/10.conf", f"FOLDER={computer.folder}/data\nFREE_BYTES=1\n")
    computer.write("etc/keys/web.pub", KEY)
    computer.write("etc/authorized_keys", f'command="/usr/bin/nc.openbsd -NU /x/sockets/web",restrict {KEY}')
    computer.write("data/databases/.keep", "")
    rows = sqlite3.connect(computer.folder / "data/state.sqlite")
    rows.executescript("""
        CREATE TABLE machine(name, seen, stored, entries, refused, skew, day, bytes, windows);
        CREATE TABLE database(name, standing, finished, entries, bytes);
        CREATE TABLE told(cause, text, first, last, count);""")
    with rows:
        rows.execute("INSERT INTO machine VALUES('web', ?, ?, 7, 0, ?, '', 0, 0)", (seen, stored, skew))
    return rows


def test_nothing_is_set_up(computer: Computer) -> None:
    assert computer.found() == {("settings", "status")}
    assert "journal-collect-join" in computer.call().stdout


def test_a_machine_that_is_well(computer: Computer) -> None:
    machine(computer, ("acknowledged", NOW), ("skew", 0), ("trouble", ""))
    assert computer.found() == set()
    assert computer.call().stdout.endswith("All is well.\n")
    assert computer.call("--quiet").stdout == ""


def test_why_nothing_goes_out_and_what_mends_it(computer: Computer) -> None:
    machine(computer, ("acknowledged", NOW), ("trouble", "ssh: connect to host: Connection refused"))
    finding = computer.told()["findings"][0]
    assert (finding["name"], finding["status"]) == ("trouble", 3)
    assert "sshd doesn't run on logs.example.org" in finding["remedy"]


@pytest.mark.parametrize("trouble, mends", [
    ("no connection to the collector: Host key verification failed.", "compare them, then journal-collect-join"),
    ("u@h: Permission denied (publickey).", "on logs.example.org: journal-collect-admin admit"),
    ("ssh: Could not resolve hostname h: Name or service not known", "look at the DNS"),
    ("ssh: connect to host h port 22: Connection timed out", "look at the network and its firewall"),
    ("ssh: connect to host h port 22: Network is unreachable", "look at the network and its firewall"),
    ("the collector takes nothing now: only 3 bytes are free, and FREE_BYTES is 9", "on logs.example.org: make room"),
    ("sshd takes this machine's key, and its service doesn't run: nc.openbsd: /x/web: Connection refused",
     "on logs.example.org: journal-collect-status; its service may not run"),
    ("something new", "on logs.example.org: journal-collect-status")])
def test_what_mends_each_trouble(computer: Computer, trouble: str, mends: str) -> None:
    machine(computer, ("acknowledged", NOW), ("trouble", trouble))
    assert mends in computer.told()["findings"][0]["remedy"]


@pytest.mark.parametrize("told, mends", [
    ("forked: a goes on as b from entry 7 (code 60): this machine was set back or cloned", "--name NEW --new-key"),
    ("the collector lost what it had acknowledged: what the journal still has goes out", "nothing: it goes out"),
    ("the collector's clock is +259200 s from this machine's: set the one that is wrong", "timedatectl"),
    ("a gap: journald removed a file that wasn't gathered to its end", "SystemMaxUse="),
    ("failed, and is tried again: [Errno 28] No space left on device", "make room on this machine's disk"),
    ("places.sqlite can't be used (disk I/O error), and can't be moved either, so places_1.sqlite takes its place",
     "fsck"),
    ("[Errno 74] Bad message: 'x': what can't be read any more of the outbox is put aside in y", "fsck")])
def test_what_mends_what_a_machine_told(computer: Computer, told: str, mends: str) -> None:
    machine(computer, ("acknowledged", NOW - 1), told=told)
    finding = computer.told()["findings"][0]
    assert (finding["name"], mends in finding["remedy"]) == ("told", True)


def test_places_that_could_not_be_moved(computer: Computer) -> None:
    """What took their place is read."""
    machine(computer, ("acknowledged", 1_700_000_000))
    (computer.folder / "send/places.sqlite").rename(computer.folder / "send/places_1796000000000000000.sqlite")
    computer.write("send/places.sqlite", "what can't be read")
    assert computer.told()["machine"]["acknowledged"] == 1_700_000_000


def test_a_connection_that_was_lost_for_a_while_is_over(computer: Computer) -> None:
    machine(computer, ("acknowledged", NOW - 50), told="no connection to the collector: x", told_at=NOW - 100)
    assert computer.found() == set()


def test_a_machine_whose_outbox_is_full(computer: Computer) -> None:
    machine(computer, ("acknowledged", NOW))
    computer.write("etc/machine.conf.d/90.conf", "FOLDER_BYTES=300000\n")
    computer.write("send/outbox/1.upload", "x" * 50_000)
    assert computer.found() == set()
    computer.write("send/outbox/2.upload", "x")
    assert computer.found() == {("full", "machine")}


def test_a_machine_with_several_faults(computer: Computer) -> None:
    machine(computer, ("acknowledged", NOW), ("skew", 500))
    computer.write("send/refused/1.export", "x")
    (computer.etc / "key").unlink()
    assert computer.found() == {("clock", "machine"), ("refused", "machine"), ("key", "machine")}


def test_settings_that_are_none(computer: Computer) -> None:
    machine(computer)
    computer.write("etc/machine.conf.d/90.conf", "EACH=1\n")
    assert ("settings", "machine") in computer.found()
    assert computer.call().returncode == 2


def test_a_collector_that_is_well(computer: Computer) -> None:
    collector(computer)
    assert computer.found() == set()
    told = computer.told()["collector"]
    assert (told["machines"][0]["name"], told["machines"][0]["entries"]) == ("web", 7)


@pytest.mark.parametrize("seen, stored, skew, wanted", [
    (NOW - 9000, NOW, 0, "silent"), (NOW, NOW - 90000, 0, "old"), (NOW, NOW, 120, "clock"), (0, 0, 0, "never")])
def test_a_machine_that_is_silent_old_or_wrong_of_clock(
        computer: Computer, seen: float, stored: float, skew: float, wanted: str) -> None:
    collector(computer, seen, stored, skew)
    assert computer.found() == {(wanted, "web")}


def test_what_the_service_told_but_not_of_a_retired_machine(computer: Computer) -> None:
    with collector(computer) as rows:
        rows.executemany("INSERT INTO told VALUES(?, 'it is so', 0, ?, 2)", [
            ("refused web", NOW), ("refused old", NOW), ("notes /x/1", NOW), ("room", NOW - 200_000),
            ("unreadable /x/2", NOW), ("again /x/3", NOW)])
    assert computer.found() == {("refused", "web"), ("notes", "/x/1"), ("unreadable", "/x/2"), ("again", "/x/3")}
    assert "on web: journal-collect-status" in computer.call().stdout


def test_journal_files_that_arent_made(computer: Computer) -> None:
    with collector(computer) as rows:
        rows.execute("INSERT INTO database VALUES('a', 'finished', ?, 1, 1)", (NOW - 7200,))
    finding = computer.told()["findings"][0]
    assert (finding["name"], "systemd-journal-remote" in finding["remedy"]) == ("behind", True)


def test_a_disk_without_room(computer: Computer) -> None:
    collector(computer)
    computer.write("etc/collector.conf.d/90.conf", "FREE_BYTES=900000000000000\n")
    assert ("disk", "collector") in computer.found()
    assert computer.call().returncode == 3


def test_databases_that_are_missing_and_a_key_that_is_none(computer: Computer) -> None:
    with collector(computer) as rows:
        rows.execute("INSERT INTO database VALUES('a', 'missing', ?, 1, 1)", (NOW,))
        rows.execute("INSERT INTO told VALUES('damaged b', 'b isn''t as it was', 0, ?, 1)", (NOW - 100_000,))
    computer.write("etc/keys/db.pub", "nothing\n")
    assert computer.found() == {("missing", "a"), ("damaged", "b"), ("key", "db"), ("never", "db")}


def test_figures_for_prometheus(computer: Computer) -> None:
    collector(computer, skew=120)
    path = computer.folder / "figures.prom"
    assert computer.call("--prometheus", str(path)).returncode == 0
    lines = path.read_text().splitlines()
    assert 'journal_collect_finding{name="clock",about="web"} 1' in lines
    assert 'journal_collect_machine_entries_total{machine="web"} 7' in lines
    named = [line.split()[2] for line in lines if line.startswith("# HELP")]
    assert len(named) == len(set(named))
