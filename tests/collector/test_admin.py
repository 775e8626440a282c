"""What people do on the collector."""
import shutil
import signal
import subprocess
from pathlib import Path

import pytest
from conftest import A, B, ID, PROGRAM, Collector, Machine, comes_again, entries, store_and_stop, upload
from waiting import wait_until

KEY = "ssh-ed25519 AAAAC3NzaC1lZDI1NTE5AAAAI%s= %s"


def key(letter: str, comment: str = "root@web") -> str:
    return KEY % (letter * 10, comment)


def said(collector: Collector, *words: str | Path, given: str = "", status: int = 0) -> str:
    ended = collector.admin(*words, given=given)
    assert ended.returncode == status, ended
    return ended.stdout + ended.stderr


def test_a_machine_is_admitted_under_one_name_and_retired(collector: Collector) -> None:
    said(collector, "admit", "web", given=key("A"))
    line = (collector.settings / "authorized_keys").read_text()
    assert line == (f'command="/usr/bin/nc.openbsd -NU {collector.folder}/sockets/web",restrict '
                    f'ssh-ed25519 AAAAC3NzaC1lZDI1NTE5AAAAI{"A" * 10}= web\n')
    assert "that of web" in said(collector, "admit", "www", given=key("A", "another"), status=1)
    said(collector, "admit", "-web", given=key("B"), status=2)
    said(collector, "admit", "../web", given=key("B"), status=1)
    said(collector, "admit", "web2", given='command="/bin/sh" ' + key("B"), status=1)
    said(collector, "admit", "web", given=key("C"))
    collector.start()
    standing = collector.connect("web")
    said(collector, "retire", "web")
    assert standing.line() == ""
    assert (collector.settings / "authorized_keys").read_text() == ""
    assert collector.stop() == 0


def test_a_folder_of_keys_is_admitted_and_again_changes_nothing(collector: Collector, tmp_path: Path) -> None:
    said(collector, "admit", f"{tmp_path}", status=1)
    for name, letter in (("db", "B"), ("web", "A")):
        (tmp_path / f"{name}.pub").write_text(f"{key(letter, 'root@somewhere')}\n")
    assert said(collector, "admit", f"{tmp_path}") == "lets db in\nlets web in\n"
    admitted = (collector.settings / "authorized_keys").read_text()
    assert [line.split()[-1] for line in admitted.splitlines()] == ["db", "web"]
    assert said(collector, "admit", f"{tmp_path}") == "nothing was to do: db, web may send\n"
    assert (collector.settings / "authorized_keys").read_text() == admitted
    for name, text in (("app", key("C")), ("mail", "nothing")):
        (tmp_path / f"{name}.pub").write_text(f"{text}\n")
    assert "for mail" in said(collector, "admit", f"{tmp_path}", status=1)
    (tmp_path / "mail.pub").write_text(key("C", "another"))
    assert "that of app" in said(collector, "admit", f"{tmp_path}", status=1)
    assert (collector.settings / "authorized_keys").read_text() == admitted


def files_of(collector: Collector) -> dict[str, tuple[int, bytes]]:
    """All that root keeps of machines: when each file was written, and what it has."""
    paths = (path for path in collector.settings.rglob("*") if path.is_file() and path.suffix != ".conf")
    return {str(path): (path.stat().st_mtime_ns, path.read_bytes()) for path in paths}


def test_each_command_on_a_machine_says_what_it_would_do_and_called_again_changes_nothing(collector: Collector) -> None:
    collector.admit("db")
    store_and_stop(collector, range(1, 3), B, "db")
    collector.start()
    wait_until(collector.is_begun)
    for words, given, does, again in (
            (("admit", "web"), key("A"), "lets web in", "web may send"),
            (("admit", "web"), key("B"), "replaces the key of web", "web may send"),
            (("rename", "web", "www"), "", "renames web to www, with all that it sent", "www has a key, and web has"),
            (("release", B), "", f"leaves {B} to the machine that brings", f"{B} is no machine's"),
            (("retire", "www"), "", "lets www in no more", "www has no key")):
        before = files_of(collector)
        assert said(collector, *words, "--dry-run", given=given).startswith(f"would: {does}")
        assert files_of(collector) == before
        assert said(collector, *words, given=given).startswith(does)
        before = files_of(collector)
        for dry in ((), ("--dry-run",)):
            assert said(collector, *words, *dry, given=given).startswith(f"nothing was to do: {again}")
        assert files_of(collector) == before
    assert collector.stop() == 0


def test_a_computer_that_is_no_collector_stays_as_it_is(collector: Collector) -> None:
    collector.keys.rmdir()
    for name in ("admit", "retire"):
        assert "setup makes it one" in said(collector, name, "web", given=key("A"), status=1)
    assert files_of(collector) == {}


def test_what_sshd_reads_is_mended_by_the_next_call(collector: Collector) -> None:
    said(collector, "admit", "web", given=key("A"))
    path = collector.settings / "authorized_keys"
    admitted = path.read_text()
    path.write_text("")
    assert said(collector, "admit", "web", given=key("A")) == f"writes {path}\n"
    assert path.read_text() == admitted


def test_no_machine_gets_the_name_of_another_one(collector: Collector) -> None:
    for name, letter in (("web", "A"), ("mail", "B")):
        said(collector, "admit", name, given=key(letter))
    before = files_of(collector)
    assert "mail has a key" in said(collector, "rename", "web", "mail", status=1)
    assert "no key" in said(collector, "rename", "db", "www", status=1)
    assert "can't be" in said(collector, "rename", "web", "../x", status=1)
    store_and_stop(collector, range(1, 3))
    store_and_stop(collector, range(1, 3), B, "mail")
    said(collector, "retire", "mail")
    before = files_of(collector)
    assert "mail is known" in said(collector, "rename", "web", "mail", status=1)
    assert files_of(collector) == before


def test_a_rename_that_was_killed_is_ended_by_the_next_one(collector: Collector) -> None:
    said(collector, "admit", "web", given=key("A"))
    store_and_stop(collector, range(1, 3))
    (collector.keys / "web.pub").rename(collector.keys / "web.renamed")
    said(collector, "rename", "web", "www")
    assert collector.rows("SELECT name FROM machine") == [("www",)]
    # and one that had the service do it already
    (collector.keys / "www.pub").rename(collector.keys / "web.renamed")
    said(collector, "rename", "web", "www")
    assert [path.name for path in collector.keys.iterdir()] == ["www.pub"]
    assert collector.rows("SELECT name, entries FROM machine") == [("www", 2)]


def test_a_renamed_machine_has_its_sequences(collector: Collector) -> None:
    said(collector, "admit", "web", given=key("A"))
    store_and_stop(collector, range(1, 3))
    collector.start()
    standing = collector.connect("web")
    said(collector, "rename", "web", "www")
    assert standing.line() == ""
    assert collector.send("www", upload(entries(A, range(1, 4)), 3)) == f"ack {ID} 0 3 1 0"
    assert collector.stop() == 0
    assert collector.rows("SELECT id, machine FROM sequence") == [(A, "www")]
    assert [name for name, in collector.rows("SELECT name FROM machine")] == ["www"]
    assert "web" not in (collector.settings / "authorized_keys").read_text()


def test_a_rename_that_is_killed_is_done_again(collector: Collector, tmp_path: Path) -> None:
    """Notes have the new name already, and the key has the old one."""
    odd = tmp_path / "odd"
    odd.write_text(f'#!/bin/bash\n{PROGRAM} "$@" || exit\n[[ "$*" != *" --rename "* ]] || kill -KILL $PPID\n')
    odd.chmod(0o755)
    said(collector, "admit", "web", given=key("A"))
    store_and_stop(collector, range(1, 3))
    collector.program = odd
    collector.start()
    wait_until(collector.is_begun)
    assert collector.admin("rename", "web", "www").returncode
    assert collector.ended() == -signal.SIGKILL
    assert (collector.keys / "web.pub").exists()
    collector.program = PROGRAM
    collector.start()
    wait_until(collector.is_begun)
    said(collector, "rename", "web", "www")
    assert collector.send("www", upload(entries(A, range(1, 4)), 3)) == f"ack {ID} 0 3 1 0"
    assert collector.stop() == 0
    assert collector.rows("SELECT id, machine FROM sequence") == [(A, "www")]


def test_a_released_sequence_is_the_next_machine_s(collector: Collector) -> None:
    collector.admit("web", "mail")
    store_and_stop(collector, range(1, 3))
    collector.start()
    assert collector.send("mail", upload(entries(A, [3]), 1)) == f"no {ID} 0 71 0"
    said(collector, "release", A)
    said(collector, "release", "b", status=1)
    assert collector.send("mail", upload(entries(A, [3]), 1)) == f"ack {ID} 0 1 1 0"
    assert collector.send("web", upload(entries(A, [4]), 1)) == f"no {ID} 0 71 0"
    assert collector.stop() == 0
    assert collector.rows("SELECT id, machine FROM sequence ORDER BY 2") == [(A, "mail"), (A, "web")]


def test_uploads_that_came_by_other_means_are_taken(collector: Collector, tmp_path: Path) -> None:
    paths = []
    for number in (1, 2):
        paths.append(tmp_path / f"{number}.upload")
        paths[-1].write_bytes(upload(entries(A, [number]), 1))
    collector.admit("web")
    assert said(collector, "take", "web", *paths) == f"ack {ID} 0 1 1 0\n" * 2
    collector.start()
    collector.connect("web").close()
    assert said(collector, "take", "web", paths[0]) == f"ack {ID} 0 1 0 0\n"
    collector.stops_with([(A, 1, b"m1"), (A, 2, b"m2")])


def test_a_backup_is_put_back_and_its_notes_are_those_of_its_databases(collector: Collector, tmp_path: Path) -> None:
    store_and_stop(collector, range(1, 4))
    collector.start()
    collector.send("web", upload(entries(A, range(4, 6)), 2))
    to = tmp_path / "backup"
    said(collector, "backup", to)
    collector.send("web", upload(entries(A, range(6, 9)), 3))
    said(collector, "restore", to, status=1)
    assert collector.stop() == 0
    # Notes of entries that no database of the backup has, as when notes are copied after more was stored.
    shutil.copytree(collector.folder / "sequences", to / "sequences", dirs_exist_ok=True)
    shutil.rmtree(collector.folder)
    collector.folder.mkdir()
    said(collector, "restore", to)
    collector.start()
    machine: Machine = collector.connect("web")
    assert machine.had(A, 5) == "had"
    assert machine.had(A, 8) == "lost"
    assert machine.send(upload(entries(A, range(1, 9)), 8)) == f"ack {ID} 0 8 3 0"
    collector.stops_with([(A, number, b"m%d" % number) for number in range(1, 9)])


def test_a_backup_of_a_collector_that_stored_nothing_is_put_back(collector: Collector, tmp_path: Path) -> None:
    collector.start("web")
    wait_until(collector.is_begun)
    said(collector, "backup", tmp_path / "backup")
    assert collector.stop() == 0
    shutil.rmtree(collector.folder)
    collector.folder.mkdir()
    said(collector, "restore", tmp_path / "backup")
    collector.start()
    assert collector.send("web", upload(entries(A, range(1, 4)), 3)) == f"ack {ID} 0 3 3 0"


def test_a_backup_mends_a_single_database(collector: Collector, tmp_path: Path) -> None:
    store_and_stop(collector, range(1, 4))
    store_and_stop(collector, range(4, 7))
    to = tmp_path / "backup"
    said(collector, "backup", to)
    first, second = collector.databases()
    first.write_bytes(b"damaged")
    second.unlink()
    said(collector, "check", status=1)
    said(collector, "restore", to)
    said(collector, "check")
    comes_again(collector, range(1, 7), 0)


def test_the_check_finds_a_row_that_was_edited_with_its_digest_and_with_what_is_known(collector: Collector) -> None:
    store_and_stop(collector, range(1, 4))
    assert "agree" in said(collector, "check")
    [path] = collector.databases()
    data = path.read_bytes()
    assert data.count(b"m2") >= 1
    path.write_bytes(data.replace(b"m2", b"M2"))
    assert "isn't as it was finished" in said(collector, "check", status=1)
    digest = subprocess.run(["sha256sum", path.name], cwd=path.parent, capture_output=True, text=True).stdout
    path.with_name(path.name + ".sha256").write_text(digest)
    assert "isn't as it was finished" in said(collector, "check", status=1)
    collector.rows("UPDATE database SET digest = ?", digest[:64])
    assert "differs" in said(collector, "check", status=1)


def test_the_head_that_a_machine_was_told_shows_what_was_changed_since(collector: Collector) -> None:
    store_and_stop(collector, range(1, 4))
    [path] = collector.databases()
    text = path.with_name(path.name + ".sha256").read_bytes()
    head = subprocess.run(["sha256sum"], input=text, capture_output=True, check=True).stdout.decode()[:64]
    assert path.name[:10] in said(collector, "head", head)
    collector.rows("UPDATE database SET digest = ?", "0" * 64)
    said(collector, "head", head, status=1)


def test_a_moved_database_stays_acknowledged(collector: Collector, tmp_path: Path) -> None:
    store_and_stop(collector, range(1, 4))
    [path] = collector.databases()
    said(collector, "moved", "nothing", status=1)
    said(collector, "moved", path.name)
    for each in (collector.folder / "databases").iterdir():
        shutil.move(each, tmp_path)
    collector.start()
    assert collector.send("web", upload(entries(A, range(1, 5)), 4)) == f"ack {ID} 0 4 1 0"
    assert collector.stop() == 0
    assert "missing" not in collector.said()


def test_all_is_made_anew_of_databases(collector: Collector) -> None:
    store_and_stop(collector, range(1, 4))
    store_and_stop(collector, range(4, 7))
    window = collector.folder / "sequences" / A / "0"
    before, known = window.read_bytes(), collector.rows("SELECT name, digest, entries FROM database")
    (collector.folder / "state.sqlite").unlink()
    window.unlink()
    assert said(collector, "rebuild") == "2 databases are known, and noted\n"
    assert window.read_bytes() == before
    assert collector.rows("SELECT name, digest, entries FROM database") == known
    comes_again(collector, range(1, 7), 0)


def test_a_journal_file_is_taken(collector: Collector, tmp_path: Path) -> None:
    """One in the regular layout, as systemd-journal-remote writes it by its settings."""
    remote = Path("/lib/systemd/systemd-journal-remote")
    if not remote.exists():
        pytest.skip("there is no systemd-journal-remote")
    made = tmp_path / "some.journal"
    subprocess.run([remote, "--compress=no", f"--output={made}", "-"], check=True, capture_output=True,
                   input=entries(A, range(1, 4)), env={"SYSTEMD_JOURNAL_COMPACT": "0"})
    verified = subprocess.run([PROGRAM, "verify", "file", made], capture_output=True, text=True)
    assert verified.stdout.startswith("ok 3"), verified
    collector.admit("web")
    answer = said(collector, "take", "web", made)
    assert answer.split()[0] == "ack" and answer.split()[3:5] == ["3", "3"]
    assert len(collector.stored()) == 3
