"""Uploads that come, and what is stored of them."""
import hashlib
import os
import signal
import subprocess
import time

import pytest
from conftest import A, B, ID, Collector, entries, entry, upload
from journalcollect.collector import notes
from journalcollect.collector.recovery import Recovery
from journalcollect.collector.settings import Folder, Settings
from journalcollect.collector.state import State
from journalcollect.collector.store import Store
from journalcollect.collector.turns import Waiting
from journalcollect.common import files
from journalcollect.common.protocol import answer
from journalcollect.reading.present import Present
from waiting import wait_until


def test_an_upload_is_stored_once_and_acknowledged_each_time(collector: Collector) -> None:
    collector.start("web")
    web = collector.connect("web")
    assert web.greeting.startswith("journal-collect 1 ") and web.greeting.endswith(" -")
    data = upload(entries(A, range(1, 6)), 5)
    assert web.send(data) == f"ack {ID} 0 5 5 0"
    assert web.send(data) == f"ack {ID} 0 5 0 0"
    assert web.had(A, 5) == "had"
    assert web.had(A, 6) == "lost"
    collector.stops_with([(A, number, b"m%d" % number) for number in range(1, 6)])


def test_what_an_upload_ended_with_is_known_before_it_is_noted(collector: Collector) -> None:
    """Also if it was stored before. What somebody logged is no entry, and what another machine brought isn't told."""
    collector.start("web", "mail")
    web, mail = collector.connect("web"), collector.connect("mail")
    text = b"x\n\n__SEQNUM=9\n__SEQNUM_ID=%s\n" % B.encode()
    last = b"MESSAGE\n" + len(text).to_bytes(8, "little") + text + b"\n" + entry(A, 6)
    assert web.send(upload(entries(A, range(1, 6)) + last, 6)) == f"ack {ID} 0 6 6 0"
    assert web.send(upload(entries(A, range(1, 4)), 3)) == f"ack {ID} 0 3 0 0"
    assert not (collector.folder / "sequences" / A / "0").exists()
    for _ in range(2):
        assert [web.had(A, number) for number in (3, 6, 7)] == ["had", "had", "lost"]
        assert (web.had(B, 9), mail.had(A, 6)) == ("lost", "lost")
        collector.ask("finish")
    assert (collector.folder / "sequences" / A / "0").exists()
    assert web.had(A, 2) == "had"
    assert collector.stop() == 0


def test_of_too_many_keys_the_machine_with_the_most_loses_its_oldest(monkeypatch: pytest.MonkeyPatch) -> None:
    monkeypatch.setattr(notes, "MOST_UNNOTED", 4)
    keys = notes.Unnoted()
    assert [keys.add("web", A, 1), keys.add("web", A, 1), keys.add("mail", A, 1)] == [True, False, True]
    assert all(keys.add("hostile", B, number) for number in range(1, 9))
    assert [number for number in range(1, 9) if keys.has("hostile", B, number)] == [7, 8]
    assert (keys.has("web", A, 1), keys.has("mail", A, 1), keys.has("other", A, 1)) == (True, True, False)
    keys.forget()
    assert not keys.has("web", A, 1)


def test_a_cut_upload_leaves_nothing(collector: Collector) -> None:
    collector.start("web")
    data = upload(entries(A, range(1, 6)), 5)
    cut = collector.connect("web")
    cut.say(f"upload {len(data)} {hashlib.sha256(data).hexdigest()} 1")
    cut.socket.sendall(data[:-1])
    cut.close()
    wrong = collector.connect("web")
    wrong.put(data, "00" * 32)
    assert wrong.line() == ""
    slow = collector.connect("web")
    slow.say("upload 100 nothing 1")
    assert slow.line() == ""
    collector.stops_with([])
    assert [path for path in (collector.folder / "recent").rglob("*") if path.is_file()] == []


def test_a_sequence_is_its_first_machine_s_and_an_entry_stays_what_it_was(collector: Collector) -> None:
    collector.start("web", "mail")
    assert collector.send("web", upload(entries(A, [1]), 1)) == f"ack {ID} 0 1 1 0"
    assert collector.send("mail", upload(entries(B, [1]) + entries(A, [2]), 2)) == f"no {ID} 0 71 1"
    assert collector.send("web", upload(entries(A, [2, 1], "other"), 2)) == f"no {ID} 0 60 1"
    collector.stops_with([(A, 1, b"m1")])
    told = {row[0] for row in collector.rows("SELECT cause FROM told")}
    assert {"refused web", "refused mail"} <= told


def test_whose_a_sequence_is_is_told_to_people_and_not_to_another_machine(collector: Collector) -> None:
    collector.start("web", "mail")
    assert collector.send("web", upload(entries(A, [1]), 1)).startswith("ack")
    assert collector.stop() == 0
    collector.start()
    mail, web = collector.connect("mail"), collector.connect("web")
    assert mail.send(upload(entries(A, [2]), 1)) == f"no {ID} 0 71 0"
    assert (mail.had(A, 1), web.had(A, 1), web.had(A, 2)) == ("lost", "had", "lost")
    assert f"mail: refused: no {ID} 0 71 0: {A} came with web" in collector.said()
    for path in (collector.folder / "sequences" / A).iterdir():
        path.unlink()
    assert collector.ask("check")[-1]["status"] == 1
    assert f"isn't noted any more, as web's {A}" in collector.said()
    assert web.had(A, 1) == "had"
    assert collector.stop() == 0


def test_all_sequences_of_an_upload_are_its_machine_s(collector: Collector) -> None:
    """As of a machine whose two users' journals came in one upload."""
    collector.start("web")
    collector.send("web", upload(entries(A, [1]) + entries(B, [7]), 2))
    assert collector.stop() == 0
    assert collector.rows("SELECT id, machine FROM sequence ORDER BY id") == [(A, "web"), (B, "web")]


def test_many_that_wait_are_each_answered_with_their_own(collector: Collector) -> None:
    names = [f"m{number:02}" for number in range(12)]
    collector.start(*names)
    machines = {name: collector.connect(name) for name in names}
    for number, (name, machine) in enumerate(machines.items(), 1):
        machine.put(upload(entries(f"{number:032x}", range(1, number + 1)), number, f"{number:032x}"))
    for number, machine in enumerate(machines.values(), 1):
        assert machine.line() == f"ack {number:032x} 0 {number} {number} 0"
    assert collector.stop() == 0
    assert len(collector.stored()) == sum(range(1, 13))


def test_an_answer_comes_last_and_whatever_else_fails(collector: Collector, monkeypatch: pytest.MonkeyPatch) -> None:
    """With it the next upload may come, which has bounds, and the file of this one is closed."""
    folder, settings, told = Folder(collector.folder), Settings(str(collector.folder)), list[bool]()
    folder.make()
    store = Store(settings, Recovery(settings, State(folder), -1, Present(collector.folder, print)))
    with files.unnamed(folder.recent) as handle:
        one = Waiting("web", handle, 5, path=folder.recent / "1.web")

        def tell(*_: str) -> None:
            told.append(one.reply.done())
            raise OSError

        monkeypatch.setattr(store.state, "tell", tell)
        with pytest.raises(OSError):
            store.answered(one, answer(f"no {ID} 0 71 0"))
    assert told == [False] and store.state.machine("web").bytes == 5
    assert one.reply.result(0) == answer(f"no {ID} 0 71 0")


def test_a_machine_comes_by_nc_alone_and_one_without_a_key_doesn_t(collector: Collector) -> None:
    collector.start("web")
    collector.connect("web").close()
    data = upload(entry(A, 1, MESSAGE="by nc"), 1)
    line = f"upload {len(data)} {hashlib.sha256(data).hexdigest()} 1\n".encode()
    nc = ["nc.openbsd", "-NU", collector.folder / "sockets/web"]
    said = subprocess.run(nc, input=line + data, capture_output=True, timeout=120).stdout.decode()
    assert said.splitlines()[1:] == [f"ack {ID} 0 1 1 0"]
    standing = collector.connect("web")
    (collector.keys / "web.pub").unlink()
    assert standing.line() == ""
    assert not (collector.folder / "sockets/web").exists()


def test_a_database_is_finished_by_age_and_a_digest_is_beside_it(collector: Collector) -> None:
    collector.values["DATABASE_SECONDS"] = "1"
    collector.start("web")
    collector.send("web", upload(entries(A, [1]), 1))
    wait_until(lambda: list((collector.folder / "databases").glob("*.sha256")))
    subprocess.run("sha256sum --check --quiet *.sha256", shell=True, cwd=collector.folder / "databases", check=True)
    assert not list((collector.folder / "databases").glob("*-wal"))
    assert collector.send("web", upload(entries(A, [1, 2]), 2)) == f"ack {ID} 0 2 1 0"
    assert collector.stop() == 0
    assert [len(path.name) > 0 for path in collector.databases()] == [True, True]
    assert collector.stored() == [(A, 1, b"m1"), (A, 2, b"m2")]


def test_a_database_is_finished_by_size(collector: Collector) -> None:
    collector.values["DATABASE_BYTES"] = "1"
    collector.start("web")
    for number in (1, 2, 3):
        assert collector.send("web", upload(entries(A, [number]), 1)) == f"ack {ID} 0 1 1 0"
    assert collector.stop() == 0
    assert len(collector.databases()) == 3
    assert collector.stored() == [(A, number, b"m%d" % number) for number in (1, 2, 3)]


def test_a_name_of_a_database_is_never_given_twice(collector: Collector) -> None:
    """Databases of the next minutes were there and went, as where the clock is set back."""
    collector.start("web")
    collector.ask("status")
    assert collector.stop() == 0
    gone = [time.strftime("%Y-%m-%dT%H-%M-%S", time.gmtime(time.time() + each)) for each in range(900)]
    for name in gone:
        collector.rows("INSERT INTO database(name, standing) VALUES(?, 'deleted')", name)
    collector.start()
    assert collector.send("web", upload(entries(A, [1]), 1)) == f"ack {ID} 0 1 1 0"
    assert collector.stop() == 0
    assert [path.stem[-2:] for path in collector.databases()] == ["-2"]
    assert collector.stored() == [(A, 1, b"m1")]


def test_who_waits_for_long_comes_again(collector: Collector) -> None:
    """The program stands still: what wasn't handed to it is told `later`, and what was is answered in the end."""
    collector.start("web", "other")
    assert collector.send("web", upload(entries(A, [1]), 1)) == f"ack {ID} 0 1 1 0"
    [program] = collector.programs()
    os.kill(program, signal.SIGSTOP)
    handed, waits = collector.connect("web"), collector.connect("other")
    handed.put(upload(entries(A, [2]), 1))
    wait_until(lambda: len(list((collector.folder / "recent").glob("*/*.web"))) == 2)
    assert waits.send(upload(entries(B, [1]), 1)) == "later too many others wait"
    os.kill(program, signal.SIGCONT)
    assert handed.line() == f"ack {ID} 0 1 1 0"
    assert waits.send(upload(entries(B, [1]), 1)) == f"ack {ID} 0 1 1 0"
