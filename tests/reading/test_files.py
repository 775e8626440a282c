"""Journal files of finished databases, and of days."""
import json
import os
import shutil
import subprocess
import sys
import time
from pathlib import Path

from collecting import BEGIN, Collector, digits, plain

from journalcollect.reading.places import Places

HOUR = 3_600_000_000
# Days that the clock of who runs this hasn't come to, so none is over before a database of the next one is there.
DAYS = [f"2097-11-{day}" for day in range(20, 29)]


def shown(folder: Path, *words: str) -> list[str]:
    """What journalctl itself shows of a folder."""
    return subprocess.run(["journalctl", "-D", folder, "-m", "-q", "-o", "cat", *words], capture_output=True, text=True,
                          check=True).stdout.splitlines()


def journals(collector: Collector) -> list[str]:
    at = collector.path / "journals"
    return sorted(str(path.relative_to(at)) for path in at.rglob("*.journal"))


def test_entries_of_a_database_come_by_time_and_say_their_machine(collector: Collector) -> None:
    collector.database(f"{DAYS[0]}T10-00-00", plain("web", 3, "third"), plain("db", 9, "late", BEGIN - HOUR),
             plain("db", 1, "first"), plain("web", 2, "second"))
    assert collector.make().returncode == 0
    today = collector.path / "journals" / "today"
    assert shown(today) == ["late", "first", "second", "third"]
    assert shown(today, "_COLLECTED_FROM=web") == ["second", "third"]
    assert shown(today, f"--until=@{BEGIN // 1_000_000}") == ["late"]
    assert subprocess.run(["journalctl", "--verify", f"--file={today}/*.journal"], capture_output=True).returncode == 0
    about = json.loads((today / f"{DAYS[0]}T10-00-00.json").read_text())
    assert about["entries"] == 4 and about["untaken"] == {}
    assert about["boots"]["db"] == {digits("boot", "db"): [BEGIN - HOUR, BEGIN + 1_000_000]}


def test_a_day_that_is_over_is_one_sequence_of_files(collector: Collector) -> None:
    for number in range(4):
        collector.database(f"{DAYS[0]}T1{number}-00-00", plain("web", number * 2 + 1, f"w{number}"),
                 plain("db", number * 2 + 2, f"d{number}"))
    assert collector.make().returncode == 0
    assert len(journals(collector)) == 4
    collector.database(f"{DAYS[1]}T00-00-00", plain("web", 50, "next"))
    assert collector.make().returncode == 0
    assert journals(collector) == [f"{DAYS[0]}/all.journal", f"today/{DAYS[1]}T00-00-00.journal"]
    assert shown(collector.path / "journals" / DAYS[0]) == ["w0", "d0", "w1", "d1", "w2", "d2", "w3", "d3"]
    assert collector.messages() == ["w0", "d0", "w1", "d1", "w2", "d2", "w3", "d3", "next"]
    assert sorted(Places(collector.path).made()) == [
        *(f"{DAYS[0]}T1{number}-00-00" for number in range(4)), f"{DAYS[1]}T00-00-00"]


def test_a_database_that_comes_after_its_day_was_made_is_shown_once(collector: Collector) -> None:
    collector.database(f"{DAYS[0]}T10-00-00", plain("web", 1, "a"))
    collector.database(f"{DAYS[1]}T10-00-00", plain("web", 3, "c"))
    collector.make()
    collector.database(f"{DAYS[0]}T11-00-00", plain("web", 2, "b"))
    collector.make()
    assert collector.messages() == ["a", "b", "c"]
    assert f"{DAYS[0]}.2/all.journal" in journals(collector)


def test_days_over_read_days_go_and_databases_stay(tmp_path: Path) -> None:
    collector = Collector(tmp_path / "collector", settings={"READ_DAYS": "3"})
    for number, day in enumerate(DAYS):
        collector.database(f"{day}T10-00-00", plain("web", number + 1, day))
        collector.make()
    assert collector.messages() == DAYS[-3:]
    assert len(list((collector.path / "databases").glob("*.db"))) == len(DAYS)
    # A clock that was wrong once costs a day at most.
    collector.database("2099-01-01T10-00-00", plain("web", 99, "ahead"))
    collector.make()
    assert collector.messages() == [*DAYS[-2:], "ahead"]


def test_made_anew_it_is_the_same(collector: Collector) -> None:
    for number, day in enumerate(DAYS[:3]):
        collector.database(f"{day}T10-00-00", plain("web", number + 1, day))
    collector.make()
    before = journals(collector)
    shutil.rmtree(collector.path / "journals" / DAYS[0])
    (collector.path / "journals" / DAYS[1] / "all.journal").write_bytes(b"damaged")
    assert collector.make("--anew").returncode == 0
    assert (journals(collector), collector.messages()) == (before, DAYS[:3])


def test_packed_databases_are_read(collector: Collector) -> None:
    collector.database(f"{DAYS[0]}T10-00-00", plain("web", 1, "packed"))
    path = collector.path / "databases" / f"{DAYS[0]}T10-00-00.db"
    subprocess.run(["zstd", "-q", "--rm", path], check=True)
    assert collector.make().returncode == 0
    assert collector.messages() == ["packed"]


def test_what_isnt_taken_is_counted_and_the_rest_is_there(collector: Collector) -> None:
    odd, early = plain("web", 2, "odd"), plain("web", 3, "early", realtime=0)
    odd.fields["lower"] = "case"
    early.monotonic = 1
    collector.database(f"{DAYS[0]}T10-00-00", plain("web", 1, "a"), odd, early, plain("web", 4, "d"))
    assert collector.make().returncode == 0
    collector.database(f"{DAYS[1]}T10-00-00", plain("web", 5, "e"))
    collector.make()
    assert collector.messages() == ["a", "d", "e"]
    told = json.loads((collector.path / "journals" / DAYS[0] / "about.json").read_text())["untaken"]
    assert told == {"a field's name is none of journald's": 1, "their time is none that a journal file can have": 1}


def test_a_damaged_database_is_told_and_the_others_are_made(collector: Collector) -> None:
    collector.database(f"{DAYS[0]}T10-00-00", plain("web", 1, "a"))
    collector.database(f"{DAYS[0]}T11-00-00", plain("web", 2, "b"))
    (collector.path / "databases" / f"{DAYS[0]}T10-00-00.db").write_bytes(b"no database" * 999)
    done = collector.make()
    assert done.returncode == 1 and f"{DAYS[0]}T10-00-00" in done.stderr
    assert collector.messages() == ["b"]


def test_a_day_that_cannot_be_made_is_told_and_shown_by_its_databases(collector: Collector) -> None:
    name = f"{DAYS[0]}T10-00-00"
    collector.database(name, plain("web", 1, "a"))
    assert collector.make().returncode == 0
    os.truncate(collector.path / "journals" / "today" / f"{name}.gz", 20)
    collector.database(f"{DAYS[1]}T10-00-00", plain("web", 2, "b"))
    done = collector.make()
    assert done.returncode == 1 and f"none are made of {DAYS[0]}: " in done.stderr and "Traceback" not in done.stderr
    assert journals(collector) == [f"today/{name}.journal", f"today/{DAYS[1]}T10-00-00.journal"]
    assert collector.messages() == ["a", "b"]


def test_a_run_that_is_killed_leaves_nothing_that_counts(collector: Collector) -> None:
    """Whenever it is killed, what is shown is nothing or all of a database, and the next run makes the rest."""
    names = [f"{DAYS[day]}T1{number}-00-00" for day in range(2) for number in range(3)]
    for number, name in enumerate(names):
        collector.database(name, *(plain("web", number * 40 + each, f"{name} {each}") for each in range(1, 21)))
    for seconds in (0.15, 0.2, 0.25, 0.3, 0.35, 0.4, 0.5, 0.6):
        run = subprocess.Popen([sys.executable, "-B", "-m", "journalcollect.reading.making", collector.path],
                               env=collector.environment, stderr=subprocess.DEVNULL)
        time.sleep(seconds)
        run.kill()
        run.wait()
        lines = collector.messages()
        assert len(lines) == len(set(lines))
        assert all(sum(line.startswith(name) for line in lines) in (0, 20) for name in names)
    assert collector.make().returncode == 0
    assert collector.messages() == [f"{name} {each}" for name in names for each in range(1, 21)]
    assert Places(collector.path).made().keys() == set(names)
    assert not list(Places(collector.path).making.iterdir())


def test_keys_stand_in_the_files_if_they_are_asked_for(tmp_path: Path) -> None:
    collector = Collector(tmp_path / "collector", settings={"READ_KEYS": "yes"})
    collector.database(f"{DAYS[0]}T10-00-00", plain("web", 7, "seven"), plain("web", 8, "eight"))
    collector.make()
    assert collector.messages("_COLLECTED_SEQNUM=7", f"_COLLECTED_SEQNUM_ID={digits('sequence', 'web')}") == ["seven"]
