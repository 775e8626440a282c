"""The present: what is acknowledged is followed at once, each entry once, through turns, kills and restarts."""
import random
import subprocess
import time
from collections import Counter
from collections.abc import Iterator
from contextlib import contextmanager
from pathlib import Path

import processes
import pytest
from collecting import BEGIN, REMOTE, SEARCH, Collector, Present, plain
from waiting import wait_until

# Of a day that isn't over, whenever this runs: what is made of it stands by itself.
NAMES = ["2097-11-30T10-00-00", "2097-11-30T10-10-00", "2097-11-30T10-20-00", "2097-11-30T10-30-00"]


class Followed:
    """A process that follows, and what it said."""

    def __init__(self, path: Path, words: list[str | Path], environment: dict[str, str]) -> None:
        self.path = path
        with path.open("wb") as file:
            self.process = subprocess.Popen(words, stdout=file, stderr=subprocess.DEVNULL, env=environment)

    @property
    def lines(self) -> list[str]:
        """Those that are whole."""
        return self.path.read_text().split("\n")[:-1]

    def end(self) -> None:
        self.process.terminate()
        self.process.wait()


@pytest.fixture
def followed(collector: Collector) -> Iterator[list[Followed]]:
    """journalctl over the folder, and the front."""
    folder = collector.path / "journals" / "present"
    (folder.parent / "today").mkdir(parents=True)
    folder.mkdir()
    both = [Followed(collector.path / "plain", ["journalctl", "-D", folder, "-f", "-m", "--no-tail", "-o", "cat"],
                     collector.environment),
            Followed(collector.path / "front", [SEARCH, "-f", "--no-tail", "-o", "cat"], collector.environment)]
    yield both
    for each in both:
        each.end()


@contextmanager
def present(collector: Collector, told: list[str] | None = None) -> Iterator[Present]:
    running = Present(collector.path, (told if told is not None else []).append)
    running.start()
    try:
        yield running
    finally:
        running.stop()


def remotes(folder: Path) -> list[int]:
    """The processes of systemd-journal-remote that write in a folder."""
    there = {int(each.name): b" ".join(processes.words(int(each.name))) for each in Path("/proc").iterdir()
             if each.name.isdigit()}
    return [each for each, words in there.items()
            if b"systemd-journal-remote" in words and str(folder).encode() in words]


def test_an_entry_is_followed_at_once_and_in_the_order_in_which_it_came(
        collector: Collector, followed: list[Followed]) -> None:
    with present(collector) as running:
        for number, late in enumerate([0, 3600, 5, 0, 7200]):
            running.feed(collector.recent(NAMES[0], [plain("web", number + 1, f"m{number}", BEGIN - late * 1_000_000)]))
        for each in followed:
            wait_until(lambda: len(each.lines) == 5)
            assert each.lines == [f"m{number}" for number in range(5)]


def test_what_comes_again_in_another_upload_is_shown_once(collector: Collector, followed: list[Followed]) -> None:
    entries = [plain("web", number, f"m{number}") for number in range(1, 21)]
    with present(collector) as running:
        running.feed(collector.recent(NAMES[0], entries[:12]))
        running.feed(collector.recent(NAMES[0], entries[5:]))
        for each in followed:
            wait_until(lambda: len(each.lines) >= 20)
            assert each.lines == [f"m{number}" for number in range(1, 21)]


def test_what_waits_in_two_databases_is_followed_in_their_order(
        collector: Collector, followed: list[Followed], monkeypatch: pytest.MonkeyPatch) -> None:
    """What writes the first one's is slow to begin."""
    slow = collector.path / "remote"
    slow.write_text(f'#!/bin/sh\ncase $* in *present/{NAMES[0]}*) sleep 1 ;; esac\nexec {REMOTE} "$@"\n')
    slow.chmod(0o755)
    monkeypatch.setattr("journalcollect.reading.remote.REMOTE", slow)
    for number, name in enumerate(NAMES[:2]):
        collector.recent(name, [plain("web", number + 1, f"m{number}")])
    with present(collector):
        for each in followed:
            wait_until(lambda: "m1" in each.lines)
            assert each.lines == ["m0", "m1"]


def test_a_clock_that_was_set_back_costs_no_entry(collector: Collector, followed: list[Followed]) -> None:
    """A database that was begun later has an earlier name."""
    with present(collector) as running:
        running.feed(collector.recent(NAMES[1], [plain("web", 1, "m1")]))
        wait_until(lambda: all(each.lines == ["m1"] for each in followed))
    collector.recent(NAMES[1], [plain("web", 2, "m2")])
    collector.recent(NAMES[0], [plain("web", 3, "m3")])
    with present(collector):
        for each in followed:
            wait_until(lambda: "m3" in each.lines)
            assert each.lines == ["m1", "m2", "m3"]


def test_each_entry_once_through_kills_turns_and_restarts(collector: Collector, followed: list[Followed]) -> None:
    """Fifty moments: the remote is killed, the service is killed and begins anew, or a database is finished."""
    choose, expected, number = random.Random(5), [], 0
    running = Present(collector.path, print)
    running.start()
    turn = 0
    for moment in range(50):
        for _ in range(choose.randrange(1, 4)):
            batch = []
            for _ in range(choose.randrange(1, 30)):
                number += 1
                # A machine's clock goes by its own way, so the order in which entries come isn't that of their times.
                batch.append(plain(choose.choice(["web", "db"]), number, f"m{number}",
                                   BEGIN + number * 1000 - choose.randrange(5_000_000)))
            batch = [each for each in batch if each.machine == batch[0].machine]
            expected += [each.fields["MESSAGE"] for each in batch]
            running.feed(collector.recent(NAMES[0] + f"-{turn:02}", batch))
        time.sleep(choose.random() * 0.05)
        match choose.randrange(3):
            case 0:
                for process in remotes(collector.path):
                    processes.kill(process)
            case 1:
                running.events.put(None)
                running.join()
                running = Present(collector.path, print)
                running.start()
            case 2 if moment % 3 == 0:
                running.turn(NAMES[0] + f"-{turn:02}")
                turn += 1
    wait_until(lambda: all(len(each.lines) >= len(expected) for each in followed))
    running.stop()
    for each in followed:
        assert Counter(each.lines) == Counter(expected)
        assert each.lines == expected


def test_the_front_shows_the_last_entries_and_then_follows(collector: Collector) -> None:
    with present(collector) as running:
        for number in range(1, 35):
            running.feed(collector.recent(NAMES[number > 30], [plain("web", number, f"m{number}")]))
        collector.finish(NAMES[0])
        running.turn(NAMES[0])
        wait_until(lambda: (collector.path / "journals" / "today" / f"{NAMES[0]}.json").exists())
        known = [f"m{number}" for number in range(1, 35)]
        wait_until(lambda: collector.messages() == known)
        for number, (words, lines) in enumerate(((["-n", "10"], 10), (["-n3"], 3), (["--no-tail"], 50), ([], 10),
                                                 (["-n", "all"], 50))):
            one = Followed(collector.path / f"said{number}", [SEARCH, "-f", "-q", "-o", "cat", *words],
                           collector.environment)
            wait_until(lambda: one.lines == known[-lines:])
            running.feed(collector.recent(NAMES[1], [plain("db", number + 1, f"new{number}")]))
            known.append(f"new{number}")
            wait_until(lambda: one.lines[-1] == known[-1])
            one.end()
            assert one.lines == known[-lines - 1:]


def test_a_finished_database_takes_the_place_of_its_present(collector: Collector) -> None:
    """An entry is shown once while both stand, and one that came late is found by its own time then."""
    late = plain("web", 9, "late", BEGIN - 3_600_000_000)
    with present(collector) as running:
        running.feed(collector.recent(NAMES[0], [plain("web", 5, "five"), late, plain("web", 10, "ten")]))
        wait_until(lambda: len(collector.messages()) == 3)
        collector.finish(NAMES[0])
        running.turn(NAMES[0])
        wait_until(lambda: (collector.path / "journals" / "today" / f"{NAMES[0]}.json").exists())
        wait_until(lambda: not (collector.path / "recent" / NAMES[0]).exists())
        assert (collector.path / "journals" / "present" / f"{NAMES[0]}.journal").exists()
        assert collector.messages() == ["late", "five", "ten"]
        assert collector.messages("--until", f"@{BEGIN // 1_000_000}") == ["late"]


def test_an_upload_that_cant_be_read_costs_no_other(collector: Collector) -> None:
    with present(collector) as running:
        for number, cut in enumerate((20, 1, 10_000), 1):
            pair = [plain("web", number * 2, f"m{number * 2}"), plain("web", number * 2 + 1, "cut")]
            path = collector.recent(NAMES[0], pair)
            path.write_bytes(path.read_bytes()[:-cut])
            running.feed(path)
        unreadable = collector.recent(NAMES[0], [plain("web", 7, "m7")])
        unreadable.unlink()
        unreadable.symlink_to("/proc/self/mem")         # what reads it is told what a disk tells
        running.feed(unreadable)
        running.feed(collector.recent(NAMES[0], [plain("web", 8, "m8")]))
        wait_until(lambda: collector.messages() == ["m2", "m4", "m8"])


def test_without_a_remote_nothing_of_a_finished_database_waits(
        collector: Collector, monkeypatch: pytest.MonkeyPatch) -> None:
    from journalcollect.reading import present as module, remote
    monkeypatch.setattr(remote, "REMOTE", Path("/nowhere/systemd-journal-remote"))
    monkeypatch.setattr(module, "MOST_FAILURES", 2)
    told: list[str] = []
    with present(collector, told) as running:
        running.feed(collector.recent(NAMES[0], [plain("web", 1, "one")]))
        collector.finish(NAMES[0])
        running.turn(NAMES[0])
        wait_until(lambda: not (collector.path / "recent" / NAMES[0]).exists())
    assert len(told) == 2 and "of the package of that name" in told[0]
