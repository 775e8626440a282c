"""Random kills and damage: what was acknowledged is stored, nothing twice. CHAOS_ROUNDS and CHAOS_SEED say which."""
import os
import random
import signal
import threading
import time

import processes
import pytest
from conftest import Collector, Machine, entries, upload
from waiting import PATIENCE, wait_until

ROUNDS, SEED = int(os.environ.get("CHAOS_ROUNDS", "2")), int(os.environ.get("CHAOS_SEED", "1"))
MACHINES, SEQUENCES, DEEDS = 4, 2, 12


class Sender(threading.Thread):
    """A machine that sends what it has until all is acknowledged, as machines do: what isn't answered goes again."""

    def __init__(self, collector: Collector, number: int, dice: random.Random) -> None:
        super().__init__(daemon=True)
        self.collector, self.machine, self.dice = collector, f"m{number}", dice
        self.sequences = [f"{number:016x}{each:016x}" for each in range(SEQUENCES)]
        self.next = dict.fromkeys(self.sequences, 1)
        self.acknowledged: set[tuple[str, int]] = set()
        self.wrong: list[str] = []
        self.stops = threading.Event()

    def run(self) -> None:
        while not self.stops.is_set():
            try:
                machine = self.collector.connect(self.machine)
                while not self.stops.is_set():
                    self.send(machine)
                    time.sleep(self.dice.random() * 0.05)
            except OSError:
                time.sleep(0.1)

    def send(self, machine: Machine) -> None:
        """An upload of one or both sequences, with some entries that went before."""
        body, keys = b"", []
        for of in self.dice.sample(self.sequences, self.dice.randint(1, SEQUENCES)):
            first = max(1, self.next[of] - self.dice.choice((0, 0, 3, 20)))
            numbers = range(first, self.next[of] + self.dice.choice((1, 5, 40)))
            body += entries(of, numbers)
            keys += [(of, number) for number in numbers]
        answer = machine.send(upload(body, len(keys)))
        if answer.startswith("ack "):
            self.acknowledged.update(keys)
            for of, number in keys:
                self.next[of] = max(self.next[of], number + 1)
        elif not answer:
            raise OSError
        elif not answer.startswith("later "):
            self.wrong.append(answer)


def kill_program(collector: Collector) -> None:
    for each in collector.programs():
        processes.kill(each)


def begin_again(collector: Collector) -> None:
    collector.kill()
    collector.start()


def ended(collector: Collector) -> None:
    """It stops by itself, or has hardly begun."""
    assert collector.stop() in (0, -signal.SIGTERM)


def stop(collector: Collector) -> None:
    ended(collector)
    collector.start()


def finish(collector: Collector) -> None:
    collector.ask("status")                            # else it may have hardly begun, and the signal would end it
    assert collector.process
    collector.process.send_signal(signal.SIGHUP)


def forget(collector: Collector) -> None:
    collector.kill()
    (collector.folder / "state.sqlite").unlink(missing_ok=True)
    collector.start()


def damage_notes(collector: Collector) -> None:
    """While it doesn't run, after its databases are finished."""
    ended(collector)
    windows = [path for path in (collector.folder / "sequences").glob("*/*") if path.name == "0"]
    if windows:
        os.truncate(random.choice(windows), 0)
    collector.start()


def damage_database(collector: Collector) -> None:
    """A database that isn't finished is overwritten."""
    collector.kill()
    for path in collector.databases():
        if not path.with_name(path.name + ".sha256").exists() and path.stat().st_size > 4096:
            path.write_bytes(b"x" * path.stat().st_size)
            path.with_name(path.name + "-wal").unlink(missing_ok=True)
    collector.start()


EVENTS = [kill_program, kill_program, begin_again, begin_again, stop, finish, forget, damage_notes, damage_database]


@pytest.mark.parametrize("round", range(ROUNDS))
def test_what_was_acknowledged_is_stored(collector: Collector, round: int) -> None:
    dice = random.Random(SEED * 1000 + round)
    collector.values["DATABASE_SECONDS"] = dice.choice(("2", "600"))
    senders = [Sender(collector, number, random.Random(dice.random())) for number in range(MACHINES)]
    collector.start(*(sender.machine for sender in senders))
    for sender in senders:
        sender.start()
    done = []
    for _ in range(DEEDS):
        time.sleep(dice.random() * 2)
        event = dice.choice(EVENTS)
        done.append(event.__name__)
        event(collector)
    wait_until(lambda: all(sender.acknowledged for sender in senders))
    for sender in senders:
        sender.stops.set()
    for sender in senders:
        sender.join(2 * PATIENCE)
    stop(collector)                                    # a database whose program was killed last is taken up then
    wait_until(collector.is_begun)
    assert collector.stop() == 0
    stored = [(of, number) for of, number, _ in collector.stored()]
    acknowledged = set().union(*(sender.acknowledged for sender in senders))
    assert not [answer for sender in senders for answer in sender.wrong], done
    twice = {one for one, other in zip(stored, stored[1:]) if one == other}
    assert not twice, (done, sorted(twice)[:5])
    assert acknowledged <= set(stored), (done, sorted(acknowledged - set(stored))[:5])
    assert acknowledged
    print(len(acknowledged), done)
