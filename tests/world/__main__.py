"""Machines, a collector and one hostile machine, in rounds of random events, and a judge of what came of it.

usage: python3 tests/world [--rounds ROUNDS] [--seed SEED] [--pace PACE] [--only EVENT,..] [--keep]

Everything runs as it is installed, by its public commands: journal-collect-send with its service, the collector's
service, and journal-collect-admin; PROGRAM names the proved program. Journals are real journal files. Each computer has
a disk of its own, so power is lost by what had reached the disk. In the end faults cease, machines send what they have,
and: what was acknowledged is in one database, with its key and content; nothing is stored twice; what a journal has is
stored. It takes root, loop devices and systemd-journal-remote. Up to a second passes before each event, and so many
times as long as PACE says. What went wrong can be kept.
"""
from __future__ import annotations

import argparse
import os
import random
import shutil
import sys
import tempfile
import time
from pathlib import Path

sys.path.append(str(Path(__file__).resolve().parents[1]))
from computers import Collector, Machine  # noqa: E402
from disks import can_mount  # noqa: E402
from events import World  # noqa: E402
from journals import REMOTE  # noqa: E402
from judge import Entry, Judge, acknowledged  # noqa: E402
from waiting import wait_until  # noqa: E402

# An upload rests for up to so many seconds; so long nothing may be acknowledged in the end.
REST, PATIENCE = 300, 400.0


def calm(world: World) -> list[str]:
    """Faults cease, and all that journals have goes out. What doesn't come to rest is told."""
    world.end_hostile()
    for computer in world.computers():
        computer.disk.free()
        world.set_clock(computer, 0)
    world.collector.rests()
    wrong = []
    for machine in world.machines:
        machine.heal()
        machine.stop()
        machine.journal.grow(1)     # who has nothing to send doesn't hear that the collector was set back
        machine.journal.end()
    for machine in world.machines:
        if tail := not_at_rest(world, machine):
            wrong.append(f"{machine.name} doesn't come to rest: {tail}")
    wait_until(lambda: has_taken_up(world.collector), "all that the collector's last service left is taken up: that")
    if status := world.collector.stop():
        wrong.append(f"the service ended with {status}")
    return wrong


def has_taken_up(collector: Collector) -> bool:
    """A backup is made once nothing is left to be taken up, also where no machine had anything to send."""
    return collector.call("journal-collect-admin", "backup", collector.folder / "last").returncode == 0


def not_at_rest(world: World, machine: Machine) -> str:
    """Nothing of it, if it sends all; what it says, if for a while nothing more was acknowledged. Its clock goes on, so
    nothing rests for long."""
    count, end, clock = 0, 0.0, 0
    while True:
        if (now := len(list(machine.ledger.iterdir()))) > count:
            count, end = now, time.monotonic() + PATIENCE
        world.collector.start()
        world.set_clock(machine, clock := clock + REST)
        told = machine.once()
        if told.returncode == 0:
            return ""
        if time.monotonic() > (end or (end := time.monotonic() + PATIENCE)):
            return (told.stdout + told.stderr)[-300:].decode(errors="replace")
        time.sleep(0.5)


def lost(world: World, stored: list[Entry]) -> set[Entry]:
    """What may be missing: acknowledged before the collector was set back, and in no journal, or under another key."""
    there = {message for machine in world.machines for message in machine.journal.messages()}
    there -= {entry.message for entry in stored}
    return {entry for entry in world.at_risk if entry.message not in there}


def judged(world: World, rounds: int) -> list[str]:
    for number in range(rounds):
        world.round()
    wrong = calm(world)
    judge = Judge(world.collector, world.machines)
    wrong += judge.judge(lost(world, judge.stored))
    wrong += [f"{computer.folder.name}: it failed: {computer.said[computer.said.index('Traceback'):][:1500]}"
              for computer in world.computers() if "Traceback" in computer.said]
    count = sum(len(acknowledged(machine)) for machine in world.machines)
    events = ", ".join(f"{name} {count}" for name, count in sorted(world.counts.items()))
    print(f"{rounds} rounds: {events}; {count} entries acknowledged, {len(judge.stored)} stored")
    return wrong


def main() -> int:
    parser = argparse.ArgumentParser(description=__doc__, formatter_class=argparse.RawDescriptionHelpFormatter)
    parser.add_argument("--rounds", type=int, default=60)
    parser.add_argument("--seed", type=int, default=random.randrange(1 << 32))
    parser.add_argument("--pace", type=float, default=1.0)
    parser.add_argument("--only", default="")
    parser.add_argument("--keep", action="store_true")
    asked = parser.parse_args()
    folder = Path(tempfile.mkdtemp(prefix="world-"))
    if not REMOTE.exists() or os.geteuid() or not can_mount(folder):
        print("skipped: the world takes root, loop devices and systemd-journal-remote")
        return 0
    print(f"world: --seed {asked.seed}", flush=True)
    world = World(folder, asked.seed, asked.pace)
    if not world.library:
        print("skipped: clocks that are wrong, since the program can't be run with a library that sets them")
    if asked.only:
        world.events = {name: do for name, do in world.events.items() if name in asked.only.split(",")}
    wrong = ["it didn't come to its end"]
    try:
        wrong = judged(world, asked.rounds)
    finally:
        world.end_hostile()
        for computer in world.computers():
            computer.disk.kill()
        for each in wrong:
            print(f"WRONG: {each}")
        if asked.keep and wrong:
            print(f"it is kept in {folder}")
        else:
            for computer in world.computers():
                computer.disk.remove()
            shutil.rmtree(folder)
    return 1 if wrong else 0


if __name__ == "__main__":
    sys.exit(main())
