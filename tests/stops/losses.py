"""Power is lost between any two calls that change a file: what wasn't synced is gone, or there in part.

What a run writes is noted, and from that the files are made as a device may have them: of each change since a file was
last synced nothing, all, a beginning or some sectors, each sector old or new below the end that was synced, and
anything past it. Every upload that was acknowledged before the loss has its entries in the journal then, beside these
there are none or all of the next one, and the same uploads complete it. A journal that goes over to tables of the
present version is whole, in the old tables or in the new ones. All this rests on a device that keeps what it said is
synced, finishes each sector that it begins, and changes none that it wasn't asked to.

The same is asked where a device first fails a sync of one of the two files, and each later call on it, and the run
ends by itself: then all is gone that wasn't synced.
"""
from __future__ import annotations

import os
import shutil
from collections.abc import Iterable, Iterator, Sequence
from concurrent.futures import Executor
from random import Random

import device
from collecting import Collecting
from migrating import Migrating
from scenarios import scenarios
from upwards import NEVER

# How often power is lost at one place, each time with other changes kept.
LOSSES = 6
# The files of a database, as device.c calls them, and what their paths end in.
ENDS = {b"d": "", b"l": "-wal"}


def begun(scenario: Collecting | Migrating) -> dict[bytes, device.Disk]:
    """The disks as a run begins."""
    disks = {kind: device.Disk() for kind in ENDS}
    for kind, end in ENDS.items():
        if scenario.base and os.path.exists(scenario.base + end):
            disks[kind].hold(scenario.base + end)
    return disks


def states(
    scenario: Collecting | Migrating, calls: Iterable[device.Call]
) -> Iterator[tuple[dict[bytes, device.Disk], int]]:
    """The disks after none of the calls, after the first, and so on, with the number of lines printed so far."""
    disks = begun(scenario)
    answered = 0
    yield disks, answered
    for call in calls:
        if call.kind in disks:
            disks[call.kind].take(call)
        answered += call.data.count(b"\n") if call.kind == b"1" else 0
        yield disks, answered


def lost(
    scenario: Collecting | Migrating, dice: Random, calls: Iterable[device.Call]
) -> Iterator[tuple[str, int, list[bool], list[bytes]]]:
    """The files that losses of power leave, each with a name and with the number of lines that were printed."""
    for number, (disks, answered) in enumerate(states(scenario, calls)):
        there = [disk.is_there for disk in disks.values()]
        for time in range(LOSSES if any(disk.changes for disk in disks.values()) else 1):
            files = [disk.after_loss(dice) for disk in disks.values()]
            yield f"{scenario.name}, power lost after {number} calls, {time}", answered, there, files


def judge(scenario: Collecting | Migrating, what: str, answered: int, there: list[bool], files: list[bytes]) -> None:
    database = scenario.trial.database()
    write(database, there, files)
    scenario.left(what, database, answered)


def write(database: str, there: Iterable[bool], files: Iterable[bytes]) -> None:
    """Makes the files of a database that are there."""
    for end, is_there, data in zip(ENDS.values(), there, files):
        if is_there:
            with open(database + end, "wb") as file:
                file.write(data)


def syncs(calls: Sequence[device.Call]) -> Iterator[tuple[str, int]]:
    """The syncs of the two files: each one's number among the calls that change its file."""
    for only in device.FILES.values():
        own = [call.operation for call in calls if call.kind == only.encode()]
        yield from ((only, number) for number, operation in enumerate(own, 1) if operation == b"s")


def failed(scenario: Collecting | Migrating, only: str, number: int) -> bool:
    """One of the files fails from a call on, and then all is lost that wasn't synced; answers whether it failed."""
    database, told, calls = scenario.run("e", number, NEVER, only=only)
    disks = begun(scenario)
    for call in calls:
        if call.kind in disks:
            disks[call.kind].take(call)
    shutil.rmtree(os.path.dirname(database))
    os.mkdir(os.path.dirname(database))
    write(database, [disk.is_there for disk in disks.values()], [disk.synced for disk in disks.values()])
    what = f"{scenario.name}, calls from {number} fail on file {only}, and power is lost"
    scenario.failed(what, database, told)
    return any(call.operation == b"x" for call in calls)


def sweep(scenario: Collecting | Migrating, pool: Executor) -> int:
    told, calls = scenario.run("n", 0, 0)[1:]
    scenario.trial.expect(f"{scenario.name}: undisturbed", told, scenario.usual)
    cases = list(lost(scenario, scenario.trial.dice, calls))
    list(pool.map(lambda case: judge(scenario, *case), cases))
    behind = list(pool.map(lambda sync: failed(scenario, *sync), syncs(calls)))
    scenario.trial.expect(f"{scenario.name}: syncs failed", bool(behind) and all(behind), True)
    print(f"losses: {scenario.name}: {len(cases)} losses of power at {len(calls) + 1} places, {len(behind)} behind "
          "syncs that failed")
    return len(cases) + len(behind)


def main() -> None:
    with device.trial_of("losses") as (trial, pool):
        trial.finish(f"{sum(sweep(scenario, pool) for scenario in scenarios(trial))} losses of power")


if __name__ == "__main__":
    main()
