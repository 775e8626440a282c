"""The program is stopped at each call that changes a file, and within each write; and a device fails at each of its
calls, alone and with all later ones.

Every upload that was acknowledged has its entries in the journal afterwards. Beside these there are all or none of the
first upload that wasn't answered, or was answered by a failure of the store, and nothing else. The same uploads sent
again complete the journal. A journal that goes over to tables of the present version is whole, in the old tables or in
the new ones. A resume file is the old or the new one whole, and so is the file of
`collect --then-export`.
"""
from __future__ import annotations

import os
import shutil
import signal
from concurrent.futures import Executor

import device
import samples
from collecting import Collecting
from exporting import Exporting
from migrating import Migrating
from scenarios import MANY, scenarios
from trial import PROGRAM, Trial, run
from upwards import NEVER, stops_and_failures, upwards

KILLED = ("", -signal.SIGKILL)
RESUME = ("--source", samples.SOURCE.hex(), "--resume")


def stopped(scenario: Collecting | Migrating, mode: str, number: int) -> bool:
    """The program ends at a call; answers whether it did."""
    what = f"{scenario.name}, stopped {'before' if mode == 'k' else 'within'} call {number}"
    database, told, calls = scenario.run(mode, number, NEVER, steady=True)
    output = told[0]
    if calls:
        scenario.trial.expect(what, (scenario.usual[0].startswith(output), *told[1:]), (True, *KILLED))
    else:
        scenario.trial.expect(what, told, scenario.usual)
    scenario.left(what, database, output.count(b"\n"))
    return bool(calls)


def failing(scenario: Collecting | Migrating, number: int, last: int, reads: bool, only: str = "") -> bool:
    """A device, or one of the two files alone, fails from one call to another; answers whether it did."""
    also = f"{', reads too' if reads else ''}{only and ', on file ' + only}"
    what = f"{scenario.name}, calls {number} to {last} fail{also}"
    database, told, calls = scenario.run("f", number, last, reads=reads, only=only, steady=True)
    scenario.failed(what, database, told)
    return bool(calls)


def sweep(trial: Trial, pool: Executor, scenario: Collecting | Migrating) -> int:
    step = 3 if scenario.name == MANY else 1
    told, calls = scenario.run("n", 0, 0)[1:]
    trial.expect(f"{scenario.name}: undisturbed", told, scenario.usual)
    stops = sum(upwards(pool, lambda number: stopped(scenario, mode, number), step) for mode in "kh")
    alone = upwards(pool, lambda number: failing(scenario, number, number, True), step)
    later = [upwards(pool, lambda number: failing(scenario, number, NEVER, reads), step) for reads in (False, True)]
    fuses = {name: upwards(pool, lambda number: failing(scenario, number, NEVER, True, only), step)
             for name, only in device.FILES.items()}
    print(f"stops: {scenario.name}: {len(calls)} calls that change a file; {stops} stops, {alone} calls failed alone, "
          f"{later[0]} with all later ones, {later[1]} with later reads too, and so on one file: {fuses}")
    return stops + alone + sum(later) + sum(fuses.values())


class Acks:
    """An answer that moves a resume point on."""

    OLD = f"resume 1 {samples.SEQNUM_ID.hex()} 1\n".encode()
    NEW = f"resume 2 {samples.SEQNUM_ID.hex()} 2\n".encode()
    ANSWER = f"ack {samples.SOURCE.hex()} 1 1 1 0\n".encode()
    USUAL = (b"resume 2\n", "", 0)

    def __init__(self, trial: Trial) -> None:
        self.trial = trial

    def once(self, mode: str, number: int, last: int, reads: bool = False) -> bool:
        what = f"ack, calls {number} to {last}, mode {mode}"
        trial = self.trial
        source, resume = trial.put([samples.E1 + samples.E2, self.OLD])
        words = ["ack", *RESUME, resume, "export", source]
        told, calls = device.run(trial.library, mode, number, last, [PROGRAM, *words], self.ANSWER, reads)
        if told != self.USUAL:
            whys = ("read failed", "write failed", f"cannot open {resume}", f"cannot open {source}")
            may_be = [(f"{why}\n", 3) for why in whys] if mode == "f" else [KILLED]
            trial.expect(f"{what}: {told}", told[1:] in may_be and self.USUAL[0].startswith(told[0]), True)
        with open(resume, "rb") as file:
            left = file.read()
        trial.expect(f"{what}: resume file", left in ([self.NEW] if told[0] else [self.OLD, self.NEW]), True)
        trial.expect(f"{what}: again", run(*words, stdin=self.ANSWER), self.USUAL)
        trial.expect(f"{what}: what lies beside it", os.listdir(os.path.dirname(resume)).count("upload-1.new"), 0)
        shutil.rmtree(os.path.dirname(resume))
        return bool(calls)

    def in_order(self) -> None:
        """The new text is synced before it takes the file's name, and the folder after that."""
        source, resume = self.trial.put([samples.E1 + samples.E2, self.OLD])
        words = [PROGRAM, "ack", *RESUME, resume, "export", source]
        told, calls = device.run(self.trial.library, "n", 0, 0, words, self.ANSWER)
        operations = b"".join(call.operation for call in calls if call.kind == b"o")
        self.trial.expect("ack: calls that change a file", (told, operations), (self.USUAL, b"cwsms"))

    def sweep(self, pool: Executor) -> int:
        self.in_order()
        return stops_and_failures("ack", pool, self.once)


def main() -> None:
    with device.trial_of("stops") as (trial, pool):
        tried = sum(sweep(trial, pool, scenario) for scenario in scenarios(trial))
        tried += Acks(trial).sweep(pool) + Exporting(trial).sweep(pool)
        trial.finish(f"{tried} runs")


if __name__ == "__main__":
    main()
