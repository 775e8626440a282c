"""A disk that is full: no file may grow past a size, and the writes that would pass it fail.

What was acknowledged is stored, an upload that was answered 62 is stored whole or not at all, and the same uploads sent
again with room for them complete the journal.
"""
from __future__ import annotations

import os
import resource
import signal
import sys
from collections.abc import Callable

from make import Machine
from trial import Trial, answers, run

sys.path.insert(0, os.path.join(os.path.dirname(os.path.abspath(__file__)), "..", "stops"))
from collecting import WORDS, Collecting, Listed  # noqa: E402

SIZES = 60


def limited(size: int) -> Callable[[], None]:
    """What a process does first, so that no file of it grows past a size."""
    def limit():
        signal.signal(signal.SIGXFSZ, signal.SIG_IGN)
        resource.setrlimit(resource.RLIMIT_FSIZE, (size, size))
    return limit


def try_size(scenario: Collecting, size: int) -> int:
    """A run that finds no more room; answers how many uploads failed."""
    trial, what, database = scenario.trial, f"{scenario.name}, full at {size} bytes", scenario.prepare()
    words = [*scenario.words, database, *scenario.names]
    told = run(*words, preexec_fn=limited(size))
    journals = scenario.told(what, database, told)
    found = trial.left(what, database, journals)
    trial.expect(f"{what}: no journal", found is None and bool(told[0]), False)
    journal = journals[found or 0]
    trial.expect(f"{what}: sent again", run(*words), answers(journal, scenario.uploads))
    trial.holds(f"{what}: complete", database, journal)
    return told[0].count(b" 62 0\n")


def main() -> None:
    with Trial("full disk") as trial:
        machine = Machine(trial.dice, 60)
        uploads = [machine.stream(first, first + trial.dice.randint(1, 20)) for first in range(0, 60, 4)]
        uploads.append(machine.file(60))
        scenarios = Collecting(trial, "by names", uploads), Listed(trial, "by a list", uploads, WORDS)
        failures = 0
        for number in range(SIZES):
            size = 1536 * number if number < 30 else trial.dice.randrange(600_000)
            failures += try_size(trial.dice.choice(scenarios), size)
        trial.expect("uploads that found no room", failures > 0, True)
        trial.finish(f"{SIZES} sizes", f"{failures} uploads answered 62")


if __name__ == "__main__":
    main()
