"""Collectors on one database at once: one has it, the others are refused with one line, and nothing is lost."""
from __future__ import annotations

import subprocess

from make import Machine
from model import Journal
from stock import IS_HERE, stock
from trial import ROWS, Trial, answers, as_output, run, start

RACES = 10
RACERS = 4


def while_one_waits(trial: Trial) -> None:
    """A collector has printed its first line and waits for its second upload, while others try to open the database."""
    machine = Machine(trial.dice, 30)
    database = trial.database()
    uploads = [machine.stream(0, 10), machine.stream(5, 20), machine.stream(20, 30)]
    names = trial.put(uploads)
    journal = Journal()
    answers = [as_output([journal.take(upload)]) for upload in uploads]
    refused = (b"", f"cannot open {database}\n", 3)
    with start("collect", database, names[0], "/dev/stdin", stdin=subprocess.PIPE) as first:
        trial.expect("the first one's first line", first.stdout.readline(), answers[0])
        first.stdin.write(uploads[1][:500])
        for words in (["collect", database, names[2]], ["export", database], ["show", database], ["check", database]):
            trial.expect(f"a second one, {words[0]}", run(*words), refused)
        trial.expect("a second one, standard input", run("collect", database, stdin=uploads[2]), refused)
        if IS_HERE:
            trial.expect("the stock sqlite3 beside it", stock(database, ROWS), None)
        told = first.communicate(uploads[1][500:])
    trial.expect("the first one's end", (told, first.returncode), ((answers[1], b""), 0))
    trial.expect("the second one, later", run("collect", database, names[2]), (answers[2], "", 0))
    trial.holds("after both", database, journal)


def race(trial: Trial, what: str) -> int:
    """Several start at one moment over a database that isn't there; each is refused, or gets all its answers."""
    machines = [Machine(trial.dice, 20) for _ in range(RACERS)]
    database = trial.database()
    uploads = [[machine.stream(0, 12), machine.file(20)] for machine in machines]
    names = [trial.put(each) for each in uploads]
    refused = ((b"", f"cannot open {database}\n".encode()), 3)
    journal = Journal()
    refusals = []
    racers = [start("collect", database, *each) for each in names]
    for number, process in enumerate(racers):
        told = (process.communicate(), process.returncode)
        if told == refused:
            refusals.append(number)
        else:
            trial.expect(f"{what}: lines", told, ((answers(journal, uploads[number])[0], b""), 0))
    trial.expect(f"{what}: one got through", len(refusals) < RACERS, True)
    trial.holds(what, database, journal)
    for number in refusals:
        again = run("collect", database, *names[number])
        trial.expect(f"{what}: sent again", again, answers(journal, uploads[number]))
    trial.holds(f"{what}: all of them", database, journal)
    return len(refusals)


def main() -> None:
    with Trial("at once") as trial:
        while_one_waits(trial)
        refusals = sum(race(trial, f"race {number}") for number in range(RACES))
        trial.finish(f"{RACES} races of {RACERS} collectors", f"{refusals} of them refused")


if __name__ == "__main__":
    main()
