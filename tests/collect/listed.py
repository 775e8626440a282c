"""Uploads that a list names, many in one run with few files open, and names that come one by one through a pipe.

Every line, the status and the export are held against the model's, and against the same uploads among the arguments.
"""
from __future__ import annotations

import resource
import select
import subprocess
from collections.abc import Iterable
from random import Random

from make import Machine
from model import Journal
from trial import Trial, answers, as_output, run, start, status_of

MANY = 1000
OPEN_FILES = 64
# How many names come one by one, and how long the answer to one is waited for, in seconds.
ONE_BY_ONE = 20
PATIENCE = 600


def few_files() -> None:
    """Lets the process have few files open."""
    resource.setrlimit(resource.RLIMIT_NOFILE, (OPEN_FILES, OPEN_FILES))


def as_list(names: Iterable[str]) -> bytes:
    return "".join(name + "\n" for name in names).encode()


def uploads_of(dice: Random, count: int) -> list[bytes]:
    """Uploads of a few entries each; some were made before, some are in conflict or broken."""
    machine = Machine(dice, count)
    made = []
    for at in range(count):
        sound = machine.stream(at, min(at + 2, count))
        bad = machine.stream(at, at + 1) + b"=x\n"
        made.append(dice.choice((sound, sound, sound, bad, machine.other(at), dice.choice(made or [sound]))))
    return made


def many_in_a_list(trial: Trial) -> int:
    """The list is a file, and then standard input: the answers are those to the same uploads among the arguments."""
    uploads = uploads_of(trial.dice, MANY)
    names = trial.put(uploads)
    journal = Journal()
    usual = answers(journal, uploads)
    listed, piped, named = (trial.database() for _ in range(3))
    [path] = trial.put([as_list(names)])
    trial.expect("many, by a list", run("collect", listed, "--files-from", path, preexec_fn=few_files), usual)
    told = run("collect", piped, "--files-from", "-", stdin=as_list(names), preexec_fn=few_files)
    trial.expect("many, by standard input", told, usual)
    trial.expect("many, by arguments", run("collect", named, *names), usual)
    for database in (listed, piped, named):
        trial.holds("many", database, journal)
    return len(uploads)


def without_files(trial: Trial) -> None:
    """A name that can't be opened after each upload: every one is answered and reported."""
    uploads = uploads_of(trial.dice, 30)
    journal = Journal()
    lines, names, missing = [], [], []
    for name, upload in zip(trial.put(uploads), uploads):
        names += [name, f"{name}-missing"]
        missing.append(f"{name}-missing")
        lines += [journal.take(upload), "no - - 61 0"]
    database = trial.database()
    told = run("collect", database, "--files-from", "-", stdin=as_list(names))
    trial.expect("missing", told, (as_output(lines), "".join(f"cannot open {name}\n" for name in missing), 3))
    trial.holds("missing", database, journal)


def next_line(process: subprocess.Popen[bytes]) -> bytes:
    """The next line of a process that is running, or what came of it in time."""
    line = b""
    while not line.endswith(b"\n") and select.select([process.stdout], [], [], PATIENCE)[0]:
        byte = process.stdout.read(1)
        if not byte:
            break
        line += byte
    return line


def one_by_one(trial: Trial) -> None:
    """A name comes once the answer to the one before it is out, and the pipe stays open. With its end the beginning of
    the next one may come."""
    uploads = uploads_of(trial.dice, ONE_BY_ONE)
    journal = Journal()
    database = trial.database()
    process = start("collect", database, "--files-from", "-", stdin=subprocess.PIPE, preexec_fn=few_files)
    lines, names = [], trial.put(uploads)
    cuts = [0, *(trial.dice.randint(0, len(name)) for name in names[1:]), 0]
    for name, after, cut, cut_after, upload in zip(names, [*names[1:], ""], cuts, cuts[1:], uploads):
        lines.append(journal.take(upload))
        process.stdin.write(f"{name[cut:]}\n{after[:cut_after]}".encode())
        trial.expect("one by one", next_line(process), as_output(lines[-1:]))
    output, errors = process.communicate(timeout=PATIENCE)
    trial.expect("one by one, at the end", (output, errors, process.returncode), (b"", b"", status_of(lines)))
    trial.holds("one by one", database, journal)


def many_by_arguments_need_more(trial: Trial) -> None:
    """Among the arguments these are too many uploads for so few open files, so the lists above show something."""
    names = trial.put([Machine(trial.dice, 1).stream(0, 1)]) * OPEN_FILES
    told = run("collect", trial.database(), *names, preexec_fn=few_files)
    trial.expect("by arguments, with few files", told, (b"", f"cannot open {names[0]}\n", 3))


def main() -> None:
    with Trial("listed") as trial:
        count = many_in_a_list(trial)
        without_files(trial)
        one_by_one(trial)
        many_by_arguments_need_more(trial)
        trial.finish(f"{count} uploads by a list with {OPEN_FILES} files open, {ONE_BY_ONE} by a pipe that stays open")


if __name__ == "__main__":
    main()
