"""What the measurements share: runs of programs, inputs, and what there is to say of the machine.

A process begins with the memory of the one that starts it, so little is imported here, and measurements are run without
site packages (python3 -ES).
"""
from __future__ import annotations

import os
import sys
import time
from collections.abc import Callable, Iterable, Sequence

HERE = os.path.dirname(os.path.abspath(__file__))
OUT = os.path.join(HERE, "out")
ROUNDS = 5


class Run:
    """What one run took: seconds, those of a processor, those in which the process itself computed, and its memory at
    its peak in MiB."""

    def __init__(
        self, command: Sequence[str], output: str = "/dev/null", errors: str | None = None, status: int = 0
    ) -> None:
        flags = os.O_WRONLY | os.O_CREAT | os.O_TRUNC
        files = [(os.POSIX_SPAWN_OPEN, number, path, flags, 0o644)
                 for number, path in ((1, output), (2, errors)) if path]
        start = time.monotonic()
        process = os.posix_spawnp(command[0], command, os.environ, file_actions=files)
        _, ended, usage = os.wait4(process, 0)
        self.seconds = time.monotonic() - start
        self.user = usage.ru_utime
        self.processor = usage.ru_utime + usage.ru_stime
        self.peak = usage.ru_maxrss / 1024
        if os.waitstatus_to_exitcode(ended) != status:
            raise OSError(f"it failed: {' '.join(command[:4])}")


class Runs:
    """Several runs of one command: the best, and how far the others are from it."""

    def __init__(self, runs: list[Run]) -> None:
        self.runs = runs
        best = min(runs, key=lambda run: run.seconds)
        self.seconds = best.seconds
        self.user = min(run.user for run in runs)
        self.processor = min(run.processor for run in runs)
        self.peak = best.peak

    def spread(self) -> float:
        """How much longer the longest took than the best, in percent."""
        return 100 * (max(run.seconds for run in self.runs) / self.seconds - 1)


def interleaved(
    commands: Sequence[Sequence[str]], before: Callable[[int], object] = lambda index: None, status: int = 0
) -> list[Runs]:
    """Runs several commands in turn, round after round, so that what slows the machine down slows all of them."""
    rounds = []
    for _ in range(ROUNDS):
        row = []
        for index, command in enumerate(commands):
            before(index)
            row.append(Run(command, status=status))
        rounds.append(row)
    return [Runs(list(runs)) for runs in zip(*rounds)]


def best(command: Sequence[str], before: Callable[[int], object] = lambda index: None, status: int = 0) -> Runs:
    return interleaved([command], before, status)[0]


def makers_changed() -> float:
    """When one of the scripts that make inputs was changed last."""
    return max(os.path.getmtime(os.path.join(HERE, name)) for name in os.listdir(HERE) if name.startswith("make_"))


def made(name: str, script: str, *arguments: object) -> str:
    """A file that a script writes for some arguments. It is made if it isn't there, or if a script has changed
    since."""
    path = os.path.join(OUT, name)
    if not os.path.exists(path) or os.path.getmtime(path) < makers_changed():
        Run([sys.executable, os.path.join(HERE, script), *map(str, arguments)], path + ".part")
        os.rename(path + ".part", path)
    return path


def megabytes(paths: Iterable[str]) -> float:
    """The size of files, in MB of 10^6 bytes."""
    return sum(map(os.path.getsize, paths)) / 1e6


def forget(database: str) -> None:
    """Removes a database and what lies beside it."""
    for name in os.listdir(OUT):
        if name.startswith(os.path.basename(database)):
            os.remove(os.path.join(OUT, name))


def output_of(command: Sequence[str]) -> str:
    """The first line that a command prints, or `unknown`."""
    path = os.path.join(OUT, "told")
    try:
        Run(command, path, "/dev/null")
        with open(path, encoding="utf-8", errors="replace") as file:
            return file.readline().strip()
    except OSError:
        return "unknown"


def processor() -> str:
    with open("/proc/cpuinfo", encoding="utf-8") as file:
        names = [line.split(":", 1)[1].strip() for line in file if line.startswith("model name")]
    return f"{len(names)} x {names[0]}" if names else "unknown"


def say_machine(program: str) -> None:
    """Prints what figures depend on."""
    print(f"program: {output_of([program, '--version'])}")
    print(f"processors: {processor()}")
    print(f"kernel: {os.uname().release}; file system: {output_of(['stat', '-f', '-c', '%T', OUT])}")
    print(f"load before: {' '.join(f'{load:.1f}' for load in os.getloadavg())}", flush=True)
