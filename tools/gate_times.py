"""Runs the gate, and says where its processor time goes: for each crate its proof, its tests, the code that `clang`
makes of it and its edits, in processor seconds, and the largest memory of one process.

usage: python3 tools/gate_times.py [COMMAND ..]

It looks at the running processes four times a second, so what a process does after the last look isn't counted: the
table's sum is a little below the whole, which stands under it. What a processor gets done in a second differs from
machine to machine and from hour to hour: so each minute one piece of work is timed, which is the same everywhere. The
table goes to build/gate-times.md too. The status is the gate's.
"""

from __future__ import annotations

import os
import resource
import signal
import statistics
import subprocess
import sys
import threading
import time
from collections import defaultdict
from dataclasses import dataclass

EVERY = 0.25
# Each minute a loop of so many steps is timed.
SPEED_EVERY = 60.0
STEPS = 1_000_000
TICKS = os.sysconf("SC_CLK_TCK")
KINDS = ("proof", "tests", "code", "edits")
# What the checker calls the copies of itself that check some of a crate's modules.
COPY = "antt-kernel"


@dataclass
class Process:
    """What is known of a process of the checker."""

    crate: str
    kind: str
    seconds: float = 0.0
    memory: int = 0


class Watch:
    """The processes of the checker, and of `clang` for it, below this one that were seen, by their number and the time
    of their start."""

    def __init__(self) -> None:
        self.seen: dict[tuple[int, str], Process] = {}
        self.of_others: set[tuple[int, str]] = set()
        self.ended = threading.Event()

    def look_again(self) -> None:
        while not self.ended.wait(EVERY):
            self.look()

    def look(self) -> None:
        for name in os.listdir("/proc"):
            if name.isdigit():
                try:
                    self._note(int(name))
                except (OSError, ValueError, IndexError, KeyError):
                    # it has ended meanwhile
                    continue

    def _note(self, number: int) -> None:
        name = _read(number, "comm").strip()
        if name not in ("rattle", COPY, "clang"):
            return
        fields = _fields(number)
        key = number, fields[19]
        if key not in self.seen:
            begun = None if key in self.of_others else self._begun(number, name)
            if begun is None:
                return
            if not _is_below(number, os.getpid()):
                self.of_others.add(key)
                return
            self.seen[key] = begun
        found = self.seen[key]
        found.seconds = (int(fields[11]) + int(fields[12])) / TICKS
        status = dict(it.split(":", 1) for it in _read(number, "status").splitlines())
        found.memory = max(found.memory, int(status["VmHWM"].split()[0]) * 1024)

    def _begun(self, number: int, name: str) -> Process | None:
        """A process that is seen for the first time, if it is known what it is for."""
        if name == "clang":
            crate = self._caller(number)
            return Process(crate, "code") if crate else None
        words = _read(number, "cmdline").split("\0")
        if "--crate-name" not in words:
            return None
        folder = os.path.basename(os.readlink(f"/proc/{number}/cwd"))
        return Process(words[words.index("--crate-name") + 1], kind_of(words, folder))

    def _caller(self, number: int) -> str | None:
        """The crate of the checker's process that a process runs for."""
        crates = {of: it.crate for (of, _), it in self.seen.items()}
        while number not in crates and number > 1:
            number = int(_fields(number)[1])
        return crates.get(number)


class Speed:
    """How many processor seconds the same piece of work took, each time that it was timed."""

    def __init__(self) -> None:
        self.took: list[float] = []
        self.ended = threading.Event()

    def time_again(self) -> None:
        self.time_once()
        while not self.ended.wait(SPEED_EVERY):
            self.time_once()

    def time_once(self) -> None:
        begin, total = time.thread_time(), 0
        for step in range(STEPS):
            total += step * step % 7
        self.took.append(time.thread_time() - begin)

    def __str__(self) -> str:
        middle, least, most = statistics.median(self.took), min(self.took), max(self.took)
        return f"A loop of {STEPS:,} steps in Python took {middle:.2f} s of a processor ({least:.2f} to {most:.2f})."


def _fields(number: int) -> list[str]:
    """The fields of a process's stat after its name, which may have blanks: its state, its parent and so on."""
    return _read(number, "stat").rpartition(")")[2].split()


def _is_below(number: int, top: int) -> bool:
    while number not in (0, top):
        number = int(_fields(number)[1])
    return number == top


def _read(number: int, file: str) -> str:
    with open(f"/proc/{number}/{file}", encoding="utf-8", errors="replace") as it:
        return it.read()


def kind_of(words: list[str], folder: str) -> str:
    """What a command of the checker is for, by its arguments and the folder that it works in."""
    if folder.startswith("refused-"):
        return "edits"
    return "tests" if "--test" in words else "proof"


def table(seen: list[Process]) -> str:
    """The table by crate, in the order of their sums, the dearest first."""
    seconds: dict[str, dict[str, float]] = defaultdict(lambda: dict.fromkeys(KINDS, 0.0))
    memory: dict[str, int] = defaultdict(int)
    for it in seen:
        seconds[it.crate][it.kind] += it.seconds
        memory[it.crate] = max(memory[it.crate], it.memory)
    rows = sorted(seconds.items(), key=lambda it: -sum(it[1].values()))
    lines = [_row("crate", *KINDS, "sum", "largest"), _row(*["---"] * (len(KINDS) + 3))]
    lines += [_row(crate, *_numbers(of_kind), f"{memory[crate] / 1e9:.1f} GB") for crate, of_kind in rows]
    sums = {kind: sum(of_kind[kind] for _, of_kind in rows) for kind in KINDS}
    lines.append(_row("sum", *_numbers(sums), f"{max(memory.values(), default=0) / 1e9:.1f} GB"))
    return "\n".join(lines)


def _row(*cells: str) -> str:
    return f"| {' | '.join(cells)} |"


def _numbers(of_kind: dict[str, float]) -> list[str]:
    return [f"{it:.0f}" for it in [*of_kind.values(), sum(of_kind.values())]]


def main(command: list[str]) -> int:
    watch, speed, begin = Watch(), Speed(), time.monotonic()
    beside = [threading.Thread(target=it, daemon=True) for it in (watch.look_again, speed.time_again)]
    for it in beside:
        it.start()
    with subprocess.Popen(command) as gate:
        # an interrupt at the terminal reaches the gate too, which then ends all that it started
        signal.signal(signal.SIGINT, signal.SIG_IGN)
        status = gate.wait()
    for ended in (watch.ended, speed.ended):
        ended.set()
    for it in beside:
        it.join()
    used = resource.getrusage(resource.RUSAGE_CHILDREN)
    whole = (used.ru_utime + used.ru_stime) / 60
    minutes = (time.monotonic() - begin) / 60
    said = table(list(watch.seen.values()))
    said += f"\n\nThe whole took {whole:.0f} processor minutes, in {minutes:.0f} minutes. {speed}"
    os.makedirs("build", exist_ok=True)
    with open("build/gate-times.md", "w", encoding="utf-8") as file:
        file.write(said + "\n")
    print(said)
    return status


if __name__ == "__main__":
    sys.exit(main(sys.argv[1:] or ["tests/run.sh"]))
