"""Proves and builds a program and the libraries that it uses, and nothing else: no test, no edit.

usage: python3 tools/build.py PROGRAM

Libraries that don't stand on one another are built side by side, as many as there are processors and memory for, or
RT_JOBS of them, and what the longest chain of others waits for by several processors (lanes.py). It says first about
how long it will take, and then how far it is. What the checks print goes to build/NAME.log. Libraries that stand
already, from the sources as they are, aren't built again.
"""

from __future__ import annotations

import math
import os
import re
import subprocess
import sys
import threading
import time
from typing import Any, TextIO

import kit
import lanes

# Processor seconds that a line of a crate's code takes to be proved, on the whole (docs/GATE.md), with a fifth more for
# what checks by several processors do twice.
SECONDS_A_LINE = 0.37
# How much of the free memory the checks may take by what the toolchain reckons: some take a fifth more than that.
MEMORY = 0.85
# How often it says how far it is, in seconds.
EVERY = 20


class Progress:
    """What runs, since when, and how many of its functions are checked."""

    def __init__(self) -> None:
        self.begin = time.monotonic()
        self.running: list[str] = []
        self.ended = threading.Event()

    def say(self, text: str) -> None:
        minutes, seconds = divmod(int(time.monotonic() - self.begin), 60)
        print(f"{minutes:3}:{seconds:02}  {text}", flush=True)

    def repeat(self) -> None:
        while not self.ended.wait(EVERY):
            if self.running:
                self.say(", ".join(f"{it}: {_checked(it)}" for it in list(self.running)))


def _log(name: str) -> str:
    return os.path.join("build", f"{name}.log")


def _checked(name: str) -> str:
    """How far the check of a crate is, by its log."""
    with open(_log(name), encoding="utf-8", errors="replace") as it:
        found = re.findall(r"^so far: (\d+ of \d+) functions", it.read(), re.M)
    return f"{found[-1]} functions" if found else "reading"


def main(name: str) -> int:
    rt = kit.rt()
    rt.rtlib.guarded()
    crates = rt.rtlib.crates_below(os.getcwd())
    program = next((it for it in crates if it.name == name and it.is_program), None)
    if program is None:
        sys.exit(f"crates.txt names no program {name}")
    os.makedirs("build", exist_ok=True)
    missing = [it for it in program.below() if not it.is_built()]
    progress = Progress()
    progress.say(_estimate([*missing, program], rt.processors()))
    teller = threading.Thread(target=progress.repeat, daemon=True)
    teller.start()
    is_built = _build_libraries(program.below(), missing, progress) and _build_program(program, progress)
    progress.ended.set()
    progress.say(f"{name} is built: {program.folder}/out/{name}" if is_built else "NOT BUILT")
    return 0 if is_built else 1


def _estimate(crates: list[Any], processors: int) -> str:
    tasks = _tasks(crates)
    lines, chain = sum(it.lines for it in tasks), max(lanes.chains(tasks).values())
    minutes = max(1, round(SECONDS_A_LINE * max(lines / processors, chain / lanes.MOST_JOBS) / 60))
    return f"proving and building {len(crates)} crates: about {minutes} minutes on {processors} processors"


def _tasks(crates: list[Any]) -> list[lanes.Library]:
    below = {it.name: tuple(other.name for other in it.below() if other in crates) for it in crates}
    return [lanes.Library(it.name, below[it.name], it.count(rb"\n"), kit.rt().need(it)) for it in crates]


def _build_libraries(libraries: list[Any], missing: list[Any], progress: Progress) -> bool:
    """Builds the missing libraries, and keeps other runs of rt out meanwhile."""
    rt = kit.rt()
    crates = {it.name: it for it in missing}
    wanted = os.environ.get("RT_JOBS", "")
    fixed = int(wanted) if wanted.isdigit() else 0
    processors, memory = (fixed, math.inf) if fixed else (rt.processors(), MEMORY * rt.free())

    def build(name: str, jobs: int) -> bool:
        return _built(crates[name], jobs, progress)

    held = rt.rtlib.lock(libraries)
    try:
        return lanes.build_all(_tasks(missing), build, processors, memory)
    finally:
        for it in held:
            os.close(it)


def _built(library: Any, jobs: int, progress: Progress) -> bool:
    progress.running.append(library.name)
    begin = time.monotonic()
    with open(_log(library.name), "w", encoding="utf-8") as library.out:
        status = library.build_rlib(["--jobs", str(jobs)], anew=False)
    progress.running.remove(library.name)
    return _told(library.name, status, begin, progress)


def _build_program(program: Any, progress: Progress) -> bool:
    progress.running.append(program.name)
    begin = time.monotonic()
    with open(_log(program.name), "w", encoding="utf-8") as out:
        status = _run(program.folder, out)
    progress.running.remove(program.name)
    return _told(program.name, status, begin, progress)


def _run(folder: str, out: TextIO) -> int:
    """Has rt prove and build a program. It runs the program too, which here only prints its version."""
    how = {"cwd": folder, "stdin": subprocess.DEVNULL, "stdout": out, "stderr": subprocess.STDOUT}
    return subprocess.run(["rt", "run", "--", "--version"], check=False, **how).returncode


def _told(name: str, status: int, begin: float, progress: Progress) -> bool:
    seconds = int(time.monotonic() - begin)
    if not status:
        progress.say(f"{name} is proved and built, in {seconds} s")
        return True
    progress.say(f"{name} is NOT BUILT; the end of {_log(name)}:")
    with open(_log(name), encoding="utf-8", errors="replace") as it:
        print("".join(it.readlines()[-40:]), end="")
    return False


if __name__ == "__main__":
    if len(sys.argv) != 2:
        sys.exit(__doc__)
    sys.exit(main(sys.argv[1]))
