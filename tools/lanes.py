"""Which libraries are built at one time, and with how many processors each.

What the longest chain of other libraries waits for is urgent: it gets all processors, though others run beside it, and
these have a lower priority. The toolchain's own lanes give a check the processors that are idle when it begins, and no
more later: one that begins beside three others would stay on one processor when these have long ended.
"""

from __future__ import annotations

import os
from collections.abc import Callable
from concurrent.futures import FIRST_COMPLETED, Future, ThreadPoolExecutor, wait
from dataclasses import dataclass

# The toolchain gives no check more processors than these.
MOST_JOBS = 4
# What each job of a check but the first takes, of the memory that a check with one job takes, as the toolchain reckons.
MEMORY_OF_A_JOB = 0.6
# A library is urgent if its chain is at least so much of the longest one.
URGENT = 0.8
# The priority of what isn't urgent, as `nice` counts.
NICE = 5


@dataclass(frozen=True)
class Library:
    """A library that is to be built: those of the others that it stands on, its lines, and the memory in bytes that its
    check takes with one job."""

    name: str
    below: tuple[str, ...]
    lines: int
    memory: float


# Builds a library with so many jobs, and says whether it is built.
Build = Callable[[str, int], bool]


def build_all(libraries: list[Library], build: Build, processors: int, memory: float) -> bool:
    """Builds each library once those below it are built, as many at one time as there are processors and memory for. It
    says whether all are built: what stands on one that isn't is left out. Those below come first in the list."""
    waiting = chains(libraries)
    left = sorted(libraries, key=lambda it: -waiting[it.name])
    unbuilt = {it.name for it in libraries}
    running: dict[Future[bool], tuple[Library, float]] = {}
    while True:
        for library in [it for it in left if unbuilt.isdisjoint(it.below)]:
            room = memory - sum(taken for _, taken in running.values())
            if len(running) == processors or (running and library.memory > room):
                continue
            longest = max(waiting[it.name] for it in [*left, *(other for other, _ in running.values())])
            is_urgent = waiting[library.name] >= URGENT * longest
            jobs = min(MOST_JOBS, processors, _most_jobs(library, room)) if is_urgent else 1
            left.remove(library)
            running[_begun(library.name, build, jobs, is_urgent)] = library, _memory(library, jobs)
        if not running:
            return not left and not unbuilt
        for task in wait(running, return_when=FIRST_COMPLETED).done:
            library, _ = running.pop(task)
            if task.result():
                unbuilt.remove(library.name)


def chains(libraries: list[Library]) -> dict[str, int]:
    """The lines of each library and of the longest chain of those that stand on it. Those below come first."""
    found: dict[str, int] = {}
    for it in reversed(libraries):
        above = (found[other.name] for other in libraries if it.name in other.below)
        found[it.name] = it.lines + max(above, default=0)
    return found


def _memory(library: Library, jobs: int) -> float:
    return library.memory * (1 + MEMORY_OF_A_JOB * (jobs - 1))


def _most_jobs(library: Library, room: float) -> int:
    return max([1, *(jobs for jobs in range(2, MOST_JOBS + 1) if _memory(library, jobs) <= room)])


def _begun(name: str, build: Build, jobs: int, is_urgent: bool) -> Future[bool]:
    """Begins to build a library in a thread of its own. On Linux a thread has a priority, which the processes that it
    starts have too; and it can't be given a higher one later."""
    pool = ThreadPoolExecutor(1)
    task = pool.submit(_built, name, build, jobs, is_urgent)
    pool.shutdown(wait=False)
    return task


def _built(name: str, build: Build, jobs: int, is_urgent: bool) -> bool:
    if not is_urgent:
        os.setpriority(os.PRIO_PROCESS, 0, max(NICE, os.getpriority(os.PRIO_PROCESS, 0)))
    return build(name, jobs)
