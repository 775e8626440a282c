"""Proves what changed, and what stands on it, lowest first: the crates that aren't proved as they are now.

usage: python3 tools/check.py [--list] [--since REVISION]

A crate is proved as it is if the last check of it was of the same sources, over libraries of the same sources, by the
same toolchain. That is what `rt` notes of a library that it has built, and this of each crate that it has checked, in
build/checked. With --since REVISION only crates that git says have changed since then are looked at, and those above
them: so in a new clone not everything is proved. --list names the crates, and proves nothing.

It stops at the first crate that isn't proved. No test is run and no edit is judged: which crates have some is said at
the end.
"""

from __future__ import annotations

import argparse
import functools
import os
import subprocess
import sys
import time
from collections.abc import Iterator
from contextlib import contextmanager
from typing import Any

import kit

CHECKED = os.path.join("build", "checked")


def main() -> int:
    wanted = _arguments()
    crates = kit.rt().rtlib.crates_below(os.getcwd())
    with each_read_once():
        todo = [it for it in crates if not is_proved(it)]
    if wanted.since is not None:
        changed = changed_since(wanted.since)
        todo = [it for it in todo if any(below.name in changed for below in [*it.below(), it])]
    if wanted.list:
        print(*(it.name for it in todo), sep="\n", end="\n" * bool(todo))
        return 0
    print(f"{len(todo)} of {len(crates)} crates: {' '.join(it.name for it in todo) or 'nothing to prove'}", flush=True)
    for crate in todo:
        if status := _check(crate):
            print(f"{crate.name} is NOT PROVED; what stands on it wasn't looked at")
            return status
    _tell_what_is_left(todo)
    return 0


def _arguments() -> argparse.Namespace:
    parser = argparse.ArgumentParser(prog="check", description=__doc__.split("\n")[0])
    parser.add_argument("--list", action="store_true", help="name the crates, and prove nothing")
    parser.add_argument("--since", metavar="REVISION", help="only what has changed since this revision, by git")
    return parser.parse_args()


@contextmanager
def each_read_once() -> Iterator[None]:
    """Meanwhile the sum of a crate's sources, which has those of the crates below it, is made once."""
    kind = kit.rt().rtlib.Crate
    made = kind.stamp
    kind.stamp = functools.cache(made)
    try:
        yield
    finally:
        kind.stamp = made


def is_proved(crate: Any) -> bool:
    """Whether a check has proved the crate, over its sources and those below it as they are."""
    return crate.is_built() or _noted(crate) == crate.stamp()


def _noted(crate: Any) -> str:
    try:
        with open(os.path.join(CHECKED, crate.name), encoding="utf-8") as it:
            return it.read()
    except OSError:
        return ""


def changed_since(revision: str) -> set[str]:
    """The names of the crates with a file that isn't as in the revision, or that crates.txt has other libraries for."""
    names = _git("diff", "--name-only", "-z", revision, "--", "crates") + _git(
        "ls-files", "--others", "--exclude-standard", "-z", "--", "crates"
    )
    changed = {it.split("/")[1] for it in names.split("\0") if it.count("/") > 1}
    with open("crates.txt", encoding="utf-8") as it:
        lines = set(it.read().splitlines()) ^ set(_git("show", f"{revision}:crates.txt").splitlines())
    return changed | {it.partition(":")[0].split()[0] for it in lines if it and it[0] != "#"}


def _git(*words: str) -> str:
    ran = subprocess.run(["git", *words], capture_output=True, text=True, check=False)
    if ran.returncode:
        sys.exit(f"git {' '.join(words)}: {ran.stderr.strip()}")
    return ran.stdout


def _check(crate: Any) -> int:
    """Proves a crate by `rt check` in its folder, which builds the libraries below it if they have changed."""
    stamp, begin = _stamp(crate), time.monotonic()
    print(f"== {crate.name}", flush=True)
    status = subprocess.run(["rt", "check"], cwd=crate.folder, check=False).returncode
    if not status and stamp == _stamp(crate):
        os.makedirs(CHECKED, exist_ok=True)
        with open(os.path.join(CHECKED, crate.name), "w", encoding="utf-8") as it:
            it.write(stamp)
    print(f"== {crate.name}: {'not proved' if status else 'proved'}, in {time.monotonic() - begin:.0f} s", flush=True)
    return status


def _stamp(crate: Any) -> str:
    with each_read_once():
        return crate.stamp()


def _tell_what_is_left(proved: list[Any]) -> None:
    tests = [it.name for it in proved if it.has_tests()]
    edits = [it.name for it in proved if os.path.isdir(os.path.join(it.folder, "refused"))]
    if tests:
        print(f"not run: the tests of {' '.join(tests)} (rt test, in the folder of each)")
    if edits:
        print(f"not judged: the edits of {' '.join(edits)} (python3 -ESB tests/refused --only CRATE)")


if __name__ == "__main__":
    sys.exit(main())
