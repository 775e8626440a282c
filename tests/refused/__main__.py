"""Tries the edits crates/NAME/refused/*.edit: the prover must refuse each of them.

usage: python3 tests/refused [--only CRATE] [--list] [--beside]

An edit gives one function another body, in CONTRIBUTING.md's form. Many are applied at once, one a function, where a
copy under another name counts as one, and each is judged by what the check says of its own function, while all others
and the lemmas are taken at their word: a promise of that function must be refused. If it names the goals that it is
about, it must be refused by these, and the function's other promises are left open, as are goals that it names for
that. It fails if it doesn't apply, changes more than a body, leaves open what is no goal, can't be read, or if its
function is proved, refused by something else, or only by arithmetic, by bounds or by what a call requires. At the end
each function must be proved without its edits, and so must the crate, unless its library is built from the sources as
they are.

The libraries below a crate are taken as `rt ci` left them, and built if they aren't there or older than their sources.
With --beside an `rt ci` runs meanwhile, and its words come on standard input until it ends: a crate's edits are judged
from when it says that the crate is proved, in checks for which it leaves room.
RT_JOBS is how many checks run side by side; without it, as many as there are processors and memory for.
The last line is 'N passed, M failed'.
"""

from __future__ import annotations

import argparse
import os
import sys
from concurrent.futures import ThreadPoolExecutor
from functools import partial
from typing import Any

import toolchain
from beside import Ci, Turns
from edits import Sources, read_edits
from judging import Outcome, Waiting, judge, next_batch
from libraries import libraries_stand
from parallel import checks_at_once


def main() -> int:
    wanted = _arguments()
    crates = [it for it in toolchain.rt().rtlib.crates_below(os.getcwd()) if wanted.only in (None, it.name)]
    if wanted.only and not crates:
        sys.exit(f"refused: crates.txt names no crate {wanted.only}")
    crates = [it for it in crates if os.path.isdir(os.path.join(it.folder, "refused"))]
    if wanted.list:
        return _list(crates)
    toolchain.rt().rtlib.guarded()
    if not wanted.beside:
        # until this ends, no other run of rt changes these crates or their libraries; `rt ci` holds the lock itself
        toolchain.rt().rtlib.lock([below for it in crates for below in [*it.below(), it]])
    ci = Ci(sys.stdin if wanted.beside else None)
    turns = Turns(checks_at_once(), ci)
    with ThreadPoolExecutor(len(crates)) as pool:
        judged = [pool.submit(_judge, it, ci, turns) for it in crates]
        outcomes = [outcome for it in judged for outcome in it.result()]
    failed = sum(not it.is_well for it in outcomes)
    print(f"{len(outcomes) - failed} passed, {failed} failed")
    return 1 if failed else 0


def _arguments() -> argparse.Namespace:
    parser = argparse.ArgumentParser(prog="refused", description=__doc__.split("\n")[0])
    parser.add_argument("--only", metavar="CRATE", help="the edits of this crate alone")
    parser.add_argument("--list", action="store_true", help="show the first batches, and try nothing")
    parser.add_argument("--beside", action="store_true", help="an rt ci runs, and its words come on standard input")
    return parser.parse_args()


def _judge(crate: Any, ci: Ci, turns: Turns) -> list[Outcome]:
    say = partial(print, flush=True)
    turn = partial(turns.turn, crate.count(rb"\n"))
    ci.wait_for({it.name for it in [*crate.below(), crate]})
    if (lacking := libraries_stand(crate, ci.standing)) is not None:
        outcomes = [Outcome("", False, f"its library {lacking} is NOT BUILT")]
    else:
        outcomes = judge(crate, turn, say, ci.standing)
    for it in outcomes:
        say(f"refused {crate.name}{'/' * bool(it.name)}{it.name}: {it.text}")
    return outcomes


def _list(crates: list[Any]) -> int:
    for crate in crates:
        edits, bad = read_edits(Sources(crate))
        waiting, number = [Waiting(it) for it in edits], 0
        while waiting:
            batch, number = next_batch(waiting), number + 1
            waiting = [it for it in waiting if it not in batch]
            print(f"{crate.name}, batch {number}: {len(batch)} edits")
            for it in batch:
                print(f"  {it.edit.name}: {it.edit.function.symbols[0]}")
        for it in bad:
            print(f"{crate.name}, BAD EDIT {it.name}: {it.why}")
    return 0


if __name__ == "__main__":
    sys.exit(main())
