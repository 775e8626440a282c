"""What there is to prove of a function, as the checker names it."""

from __future__ import annotations

import json
import os
import re
from typing import Any

from functions import Function

# A goal of the function's own promises: its clauses, a loop's invariant, or what its type always keeps. The other goals
# are of arithmetic, of bounds, of an end, or of what a call requires.
PROMISE = re.compile(r"returns(-|$)|invariant_of-|(?!.*-requires(-|$)).*-(init|preserved)(-|$)")


def promises_of(crate: Any, function: Function) -> list[str]:
    """The goals of a function's own promises, as it stands: those that were proved when the crate's library was built.
    Of one that isn't built, or was built otherwise, none are known."""
    function = function.copy_of or function
    for folder in function.proofs:
        made = _part(crate.rlib, f"{folder}/Proof")
        if made:
            return [it for it in dict.fromkeys(_answers(json.loads(made))) if PROMISE.match(it)]
    return []


def _part(library: str, name: str) -> str:
    """What the checker made for a library under a name: of one file the other says where a part is."""
    try:
        with open(os.path.join(library, "toolchain/made.json"), encoding="utf-8") as parts:
            found = next((json.loads(it) for it in parts if it.startswith(f'["{name}",')), None)
        if found is None:
            return ""
        with open(os.path.join(library, "lang/antt/made.json"), "rb") as it:
            it.seek(found[1])
            return it.read(found[2]).decode().partition("\n")[0]
    except FileNotFoundError:
        return ""


def _answers(made: Any) -> list[str]:
    """The names under which a function's goals can be answered."""
    if isinstance(made, list):
        return [it for part in made for it in _answers(part)]
    if not isinstance(made, dict):
        return []
    own = [made["answer"]] if isinstance(made.get("answer"), str) else []
    return own + [it for part in made.values() for it in _answers(part)]
