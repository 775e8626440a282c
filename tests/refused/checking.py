"""Checks some functions of a crate by the contracts of the others."""

from __future__ import annotations

import os
import re
import shutil
import subprocess
import tempfile
from typing import Any

import toolchain
from edits import Edit
from functions import Function
from goals import promises_of
from lemmas import leave_lemmas_open

# A proof that is left open: it says what there is to prove, and takes it at its word.
OPEN_PROOF = """\
use {module}.Statement.{{statement}}
use Rattle.{crate}.proofs.AtItsWord.{{at_its_word}}

pub {name}_spec : {{M : Type 1}} → statement M
{name}_spec = at_its_word
"""
# An answer, by its name, up to where something else is declared.
ANSWER = re.compile(r"^pub (\S+) :.*?(?=^(?:\w+ )*\S+ :|\Z)", re.M | re.S)
# An answer that is left open.
OPEN_ANSWER = """\
pub {goal} : goal.{goal}
{goal} = at_its_word

"""
# What no function has to prove. Where it is answered all the same, the checker doesn't print what is left to prove of a
# function, for which it would go over all of it once more.
NOT_A_GOAL = "not-a-goal"
# The hole for all proofs that are left open: of a hole of its own for each, antt would print what it is for.
AT_ITS_WORD = """\
pub at_its_word {ℓ} : {A : Type ℓ} → A
at_its_word = ?
"""


def check(crate: Any, texts: dict[str, str], words: list[str], taken: list[Function], edits: list[Edit]) -> Any:
    """What a check of the crate with these texts, by their path in it, ended with and said. The functions `taken` are
    taken at their word: whatever their bodies are, the others are judged by what their contracts say. If there are
    edits, so are the lemmas; and of the edited functions the goals are left open that their edits aren't about. It
    keeps no work for another check, as it costs more than it saves."""
    with tempfile.TemporaryDirectory(prefix="refused-") as room:
        for part in toolchain.rt().rtlib.PARTS:
            if os.path.isdir(os.path.join(crate.folder, part)):
                shutil.copytree(os.path.join(crate.folder, part), os.path.join(room, part))
        for path, text in texts.items():
            _write(os.path.join(room, path), text)
        if edits:
            _write(os.path.join(room, "proofs", "AtItsWord.antt"), AT_ITS_WORD)
            with open(os.path.join(room, "proofs", "Lib.antt"), "a", encoding="utf-8") as modules:
                modules.write("mod AtItsWord\n")
            leave_lemmas_open(room, crate.name)
        for edit in edits:
            if edit.function.copy_of is not None:
                _copy_proofs(room, edit.function.copy_of, edit.function)
        for it in taken:
            _leave_open(room, it)
        for edit in edits:
            _leave_goals_open(room, edit, promises_of(crate, edit.function) if edit.about else [])
        rtlib = toolchain.rt().rtlib
        flags = ["--jobs", "1", *(["--allow-holes"] if edits else []), *words]
        command = [*rtlib.guarded(), rtlib.RATTLE, "check", *crate.words(flags, keeps=False)]
        streams: Any = {"stdin": subprocess.DEVNULL, "stdout": subprocess.PIPE, "stderr": subprocess.STDOUT}
        return subprocess.run(command, cwd=room, **streams, text=True, errors="replace", check=False)


def _copy_proofs(room: str, function: Function, copy: Function) -> None:
    """Gives a copy of a function what is written of the function's proof. Each file of it must name modules that the
    checker makes for this proof, in whose place the copy's are named, and no other file may name any, but for the
    theorem: over modules of the other a goal would be refused for that alone."""
    [written], [copied] = function.proofs, copy.proofs
    crate, *path = function.symbols[0].split("::")
    name = re.compile(rf"\b(Rattle\.{crate}\.(?:proofs|specs\.contracts)\.{re.escape('.'.join(path))})(?=\.(?!Met\b))")
    for at, _, files in os.walk(os.path.join(room, "proofs")):
        for file in (os.path.join(at, it) for it in files):
            with open(file, encoding="utf-8") as it:
                text, count = name.subn(lambda found: found[1] + copied[len(written) :], it.read())
            is_own = os.path.relpath(at, room) == written
            if is_own != bool(count):
                raise ValueError(f"{os.path.relpath(file, room)}: {function.symbols[0]} can't be copied")
            if is_own:
                _write(os.path.join(room, copied, os.path.basename(file)), text)


def _leave_open(room: str, function: Function) -> None:
    """Puts an open proof in the place of what is written of a function's proof. Its name must be the only one."""
    [symbol], [folder] = function.symbols, function.proofs
    crate, *path = symbol.split("::")
    for file in ("Answers.antt", "Invariants.antt"):
        if os.path.exists(written := os.path.join(room, folder, file)):
            os.remove(written)
    module = ".".join(["Rattle", crate, "proofs", *path])
    _write(os.path.join(room, folder, "Proof.antt"), OPEN_PROOF.format(crate=crate, module=module, name=path[-1]))


def _leave_goals_open(room: str, edit: Edit, promises: list[str]) -> None:
    """Puts open answers in the place of those that are written for what the edit leaves open, and for these promises
    but those that it is about, or behind the others. A function whose proof is written whole, or which may have two
    names, has no such answers."""
    symbol, folder = edit.function.symbols[0], edit.function.proofs[0]
    if len(edit.function.symbols) > 1 or os.path.exists(os.path.join(room, folder, "Proof.antt")):
        return
    crate, *path = symbol.split("::")
    file = os.path.join(room, folder, "Answers.antt")
    if os.path.exists(file):
        with open(file, encoding="utf-8") as it:
            answers = it.read()
    else:
        answers = f"use {'.'.join(['Rattle', crate, 'proofs', *path])}.Goals as goal\n"
    answered = set(ANSWER.findall(answers))
    left_open = dict.fromkeys([*edit.left_open, *_others(promises, edit.about, answered)])

    def opened(answer: re.Match[str]) -> str:
        return OPEN_ANSWER.format(goal=answer[1]) if answer[1] in left_open else answer[0]

    answers = f"use Rattle.{crate}.proofs.AtItsWord.{{at_its_word}}\n{ANSWER.sub(opened, answers)}\n"
    added = [it for it in [*left_open, NOT_A_GOAL] if it not in answered]
    _write(file, answers + "".join(OPEN_ANSWER.format(goal=it) for it in added))


def _others(promises: list[str], about: tuple[str, ...], answered: set[str]) -> list[str]:
    """The promises but these, also at exits that only the edited body has. What is promised at one exit can be answered
    clause by clause, or at once where it is answered so already."""
    exits = {_exit(it) for it in promises if it != _exit(it)}
    at_once = answered.intersection(exits)
    by_clause = [it for it in promises if it not in exits and _exit(it) not in at_once]
    clauses = dict.fromkeys(it.removeprefix(_exit(it)) for it in promises if it != _exit(it))
    new_exits = dict.fromkeys(_exit(it) for it in about if it != _exit(it) and _exit(it) not in exits)
    at_new = [exit + clause for exit in new_exits for clause in clauses]
    return [it for it in [*by_clause, *at_once, *at_new] if it not in about and _exit(it) not in about]


def _exit(goal: str) -> str:
    """The exit at which a clause is promised, or the goal itself."""
    return goal.partition("-clause-")[0]


def _write(file: str, text: str) -> None:
    os.makedirs(os.path.dirname(file), exist_ok=True)
    with open(file, "w", encoding="utf-8") as it:
        it.write(text)
