"""Edits: each gives one function of a crate another body."""

from __future__ import annotations

import os
from collections import Counter
from dataclasses import dataclass, replace
from functools import cached_property
from typing import Any

import toolchain
from functions import Function, functions_of


@dataclass(frozen=True)
class Edit:
    """The body, in bytes of UTF-8, that takes the place of a function's own; the goals of the function with it that the
    edit is about, by which it has to be refused; and those that are left open."""

    name: str
    function: Function
    body: bytes
    about: tuple[str, ...] = ()
    left_open: tuple[str, ...] = ()


@dataclass(frozen=True)
class BadEdit:
    """A file that isn't such an edit, and why."""

    name: str
    why: str


# What stands in the place of a body: it may be of any type, and calls nothing.
NO_BODY = b"loop {}"


class Sources:
    """The functions and the files of a crate, unedited, and copies of functions at the ends of the files."""

    def __init__(self, crate: Any) -> None:
        self.crate = crate
        self._texts: dict[str, bytes] = {}

    @cached_property
    def functions(self) -> list[Function]:
        return functions_of(self.crate)

    def text(self, file: str) -> bytes:
        if file not in self._texts:
            with open(os.path.join(self.crate.folder, file), "rb") as it:
                self._texts[file] = it.read()
        return self._texts[file]

    def copied(self, function: Function, number: int) -> Function:
        """The same function under another name, which from now on stands behind the others."""
        made, self._texts[function.file] = function.copied(self.text(function.file), number)
        self.functions.append(made)
        return made

    def with_bodies(self, edits: list[Edit], taken: list[Function]) -> dict[str, str]:
        """The texts of the files that change, by their path in the crate, if these functions have the edits' bodies and
        those `taken` none. No function may be named twice."""
        bodies = {it.function: it.body for it in edits} | dict.fromkeys(taken)
        texts: dict[str, bytes] = {}
        for it in sorted(bodies, key=lambda it: it.start, reverse=True):
            text = texts.get(it.file) or self.text(it.file)
            body = bodies[it] or _without_body(text[it.start : it.end])
            texts[it.file] = text[: it.start] + body + text[it.end :]
        return {file: text.decode() for file, text in texts.items()}


def _without_body(body: bytes) -> bytes:
    """What takes a body's place, with as many lines, so that what the checker says of a line is said of its own."""
    return b"{" + NO_BODY + b"\n" * body.count(b"\n") + b"}"


def read_edits(sources: Sources) -> tuple[list[Edit], list[BadEdit]]:
    """The edits of the crate's folder refused/, by name, and the files of it that are none."""
    folder = os.path.join(sources.crate.folder, "refused")
    names = sorted(os.listdir(folder)) if os.path.isdir(folder) else []
    read = [_read_edit(sources, os.path.join(folder, it)) for it in names]
    edits, bad = [it for it in read if isinstance(it, Edit)], [it for it in read if isinstance(it, BadEdit)]
    return _beside_one_another(sources, edits), bad


def _beside_one_another(sources: Sources, edits: list[Edit]) -> list[Edit]:
    """The edits, each with a function of its own: of one that can be copied all but the first are edits of copies."""
    counts: Counter[Function] = Counter()
    apart = []
    for it in edits:
        counts[it.function] += 1
        is_first = counts[it.function] == 1 or it.function.place is None
        apart.append(it if is_first else replace(it, function=sources.copied(it.function, counts[it.function])))
    return apart


def _read_edit(sources: Sources, path: str) -> Edit | BadEdit:
    name = os.path.basename(path)
    if not name.endswith(".edit"):
        return BadEdit(name, "its name does not end in .edit")
    texts, why = toolchain.rt().read_edit(path, sources.crate.folder)
    if why:
        return BadEdit(name, why)
    if len(texts) != 1:
        return BadEdit(name, "it changes more than one file")
    [(file, text)] = texts.items()
    found = [it for it in sources.functions if it.file == file]
    edit = _new_body(name, found, sources.text(file), text.encode())
    if isinstance(edit, BadEdit):
        return edit
    return replace(edit, about=_goals(path, "goal"), left_open=_goals(path, "open"))


def _goals(path: str, word: str) -> tuple[str, ...]:
    """The goals that the lines of a file name which begin with this word."""
    with open(path, encoding="utf-8") as lines:
        return tuple(goal for line in lines if line.startswith(f"{word}: ") for goal in line.split()[1:])


def _new_body(name: str, functions: list[Function], old: bytes, new: bytes) -> Edit | BadEdit:
    """The edit from a file's old text to its new one, which must differ in one function's body alone."""
    if old == new:
        return BadEdit(name, "it changes nothing")
    for it in functions:
        end = len(new) - (len(old) - it.end)
        if new[: it.start] == old[: it.start] and end > it.start and new[end:] == old[it.end :]:
            return Edit(name, it, new[it.start : end])
    return BadEdit(name, "it changes more than the body of one function")
