"""The texts of the repository: every file that git would take, with what kind of text it is."""

from __future__ import annotations

import os
import re
from collections.abc import Iterator
from dataclasses import dataclass

# What .gitignore names: folders of any place, and those of one.
BUILT = {".git", "out", "__pycache__", ".mypy_cache"}
BUILT_AT = {"build", "bench/out"}
KINDS = {".sh": "shell", ".py": "python", ".rt": "rattle", ".antt": "rattle"}
PROGRAMS = ((re.compile(r"#!.*\b(ba|da)?sh\b"), "shell"), (re.compile(r"#!.*\bpython3\b"), "python"))


@dataclass(frozen=True)
class Text:
    """A text by its path below the top: shell, python, rattle, or of no kind that has rules of its own."""

    path: str
    kind: str
    content: str


@dataclass(frozen=True, order=True)
class Mistake:
    """A mistake of a text, by the name of the check that has found it."""

    path: str
    line: int
    check: str
    why: str

    def __str__(self) -> str:
        return f"{self.path}:{self.line}: {self.why} ({self.check})"


def texts_below(top: str) -> Iterator[Text]:
    """The texts at or below a folder, in the order of their paths. What isn't UTF-8, or has a zero byte, is data."""
    for folder, folders, names in os.walk(top):
        below = os.path.relpath(folder, top)
        built = {it for it in folders if it in BUILT or os.path.normpath(f"{below}/{it}") in BUILT_AT}
        folders[:] = sorted(set(folders) - built)
        for name in sorted(set(names) - BUILT):
            text = _text(top, os.path.normpath(f"{below}/{name}"))
            if text is not None:
                yield text


def _text(top: str, path: str) -> Text | None:
    file = os.path.join(top, path)
    if os.path.islink(file) or not os.path.isfile(file):
        return None
    with open(file, "rb") as it:
        data = it.read()
    try:
        content = data.decode()
    except UnicodeDecodeError:
        return None
    return None if "\0" in content else Text(path, _kind(path, content), content)


def _kind(path: str, content: str) -> str:
    first = content.partition("\n")[0]
    told = (kind for pattern, kind in PROGRAMS if pattern.match(first))
    return KINDS.get(os.path.splitext(path)[1]) or next(told, "")
