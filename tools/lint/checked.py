"""Types of Python, as `mypy --strict` judges them, of what is to be strict."""

from __future__ import annotations

import os
import re
import shutil
import subprocess
from collections.abc import Callable

from texts import Mistake

# A folder, what mypy is given there, and where else it finds modules.
STRICT = (("deploy", ("-p", "journalcollect"), "."), ("tests/world", (".",), "..:../shared"),
          ("tests/guide", (".",), ".."))
LINE = re.compile(r"(?P<path>[^:]+):(?P<line>\d+): error: (?P<why>.*)")


def mistakes_in_strict(top: str, skip: Callable[[str], None]) -> list[Mistake]:
    """What mypy says; if it isn't there, `skip` is told so."""
    folders = [it for it in STRICT if os.path.isdir(os.path.join(top, it[0]))]
    if folders and not shutil.which("mypy"):
        skip(f"mypy isn't installed, so {', '.join(it[0] for it in folders)} aren't judged by it")
        return []
    return [mistake for folder in folders for mistake in _of(top, *folder)]


def _of(top: str, folder: str, words: tuple[str, ...], found_in: str) -> list[Mistake]:
    cache = os.path.join(os.path.abspath(top), "build", "mypy")
    ran = subprocess.run(["mypy", "--strict", "--no-error-summary", f"--cache-dir={cache}", *words], check=False,
                         cwd=os.path.join(top, folder), env={**os.environ, "MYPYPATH": found_in}, capture_output=True,
                         text=True)
    lines = [it.groupdict() for it in map(LINE.match, ran.stdout.splitlines()) if it]
    mistakes = [Mistake(os.path.normpath(f"{folder}/{it['path']}"), int(it["line"]), "strict", it["why"])
                for it in lines]
    if ran.returncode and not mistakes:
        mistakes.append(Mistake(folder, 1, "strict", (ran.stderr or ran.stdout).strip().partition("\n")[0]))
    return mistakes
