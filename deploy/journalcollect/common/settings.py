"""Settings: lines NAME=VALUE in the files `*.conf` of a folder. A later file, by its name, has the last word. Empty
lines, and those with `#`, set nothing.

The settings of a program are a frozen dataclass, which has each under its name in small letters, with its type (`str`,
`bool`, `int` or `float`) and its default.
"""
import dataclasses
import os
import re
import subprocess
from pathlib import Path
from typing import Any, TypeVar

FOLDER = Path(os.environ.get("JOURNAL_COLLECT_SETTINGS", "/etc/journal-collect"))
S = TypeVar("S")
# What a value of each type is, and which it may be.
FORMS = {bool: ("yes or no", r"yes|no"), int: ("a whole number", r"[0-9]{1,18}"),
         float: ("a number", r"[0-9]{1,9}(\.[0-9]{0,9})?"), str: ("a text", r".*")}


class Wrong(ValueError):
    """The settings, or the words of a call, can't be taken, and why."""


def read(folder: Path, kind: type[S]) -> S:
    """The settings of a folder's files, which needn't be there: what they don't set has its default."""
    types = {field.name: field.type for field in dataclasses.fields(kind)}
    values: dict[str, Any] = {}
    for path in sorted(folder.glob("*.conf")):
        try:
            lines = path.read_text(encoding="utf-8").splitlines()
        except (OSError, UnicodeDecodeError) as error:
            raise Wrong(f"{path} can't be read: {error}") from error
        for number, line in enumerate(map(str.strip, lines), 1):
            if not line or line.startswith("#"):
                continue
            name, equals, value = line.partition("=")
            value = value.strip()
            if not equals or name != name.strip():
                raise Wrong(f"{path}: line {number} isn't NAME=VALUE: {line}")
            if name != name.upper() or name.lower() not in types:
                raise Wrong(f"{path}: line {number}: {name} is no setting")
            of_type = types[name.lower()]
            what, form = FORMS[of_type]
            if not re.fullmatch(form, value):
                raise Wrong(f"{path}: line {number}: {name} isn't {what}: {value}")
            values[name.lower()] = value == "yes" if of_type is bool else of_type(value)
    return kind(**values)


def time_of(words: str) -> int | None:
    """The time that words such as `yesterday` and `-2h` name, in microseconds since 1970; None if it is none."""
    told = subprocess.run(["systemd-analyze", "timestamp", "--", words], capture_output=True, text=True,
                          errors="replace", check=False)
    found = re.search(r"^ *UNIX seconds: @(\d+)(?:\.(\d{6}))?$", told.stdout, re.MULTILINE | re.ASCII)
    return int(found[1]) * 1_000_000 + int(found[2] or 0) if found else None


def spelled(microseconds: int) -> str:
    """As journalctl takes a time, to the microsecond."""
    return f"@{microseconds // 1_000_000}.{microseconds % 1_000_000:06}"
