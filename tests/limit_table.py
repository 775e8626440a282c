"""The limits of the program, as the table of docs/FORMATS.md has them, for all tests and measurements."""
from __future__ import annotations

import re
from pathlib import Path
from typing import NamedTuple

TABLE = (Path(__file__).resolve().parent.parent / "docs/FORMATS.md").read_text().partition("\n## Limits\n")[2]
ROWS = re.findall(r"^\| (\w+) \| .* \| ([\d,]+) \| ([\d,]+) \|$", TABLE.partition("\n## ")[0], re.MULTILINE)


class Limits(NamedTuple):
    name: int
    value: int
    fields: int
    entry: int
    file: int


# The least ones that the library takes, and those that programs use.
LEAST = Limits(**{name: int(least.replace(",", "")) for name, least, _ in ROWS})
USED = Limits(**{name: int(used.replace(",", "")) for name, _, used in ROWS})
