"""Scripts of batches, each of which one run collects. A script is lines:

| Line | |
|---|---|
| `# TEXT` | a comment |
| `upload PIECES => LINE` | the next upload, and its answer's line with `S` for the source's id |
| `fronts FIRST LAST PIECES => LINE` | the same of each front of these bytes whose length is one of these |
| `beside PIECES` | the texts of the entries that the next run stores under other ids than that of the samples |
| `stores PIECES` | a run over the uploads that came since the last one, and the texts of the others stored then |
| `begins PIECES` | the next run begins with the journal that this upload makes; others begin with an empty one |

`tests/pieces.py` has the form of `PIECES`. A script that runs nothing is wrong, and so is one that ends with an upload.
"""
from __future__ import annotations

from collections.abc import Iterator
from dataclasses import dataclass, field

from pieces import bytes_of
from samples import SOURCE
from told import report_of


@dataclass
class Batch:
    line: int
    begins: bytes = b""
    uploads: list[bytes] = field(default_factory=list)
    # what the run has to print
    lines: bytes = b""
    # the texts of the entries that are stored then, and of those under ids that only an export shows
    stores: bytes = b""
    beside: bytes = b""


def lines_of(text: str) -> Iterator[tuple[int, str, str]]:
    """The lines that aren't empty or comments: the number of each, its first word, and the rest."""
    for number, line in enumerate(text.splitlines(), 1):
        word, _, rest = line.partition(" ")
        if word not in ("", "#"):
            yield number, word, rest


def answer(short: str) -> bytes:
    """The line of an answer with `S` for the source's id."""
    return " ".join(SOURCE.hex() if word == "S" else word for word in short.split(" ")).encode() + b"\n"


def wanted_by(rest: str) -> tuple[str, str]:
    """The pieces, and what is wanted."""
    pieces, arrow, wanted = rest.partition(" => ")
    if not arrow:
        raise ValueError("nothing is wanted")
    return pieces, wanted


def batches_of(text: str) -> Iterator[Batch | str]:
    """The batches of a script, or how a line is wrong."""
    batch = Batch(0)
    count, number = 0, 1
    for number, word, rest in lines_of(text):
        batch.line = number
        try:
            if word not in WORDS:
                raise ValueError(f"no line begins with {word!r}")
            WORDS[word](batch, rest)
        except ValueError as error:
            yield report_of(number, str(error).encode(), rest.encode())
            continue
        if word == "stores":
            count += 1
            yield batch
            batch = Batch(number)
    if batch.uploads or not count:
        yield report_of(number, b"nothing is run", b"a run")


def upload(batch: Batch, rest: str) -> None:
    pieces, short = wanted_by(rest)
    batch.uploads.append(bytes_of(pieces))
    batch.lines += answer(short)


def fronts(batch: Batch, rest: str) -> None:
    row, short = wanted_by(rest)
    first, last, pieces = row.split(" ", 2)
    whole = bytes_of(pieces)
    for length in range(int(first), int(last) + 1):
        if length > len(whole):
            raise ValueError("there are fewer bytes")
        batch.uploads.append(whole[:length])
        batch.lines += answer(short)


def stores(batch: Batch, pieces: str) -> None:
    batch.stores = bytes_of(pieces)


def beside(batch: Batch, pieces: str) -> None:
    batch.beside = bytes_of(pieces)


def begins(batch: Batch, pieces: str) -> None:
    batch.begins = bytes_of(pieces)


WORDS = {"upload": upload, "fronts": fronts, "beside": beside, "stores": stores, "begins": begins}
