"""What each script of rows comes to: journals that are made by crates/jc_test_calls, and how they are wrong."""
from __future__ import annotations

from collections.abc import Callable, Iterator

from batches import Batch, batches_of
from failing import KINDS, Failing, Stopping
from journals import NEVER, Journal, reports, running, storing, taking
from steps import rows_of
from told import report_of

# How many bytes a device gives at most: uploads come as streams in pieces, and as spaces.
WAYS = {1: ", byte by byte", 7: ", 7 bytes at most", 65_536: ", 65,536 bytes at most", 0: ", spaces"}


def batches(text: str) -> Iterator[Journal | str]:
    for batch in batches_of(text):
        yield from journals_of(batch) if isinstance(batch, Batch) else (batch,)


def journals_of(batch: Batch) -> Iterator[Journal]:
    """A batch over journals of each kind, however it is delivered."""
    for kind in KINDS:
        for most, how in WAYS.items():
            begun = [taking(batch.line, 0, NEVER, batch.begins, None)] if batch.begins else []
            run = running(batch.line, NEVER, batch.uploads, [most] * len(batch.uploads), batch.lines)
            yield Journal(kind, "", how, [*begun, run, storing(batch.line, batch.stores)])


def steps(text: str) -> Iterator[Journal | str]:
    for row in rows_of(text):
        if not isinstance(row, (Failing, Stopping)):
            yield row
            continue
        try:
            yield from row.journals()
        except ValueError as error:
            yield report_of(row.line, str(error).encode(), row.wanted)


# What reads the scripts of these names; others are steps.
SCRIPTS: dict[str, Callable[[str], Iterator[Journal | str]]] = {
    "uploads": batches,
    "whole-uploads": batches,
}


def reports_of(name: str, text: str) -> Iterator[str]:
    """How each journal of a script is wrong, with its line, and an empty report for each of the others."""
    made = list(SCRIPTS.get(name, steps)(text))
    told = reports([one for one in made if isinstance(one, Journal)])
    for one in made:
        yield next(told) if isinstance(one, Journal) else one
