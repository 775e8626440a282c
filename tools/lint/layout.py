"""How texts are laid out: lines that fit a screen, blanks where they are seen, steps of four in shell."""

from __future__ import annotations

import re
from collections.abc import Iterator

from texts import Mistake, Text

WIDTH = 120
STEP = 4
# Texts in which a tab has a meaning.
WITH_TABS = ("Makefile",)
HERE_DOCUMENT = re.compile(r"<<-?\s*(['\"]?)(\w+)\1")


def mistakes_in_width(text: Text) -> Iterator[Mistake]:
    for number, line in enumerate(text.content.split("\n"), 1):
        if len(line) > WIDTH:
            yield Mistake(text.path, number, "width", f"{len(line)} characters, and at most {WIDTH} are read at once")


def mistakes_in_blanks(text: Text) -> Iterator[Mistake]:
    lines = text.content.split("\n")
    for number, line in enumerate(lines, 1):
        if why := _blanks(line, has_tabs=text.path.endswith(WITH_TABS)):
            yield Mistake(text.path, number, "blanks", why)
    if text.content and lines[-1]:
        yield Mistake(text.path, len(lines), "blanks", "the last line has no end")
    elif text.content.endswith("\n\n"):
        yield Mistake(text.path, len(lines) - 1, "blanks", "an empty line at the end")


def _blanks(line: str, has_tabs: bool) -> str:
    if line != line.rstrip():
        return "blanks at the end"
    return "a tab" if "\t" in line and not has_tabs else ""


def mistakes_in_steps(text: Text) -> Iterator[Mistake]:
    """Lines of shell that don't begin at a step of four, but for texts in quotes and here-documents."""
    if text.kind != "shell":
        return
    ends: list[str] = []
    quote = ""
    for number, line in enumerate(text.content.split("\n"), 1):
        if ends:
            ends = ends[1:] if line.strip() == ends[0] else ends
            continue
        if not quote and (len(line) - len(line.lstrip(" "))) % STEP:
            yield Mistake(text.path, number, "steps", f"it begins at no step of {STEP} blanks")
        quote = _quote_after(line, quote)
        ends = [] if quote else [it[1] for it in HERE_DOCUMENT.findall(line)]


def _quote_after(line: str, quote: str) -> str:
    """The quote that is open at the end of a line, if one was at its beginning."""
    was_backslash = False
    for at, letter in enumerate(line):
        if was_backslash:
            was_backslash = False
        elif letter == "\\" and quote != "'":
            was_backslash = True
        elif letter == quote:
            quote = ""
        elif not quote and letter in "'\"":
            quote = letter
        elif not quote and letter == "#" and (not at or line[at - 1].isspace()):
            break
    return quote
