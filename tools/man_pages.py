"""Makes the man pages of the programs and the settings files around journal-collect.

usage: python3 tools/man_pages.py [--check]

A program's page is made of what it prints for --help, and that of a settings file of its comments; docs/man/pages.toml
has what neither says. The pages stand in docs/man. With --check none is written, and the status is 1 if one isn't as it
would be made.
"""
from __future__ import annotations

import os
import re
import subprocess
import sys
import textwrap
import tomllib
from collections.abc import Iterator
from dataclasses import dataclass, field
from pathlib import Path

ROOT = Path(__file__).resolve().parent.parent
PAGES = ROOT / "docs/man"
WIDTH = 110
ASSIGNMENT = re.compile(r"#?([A-Z_]+)=(.*)")


@dataclass
class Help:
    """What a program prints for --help: its calls, paragraphs of which some are literal, lists of options with their
    headings, statuses."""
    calls: list[str] = field(default_factory=list)
    paragraphs: list[str] = field(default_factory=list)
    options: list[tuple[str, list[tuple[str, str]]]] = field(default_factory=list)
    statuses: list[tuple[str, str]] = field(default_factory=list)


# Help ------------------------------------------------------------------------------------------------------------


def help_of(program: str) -> Help:
    """The help of a program, as it prints it."""
    told = subprocess.run([str(ROOT / program), "--help"], capture_output=True, text=True, check=True,
                          env={**os.environ, "COLUMNS": "120"}).stdout
    parts = re.split(r"\n{2,}|\n(?=Status: )", told.strip("\n"))
    return read_help([part.strip("\n") for part in parts])


def read_help(parts: list[str]) -> Help:
    """The parts of a help, between empty lines."""
    found = Help()
    for part in parts:
        if part.lower().startswith("usage: "):
            found.calls = calls_in(part[len("usage: "):])
        elif all(re.match(" {2,6}-", line) for line in part.split("\n")):
            found.options.append(("options", options_in(part.split("\n"))))
        elif re.match(r"[^\n]*:\n {2,6}(-|[A-Z])", part):
            heading, *lines = part.split("\n")
            found.options.append((heading.rstrip(":"), options_in(lines)))
        elif part.startswith("Status: "):
            text = " ".join(part.removeprefix("Status: ").rstrip(".").split())
            found.statuses = [tuple(each.split(" ", 1)) for each in re.split(r"; (?=[0-9])", text)]
        else:
            found.paragraphs.append(part)
    return found


def calls_in(usage: str) -> list[str]:
    """The calls of a usage, each on one line. A line that stands deeper goes on with the one before."""
    calls: list[str] = []
    for line in usage.split("\n"):
        if line.startswith(" " * 8) and calls:
            calls[-1] += " " + line.strip()
        else:
            calls.append(line.strip())
    return calls


def options_in(lines: list[str]) -> list[tuple[str, str]]:
    """The options of a list, each with what it means."""
    found: list[tuple[str, str]] = []
    for line in lines:
        match = re.match(r"(?:  | {2,6}(?=-)| {4}(?=[a-z]+ {2,}))(\S.*)$", line)
        if match:
            told = re.match(r"(.*?)\s{2,}(.*)$|(-\S+) ([a-z].*)$", match[1])
            found.append((told[1] or told[3], told[2] or told[4]) if told else (match[1], ""))
        else:
            name, text = found[-1]
            found[-1] = name, f"{text} {line.strip()}".strip()
    return found


# Settings --------------------------------------------------------------------------------------------------------


def settings_in(path: str) -> tuple[list[str], list[tuple[list[str], str]]]:
    """The first paragraphs of a settings file, and its settings by groups: each NAME=VALUE, and what is said of
    them."""
    heads: list[str] = []
    groups: list[tuple[list[str], str]] = []
    comment: list[str] = []
    names: list[str] = []
    for line in [*(ROOT / path).read_text().splitlines(), ""]:
        if match := ASSIGNMENT.fullmatch(line):
            names.append(f"{match[1]}={match[2]}")
        elif line.startswith("#") and not names:
            comment.append(line[1:].strip())
        else:
            if names:
                groups.append((names, " ".join(comment)))
            elif comment:
                heads.append(" ".join(comment))
            comment, names = [line[1:].strip()] if line.startswith("#") else [], []
    return heads, groups


# Pages -----------------------------------------------------------------------------------------------------------


def plain(text: str) -> str:
    """A text in which nothing means something to roff."""
    return text.replace("\\", "\\e").replace("-", "\\-")


def marked(text: str) -> str:
    """A call or an option: names of options are bold, and what is to be put in is slanted."""
    text = re.sub(r"(?<![\w\\])((?:\\-)+\w[\w\\-]*)", r"\\fB\1\\fR", plain(text))
    return re.sub(r"\b([A-Z][A-Z_]+)\b", r"\\fI\1\\fR", text)


def lines_of(text: str) -> Iterator[str]:
    """The lines of a paragraph: each sentence begins one, and none begins as a request of roff does."""
    text = " ".join(text.split())
    for sentence in re.split(r"(?<=[^.]\.)\s+(?=[A-Z`])", text):
        told = re.sub(r"`([^`]*)`", lambda match: f"\\fB{plain(match[1])}\\fR", sentence.replace("\\", "\\e"))
        for line in textwrap.wrap(told, WIDTH, break_long_words=False, break_on_hyphens=False):
            yield "\\&" + line if line[0] in ".'" else line


def paragraphs(texts: list[str]) -> Iterator[str]:
    """Paragraphs, and literal lines where a text is set in."""
    for number, text in enumerate(texts):
        if text.startswith("  "):
            yield ".Bd -literal -offset indent"
            yield from (plain(line.strip()) for line in text.split("\n"))
            yield ".Ed"
            continue
        if number and not texts[number - 1].startswith("  "):
            yield ".Pp"
        yield from lines_of(text)


def tagged(items: list[tuple[str, str]]) -> Iterator[str]:
    """A list of names with what they mean."""
    yield ".Bl -tag -width Ds"
    for name, text in items:
        yield f".It {name}"
        yield from lines_of(text)
    yield ".El"


def program_page(page: dict) -> Iterator[str]:
    """What a page says of a program."""
    told = help_of(page["program"])
    yield ".Sh SYNOPSIS"
    for call in told.calls:
        _, _, rest = call.partition(" ")
        yield f".Nm {page['path']}"
        words = re.findall(r"\[(?:[^][]|\[[^][]*\])*\]|[^][ ]\S*", rest)
        yield from ("\\&" + word if word.startswith(".") else marked(word) for word in words)
        if call != told.calls[-1]:
            yield ".br"
    yield ".Sh DESCRIPTION"
    yield from paragraphs([*told.paragraphs, *page.get("more", [])])
    if told.options:
        yield ".Sh OPTIONS"
    for heading, options in told.options:
        if len(told.options) > 1 and heading not in ("options", "positional arguments"):
            yield f".Ss {heading}"
        yield from tagged([(marked(name), text) for name, text in options])
    yield from files_section(page)
    if told.statuses:
        yield ".Sh EXIT STATUS"
        yield from tagged(told.statuses)
    if page.get("says"):
        yield ".Sh DIAGNOSTICS"
        yield ".Bl -tag -width Ds"
        for *lines, text in page["says"]:
            yield from (f'.It Li "{plain(line)}"' for line in lines)
            yield from lines_of(text)
        yield ".El"


def settings_page(page: dict) -> Iterator[str]:
    """What a page says of a settings file."""
    heads, groups = settings_in(page["settings"])
    yield ".Sh SYNOPSIS"
    yield f".Pa {page['path']}"
    yield ".Sh DESCRIPTION"
    yield from paragraphs([*heads, *page.get("more", [])])
    yield ".Sh SETTINGS"
    yield ".Bl -tag -width Ds"
    for names, text in groups:
        for name in names[:-1]:
            yield f".It Li {plain(name)}"
        yield f".It Li {plain(names[-1])}"
        yield from lines_of(text or "As the one before.")
    yield ".El"
    yield from files_section(page)


def files_section(page: dict) -> Iterator[str]:
    """The files that belong to it."""
    if page.get("files"):
        yield ".Sh FILES"
        yield from tagged([(f"Pa {path}", text) for path, text in page["files"]])


def made(name: str, page: dict, common: dict) -> str:
    """A page."""
    version = re.search(r"^\.Os (.*)$", (ROOT / "docs/journal-collect.1").read_text(), re.MULTILINE)
    source = page.get("program") or page["settings"]
    lines = [f'.\\" Made by tools/man_pages.py of {source} and docs/man/pages.toml.', f".Dd {common['date']}",
             f".Dt {name.upper()} {page['section']}", f".Os {version[1] if version else ''}", ".Sh NAME", f".Nm {name}",
             f".Nd {page['does']}"]
    lines += program_page(page) if "program" in page else settings_page(page)
    lines += [".Sh SEE ALSO", *see_also([*page.get("see", []), *common["see"]], name)]
    return "\n".join(lines) + "\n"


def see_also(names: list[str], but: str) -> Iterator[str]:
    """Other pages, in the order of their sections and names."""
    pages = sorted({(each[-2], each[:-3]) for each in names if each[:-3] != but})
    for section, name in pages:
        comma = "" if (section, name) == pages[-1] else " ,"
        yield f".Xr {name} {section}{comma}"


def main(words: list[str]) -> int:
    if words not in ([], ["--check"]):
        sys.exit(__doc__)
    with open(PAGES / "pages.toml", "rb") as file:
        told = tomllib.load(file)
    common = told.pop("common")
    wanted = {f"{name}.{page['section']}": made(name, page, common) for name, page in told.items()}
    there = {path.name: path.read_text() for path in PAGES.glob("*.[0-9]")}
    if words:
        for name in sorted(name for name in {*wanted, *there} if wanted.get(name) != there.get(name)):
            print(f"docs/man/{name} isn't as tools/man_pages.py makes it", file=sys.stderr)
        return int(wanted != there)
    for name in {*there} - {*wanted}:
        (PAGES / name).unlink()
    for name, text in wanted.items():
        (PAGES / name).write_text(text)
    return 0


if __name__ == "__main__":
    sys.exit(main(sys.argv[1:]))
