#!/usr/bin/env python3
"""Compares the pages on proofs with the sources: proofs_page.py [PAGE..]

Every name that PROOFS.md, UNPROVED.md and FAULTS.md cite is in the sources, a name of a crate ("`NAME` of jc_CRATE") in
that crate, and a definition ("`NAME` in `specs/FILE`") in that file. A row of the table of promises has functions of a
crate, and clauses that each of them has. What the README's list says one can rely on is a promise in PROOFS, by its
name, and each promise there has a row. Each crate with definitions has a section on the page that `make contracts`
prints, and each function that tools/contracts.py names by hand is there.
"""
from __future__ import annotations

import re
import sys
from collections.abc import Iterator
from pathlib import Path

ROOT = Path(__file__).resolve().parent.parent
sys.path.insert(0, str(ROOT / "tools"))

import contracts  # noqa: E402

PROOFS = "docs/PROOFS.md"
PAGES = "README.md", PROOFS, "docs/UNPROVED.md", "docs/FAULTS.md"
# Names of the toolchain's, which are cited and stand in no source here.
OF_THE_TOOLCHAIN = {
    "Fuse", "Modelled", "finds_sums", "host.rt", "is_numbered", "new_files_have_no_sums", "open_numbered", "sqlite_wal"}
CLAIMS, PROMISES = "\n## What you can rely on\n", "\n## The promises\n"
# What is proved of every function without a clause, and so has no row.
WITHOUT_CLAUSE = {"Any input"}
NAME = re.compile(r"^- \*\*([^*]+)\*\*", re.MULTILINE)
FOLDERS = "crates", "deploy", "docs", "tests", "tools"
ROW = re.compile(r"^\|[^|]*\| ([\w:`, ]+) of (jc_\w+) \| ((?:`\w+`(?:, )?)+|\(unnamed\)) \|")
DEFINITION = re.compile(r"`(\w+)`\s+in\s+(?:(jc_\w+)'s\s+)?(?:its\s+)?`(specs/[\w/]+\.antt)`")
OF_CRATE = re.compile(r"`([\w:]+)` of\s+(jc_\w+)")


class Sources:
    """What the crates have: each one's words, and the clauses of its functions."""

    def __init__(self) -> None:
        self.words: dict[str, set[str]] = {}
        self.clauses: dict[tuple[str, str], set[str]] = {}
        for folder in sorted((ROOT / "crates").glob("jc_*")):
            files = [*folder.glob("src/**/*.rt"), *folder.glob("specs/**/*.antt")]
            self.words[folder.name] = {word for it in files for word in re.findall(r"\w+", it.read_text())}
            self.words[folder.name] |= {it.stem for it in files} | {it.name for it in files}
            for module in contracts.read_modules(folder / "src"):
                for it in module.functions:
                    known = self.clauses.setdefault((folder.name, it.path), set())
                    known |= {clause.name or "(unnamed)" for clause in it.clauses}

    def known(self, name: str, crates: list[str]) -> bool:
        """Whether one of these crates has this name."""
        if "::" in name:
            return any((crate, name) in self.clauses for crate in crates)
        return any(name in self.words[crate] for crate in crates)


def mistaken_names(page: str, sources: Sources) -> Iterator[str]:
    """The names that a page cites, and that aren't in the sources."""
    everywhere = list(sources.words)
    for name in sorted(set(re.findall(r"`([^`]+)`", page)) - OF_THE_TOOLCHAIN):
        if (ROOT / name).exists():
            continue
        if name.split("/")[0] in FOLDERS:
            yield f"there is no {name}"
        elif re.fullmatch(r"[\w:]+(\.rt)?", name) and not sources.known(name, everywhere):
            yield f"there is no {name}"
    for name, crate in sorted(set(OF_CRATE.findall(page))):
        if crate not in sources.words or not sources.known(name, [crate]):
            yield f"{crate} has no {name}"


def mistaken_definitions(page: str) -> Iterator[str]:
    """The definitions that a page cites with their files, and that aren't there."""
    for name, crate, path in sorted(set(DEFINITION.findall(page))):
        files = ROOT.glob(f"crates/{crate or '*'}/{path}")
        if not any(name in contracts.definitions_of(it) for it in files):
            yield f"there is no {name} in {crate or 'any'} {path}"


def mistaken_rows(page: str, sources: Sources) -> Iterator[str]:
    """The rows of the table of promises that name what a function doesn't have."""
    rows = re.findall(r"^\|.*", page.partition(PROMISES)[2].partition("\n## ")[0], re.MULTILINE)
    for row in rows[2:]:
        if not (match := ROW.match(row)):
            yield f"a row names no function of a crate and its clauses: {row}"
            continue
        functions, crate, cell = match.groups()
        told = re.findall(r"`(\w+)`", cell) or ["(unnamed)"]
        for name in re.findall(r"`([\w:]+)`", functions):
            known = sources.clauses.get((crate, name))
            yield from ([f"{crate} has no function {name}"] if known is None else
                        [f"{name} of {crate} has no clause {it}" for it in told if it not in known])


def mistaken_promises(page: str) -> Iterator[str]:
    """The promises of a page that no row of its table is about."""
    part = page.partition(PROMISES)[2].partition("\n## ")[0]
    rows = " ".join(re.findall(r"^\| ([^|]+) \|", part, re.MULTILINE)).lower()
    for name in NAME.findall(part):
        if name not in WITHOUT_CLAUSE and name.lower() not in rows:
            yield f"no row is about the promise '{name}'"


def mistaken_claims(page: str, proofs: str) -> Iterator[str]:
    """What a list says one can rely on, and that is no promise of the page on proofs."""
    promises = set(NAME.findall(proofs.partition(PROMISES)[2].partition("\n## ")[0]))
    claims = NAME.findall(page.partition(CLAIMS)[2].partition("\n### ")[0].partition("\n## ")[0])
    if not claims:
        yield "there is no list of what one can rely on"
    yield from (f"'{name}' is no promise in docs/PROOFS.md" for name in claims if name not in promises)


def mistaken_contracts() -> Iterator[str]:
    """What the page that is printed lacks."""
    crates = contracts.all_crates()
    for it in sorted({path.parent.name for path in ROOT.glob("crates/jc_*/specs")} - {it.name for it in crates}):
        yield f"{it} has no section"
    for crate in crates:
        there = {function.path for module in crate.modules for function in module.functions}
        yield from (f"{crate.name} has no {it}, which tools/contracts.py names"
                    for it in contracts.HERE_ALONE.get(crate.name, ()) if it not in there)


def main() -> int:
    pages = [Path(it) for it in sys.argv[1:]] or [ROOT / it for it in PAGES]
    texts, sources = [it.read_text() for it in pages], Sources()
    mistakes = []
    for text in texts:
        if CLAIMS in text:
            mistakes += mistaken_claims(text, (ROOT / PROOFS).read_text())
        else:
            mistakes += [*mistaken_names(text, sources), *mistaken_definitions(text)]
            mistakes += [*mistaken_rows(text, sources), *mistaken_promises(text)]
    mistakes += mistaken_contracts()
    for mistake in mistakes:
        print(mistake, file=sys.stderr)
    return 1 if mistakes else 0


if __name__ == "__main__":
    sys.exit(main())
