"""Prints what each file of the crates is about, and what the contracts in it promise (`make contracts`).

usage: python3 tools/contracts.py

All of it stands in the sources: the first comment of each file, the comment of each function, the names of its clauses
with the comments above them, and the comments of the definitions that a clause names.
"""
from __future__ import annotations

import re
import sys
import textwrap
from collections.abc import Iterable, Iterator
from dataclasses import dataclass, field
from pathlib import Path

ROOT = Path(__file__).resolve().parent.parent
# Crates with contracts that need no definitions of their own.
WITHOUT_SPECS = ("jc_cli", "jc_sequences")
WIDTH = 120
HEAD = """\
# The contracts

Printed from the sources by `make contracts`. For each crate it has the files of `src/`, and for each function that
others may call the clauses of its contract. Behind a clause stands its comment, and then the definitions that it names,
each with its comment where it comes first in a crate. At the end stand the definitions that each theorem rests on.
`docs/PROOFS.md` says how to read a claim, and which pages say what its words mean and what no contract says.

`(unnamed)` is a contract with a single clause that has no name. *Here alone* says that a function is for its crate
alone, and on the page since no public one says as much. *Asks* begins what a caller has to see to.
"""
# Functions that aren't public, and are on the page since no public one says as much.
HERE_ALONE = {
    "jc_collector_answers": ("AnswerSink::end", "impl ByteSink for AnswerSink", "status_of_lines"),
    "jc_sender": (
        "verify_export", "verify_space", "export_upload", "journal_upload", "export_point", "file_point", "moved_by",
        "resume_in"),
    "jc_collector": (
        "export_journal", "show_journal", "count", "count_and_close", "export_after", "export_file", "check_export",
        "inspect_delivery", "open_there", "open_old", "close_after", "close_opened", "check_name"),
    "jc_command": ("list_codes",),
    "jc_render": ("object_of", "object_of_code", "put_codes"),
}
# Theorems, each with its crate and the files of definitions that its clauses name.
THEOREMS = ("`run`", "jc_collect", ("Run",)), ("`World::run`", "jc_world", ("Kept", "Schedule", "World"))
APOSTROPHE = "'s", "'"
# Traits of the standard library that say nothing by themselves.
SILENT = ("Model", "Drop")
BLOCK = re.compile(r"^(pub )?(impl|trait)\b(?:<(?:[^<>{]|<[^<>{]*>)*>)? ?(.*?)(?: where.*)?(?: \{)?$")
FUNCTION = re.compile(r"^\s*(pub(?:\(\w+\))? )?fn (\w+)")
CLAUSE = re.compile(r"^\s*(ensures|requires)(?: (\w+))? \{|^\s*ghost (\w+) = ")
IMPORT = re.compile(r"^\s*ghost use Rattle\.(jc_\w+)\.specs\.([\w.]+)\.\{([^}]*)\};", re.MULTILINE)
USED = re.compile(r"^use Rattle\.(jc_\w+)\.specs\.([A-Z][\w.]*?)\.\{", re.MULTILINE)
DEFINITION = re.compile(r"^(?:(?:abbrev|pub|record|data|opaque|instance) )*(\w+)\b.* :")


@dataclass
class Clause:
    """A clause of a contract: its name, the comment above it, and the text behind its name."""
    name: str
    comment: str
    text: str = ""


@dataclass
class Function:
    """A function, or the implementation of a trait, with the clauses of its contract."""
    path: str
    module: str
    public: bool
    comment: str
    clauses: list[Clause] = field(default_factory=list)
    asked: list[Clause] = field(default_factory=list)


@dataclass
class Module:
    """A file of a crate: what it is about, what it has, and the definitions that it names."""
    path: Path
    about: str
    functions: list[Function] = field(default_factory=list)
    names: dict[str, tuple[str, str, str]] = field(default_factory=dict)


# Reading ---------------------------------------------------------------------------------------------------------


def joined(lines: list[str]) -> str:
    """A comment as one text, up to its source."""
    text = "\n".join(lines).partition("\nSource:")[0].partition("\n- Source:")[0]
    return " ".join(text.replace("(own)", "").split())


def names_in(text: str) -> dict[str, tuple[str, str, str]]:
    """The definitions of this repository that a source names, by the name there: crate, file, name."""
    found = {}
    for crate, path, names in IMPORT.findall(text):
        if path.split(".")[0] != "declared":
            for each in names.split(","):
                name, _, other = each.strip().partition(" as ")
                found[other or name] = crate, path.replace(".", "/"), name
    return found


def plain(name: str) -> str:
    """A type's or a trait's name without its module and its parameters."""
    return re.sub(r"<.*", "", name).split("::")[-1].split(":")[0].strip()


def read_module(path: Path) -> Module:
    """What a file of a crate has."""
    text = path.read_text()
    head = re.match(r"(?://![^\n]*\n)*", text)
    found = Module(path, joined([line[3:] for line in head[0].splitlines()]), names=names_in(text))
    owner, exported, comment, aside = "", False, [], []
    last: Function | None = None
    clause: Clause | None = None
    depth = 0
    for line in text.splitlines():
        bare = line.strip()
        if depth:
            depth += line.count("{") - line.count("}")
            clause.text += " " + bare
        elif bare.startswith("///"):
            comment.append(bare[3:])
        elif bare.startswith("//"):
            aside.append(bare[2:])
        elif block := BLOCK.match(line):
            trait, _, kind = block[3].rpartition(" for ")
            owner, exported, last = plain(kind), bool(trait or block[1]), None
            if trait and plain(trait) not in SILENT:
                last = Function(f"impl {plain(trait)} for {owner}", path.stem, False, joined(comment))
                found.functions.append(last)
            comment, aside = [], []
        elif line == "}":
            owner, exported, last, comment, aside = "", False, None, [], []
        elif function := FUNCTION.match(line):
            last = Function(f"{owner}::{function[2]}" if owner else function[2], path.stem,
                            function[1] == "pub " or exported, joined(comment))
            found.functions.append(last)
            comment, aside = [], []
        elif (match := CLAUSE.match(line)) and last is not None:
            clause = Clause(match[2] or match[3] or "", joined(aside), bare.partition("{")[2])
            depth = line.count("{") - line.count("}")
            (last.asked if match[1] == "requires" else last.clauses).append(clause)
            aside = []
        elif not bare.startswith("#["):
            comment, aside = [], []
    return found


def read_modules(folder: Path) -> list[Module]:
    """What the files of a crate's `src/` have."""
    return [read_module(path) for path in sorted(folder.glob("**/*.rt"))]


def definitions_of(path: Path) -> dict[str, str]:
    """The definitions of a file of specs, each with its comment."""
    found, comment = {}, []
    for line in path.read_text().splitlines():
        bare = line.strip()
        if bare.startswith("-- ----"):
            comment = []
        elif bare.startswith("--"):
            comment.append(bare[2:])
        else:
            # what stands deeper, and is no definition, is a part of a record
            if (match := DEFINITION.match(bare)) and (bare == line or {"abbrev", "record"} & set(bare.split()[:2])):
                found.setdefault(match[1], joined(comment))
            comment = []
    return found


class Crate:
    """A crate: its modules, and the functions that others may call."""

    def __init__(self, name: str) -> None:
        self.name = name
        folder = ROOT / "crates" / name / "src"
        self.library = (folder / "lib.rt").read_text() if (folder / "lib.rt").exists() else ""
        self.modules = read_modules(folder)
        exports = " ".join(re.findall(r"^pub use ([^;]*);", self.library, re.MULTILINE))
        self.exported = set(re.findall(r"\w+", exports))
        self.open = set(re.findall(r"^pub mod (\w+);", self.library, re.MULTILINE))
        self.traits = {it for path in folder.glob("**/*.rt")
                       for it in re.findall(r"^pub trait (\w+)", path.read_text(), re.MULTILINE)}

    def about(self) -> str:
        """What the crate is for."""
        return next((it.about for it in self.modules if it.path.stem in ("lib", "main")), "")

    def told(self, function: Function) -> bool:
        """Whether a function belongs on the page."""
        if function.path in HERE_ALONE.get(self.name, ()):
            return True
        others = function.module in self.open
        if function.path.startswith("impl "):
            trait, _, kind = function.path.removeprefix("impl ").partition(" for ")
            return others or kind in self.exported or trait in self.exported
        return bool(function.public and function.clauses) and (others or function.path.split("::")[0] in self.exported)


# Printing --------------------------------------------------------------------------------------------------------


class Printer:
    """Prints the page. `traits` are those of this repository, whose contracts are on the page themselves."""

    def __init__(self, traits: set[str]) -> None:
        self.traits = traits
        self.known: dict[tuple[str, str], dict[str, str]] = {}
        self.said: set[tuple[str, str, str]] = set()

    def meaning(self, crate: str, path: str, name: str) -> str:
        """The comment of a definition."""
        if (crate, path) not in self.known:
            file = ROOT / "crates" / crate / "specs" / f"{path}.antt"
            self.known[crate, path] = definitions_of(file) if file.exists() else {}
        return self.known[crate, path].get(name, "")

    def definitions(self, crate: str, module: Module, text: str) -> Iterator[str]:
        """The definitions that a clause names, each with its comment where it comes first."""
        for word in dict.fromkeys(re.findall(r"\w+", text)):
            if word not in module.names:
                continue
            home, path, name = module.names[word]
            place = "" if home == crate else f"{home}{APOSTROPHE[home[-1] == 's']} "
            if (home, path, name) in self.said:
                yield f"`{name}`"
                continue
            self.said.add((home, path, name))
            told = self.meaning(home, path, name)
            yield f"`{name}` in {place}`specs/{path}.antt`" + (f" ({told.rstrip('.')})" if told else "")

    def clause(self, crate: str, module: Module, clause: Clause, begins: str) -> Iterator[str]:
        """A clause, if there is more to say than its name."""
        named = ", ".join(self.definitions(crate, module, clause.text))
        if told := " ".join(filter(None, (clause.comment, named and f"{named}."))):
            yield from wrapped(f"  - {begins}{told}", "    ")

    def asked(self, crate: str, module: Module, clause: Clause) -> Iterator[str]:
        """What a caller has to see to, word by word."""
        text = f"`{' '.join(clause.text.strip(' {}').split())}`"
        new = [it for it in self.definitions(crate, module, clause.text) if " in " in it]
        told = " ".join(filter(None, (clause.comment, f"{text}." if not new else f"{text}, with {', '.join(new)}.")))
        yield from wrapped(f"  - *Asks*: {told}", "    ")

    def function(self, crate: str, module: Module, function: Function, alone: bool) -> Iterator[str]:
        """A function with its clauses."""
        if (trait := function.path.split(" ")[1:2]) and trait[0] in self.traits:
            yield f"- **`{function.path}`**: It keeps the contract of `{trait[0]}`."
            return
        names = ", ".join(f"`{clause.name}`" for clause in function.clauses if clause.name)
        brackets = f" ({names or 'unnamed'})" if function.clauses else ""
        told = f"**`{function.path}`**{brackets}" + (", *here alone*" if alone else "")
        yield from wrapped(f"- {told}" + (f": {function.comment}" if function.comment else ""), "  ")
        for asked in function.asked:
            yield from self.asked(crate, module, asked)
        for clause in function.clauses:
            yield from self.clause(crate, module, clause, f"`{clause.name}`: " if clause.name else "")

    def belongs(self, crate: Crate, function: Function) -> bool:
        """Whether a function is on the page: one with clauses, or what keeps the contract of a trait of these."""
        trait = function.path.split(" ")[1:2]
        return crate.told(function) and bool(function.clauses or trait and trait[0] in self.traits)

    def crate(self, crate: Crate) -> Iterator[str]:
        """The section of a crate."""
        self.said.clear()
        yield from ("", f"## {crate.name}", "")
        yield from wrapped(crate.about(), "")
        for module in crate.modules:
            if module.path.stem in ("lib", "main") or "tests" in module.path.parts:
                continue
            yield ""
            place = module.path.relative_to(ROOT / "crates" / crate.name / "src")
            yield from wrapped(f"`{place}`: {module.about}", "")
            told = [it for it in merged(module.functions) if self.belongs(crate, it)]
            if told:
                yield ""
            for it in told:
                yield from self.function(crate.name, module, it, it.path in HERE_ALONE.get(crate.name, ()))


def merged(functions: list[Function]) -> list[Function]:
    """These functions, and the implementations of one trait for one type as one."""
    found: dict[str, Function] = {}
    for it in functions:
        first = found.setdefault(it.path, it)
        if first is not it and first.clauses and it.clauses:
            first.clauses[0].text += " " + it.clauses[0].text
    return list(found.values())


def wrapped(text: str, indent: str) -> list[str]:
    """A text in lines."""
    return textwrap.wrap(text, WIDTH, subsequent_indent=indent, break_long_words=False, break_on_hyphens=False)


def definitions_below(crate: str, names: Iterable[str]) -> set[tuple[str, str]]:
    """These files of definitions of a crate, and those that they use."""
    found: set[tuple[str, str]] = set()
    waiting = [(crate, name) for name in names]
    while waiting:
        crate, name = waiting.pop()
        path = ROOT / "crates" / crate / "specs" / (name.replace(".", "/") + ".antt")
        if (crate, name) not in found and path.exists():
            found.add((crate, name))
            waiting += USED.findall(path.read_text())
    return found


def rests_on() -> Iterator[str]:
    """The files of definitions that each theorem rests on."""
    yield from ("", "## What a theorem rests on", "")
    for theorem, crate, names in THEOREMS:
        below: dict[str, list[str]] = {}
        for home, name in sorted(definitions_below(crate, names)):
            below.setdefault(home, []).append(f"`{name}`")
        told = "; ".join(f"{home}: {', '.join(files)}" for home, files in below.items())
        yield from wrapped(f"- **{theorem} of {crate}**: {told}", "  ")


def all_crates() -> list[Crate]:
    """The crates whose contracts are printed, from the lowest up."""
    lines = (ROOT / "crates.txt").read_text().splitlines()
    listed = [line.split(":")[0] for line in lines if line[:1] not in ("", "#")]
    return [Crate(name) for name in listed if (ROOT / "crates" / name / "specs").is_dir() or name in WITHOUT_SPECS]


def main(words: list[str]) -> int:
    if words:
        sys.exit(__doc__)
    crates = all_crates()
    printer = Printer(set().union(*(it.traits for it in crates)))
    print(HEAD, end="")
    for crate in crates:
        print("\n".join(printer.crate(crate)))
    print("\n".join(rests_on()))
    return 0


if __name__ == "__main__":
    sys.exit(main(sys.argv[1:]))
