#!/usr/bin/env python3
"""Compares the documents with each other and with the sources: documents.py PROGRAM [FOLDER]

One version, one toolchain, one table of codes, which the program prints too, and one of limits, a list of crates that
is whole, scripts that say what they test, the number of edits, each of which names a goal, one table of the figures to
plan with, links to headings that are there, and pages that stay short. Prints what differs.
"""
import re
import subprocess
import sys
from collections.abc import Iterator
from pathlib import Path

ROOT = Path(sys.argv[2] if len(sys.argv) > 2 else __file__ + "/../..").resolve()
# The code that the library alone has: in its place the program prints `write failed`.
UNPRINTED = (66, "WriteFailed")
# The documents that are written by hand, and how many lines these may have: each one, and all of them.
PAGE_LINES = {"README.md": 200, "docs/PROOFS.md": 200, "docs/GATE.md": 60}
ALL_LINES = 3000
# The one table of figures, the parts of its own page that may have no other ones, and the documents that may not.
FIGURES = "docs/PERFORMANCE.md", "Figures to plan with"
FIGURES_BESIDE = "Limits", "A machine's commands", "The collector's commands"
FIGURES_IN = (
    "README.md", "CONTRIBUTING.md", "docs/GUIDE.md", "docs/DECISIONS.md", "docs/FORWARDING.md",
    "docs/ARCHITECTURE.md", "docs/GATE.md", "docs/PROVING.md", "docs/journal-collect.1",
    "deploy/settings/collector.conf", "deploy/settings/machine.conf", "deploy/settings/forward.conf")
AN_ENTRY = r"(?: of (?:memory|disk|the disk))? (?:an|per|for each(?: [a-z]+)?) entry\b"
FIGURE = re.compile(
    rf"(?:\b(\d[\d.,]* (?:ms|µs|us)) and )?\b(\d[\d.,]* (?:ms|µs|us|kB|bytes)){AN_ENTRY}"
    r"|\b(\d[\d.,]* entries) (?:a|per|in a) second\b|\b(\d[\d.]* million) (?:entries )?(?:a|per) day\b")


def text_of(path: str) -> str:
    return (ROOT / path).read_text()


def found(pattern: str, path: str) -> str | None:
    """What the pattern's group is in a file, at its first place."""
    match = re.search(pattern, text_of(path), re.MULTILINE)
    return match[1] if match else None


def printed(program: str, *words: str) -> str:
    """What a command prints."""
    return subprocess.run([program, *words], capture_output=True, text=True, check=True).stdout


def versions(program: str) -> dict[str, str | None]:
    """The version, by where it stands."""
    return {
        "--version": printed(program, "--version").removeprefix("journal-collect ").strip(),
        "CHANGELOG.md": found(r"^## ([\d.]+)", "CHANGELOG.md"),
        "docs/journal-collect.1": found(r"^\.Os journal-collect ([\d.]+)$", "docs/journal-collect.1"),
        "README.md": found(r"This\s+is\s+version ([\d.]+\d)", "README.md"),
    }


def codes_of_sources() -> set[tuple[int, str]]:
    text = text_of("crates/jc_base/specs/Fault.antt")
    codes = {(int(number), name) for name, number in re.findall(r"^number_of (\w+) = (\d+)$", text, re.MULTILINE)}
    over = found(r"^over_bounds = (\d+)$", "crates/jc_collector/specs/Inspected.antt")
    return codes | ({(int(over), "OverBounds")} if over else set())


def codes_of_table() -> set[tuple[int, str]]:
    table = text_of("docs/FORMATS.md").split("\n## Codes\n")[1]
    return {(int(number), name) for number, name in re.findall(r"^\| (\d+) \| (\w+) \|", table, re.MULTILINE)}


def lines_of_table() -> str:
    """The lines that the program has to print: a code that something reports, its name, its meaning."""
    table = text_of("docs/FORMATS.md").split("\n## Codes\n")[1]
    rows = re.findall(r"^\| (\d+) \| (\w+) \| [a-z ]+ \| (.*) \|$", table, re.MULTILINE)
    return "".join(f"{number:<3} {name:<20}{meaning}\n" for number, name, meaning in rows)


def printed_codes(program: str) -> Iterator[str]:
    """Whether `codes` and `help codes` print the table, and which codes in it aren't the sources'."""
    codes = printed(program, "codes")
    below = re.compile(r"^ {24}(?! ).*\n", re.MULTILINE)
    if below.sub("", codes) != lines_of_table():
        yield "`codes` doesn't print the table of docs/FORMATS.md"
    if len(codes.splitlines()) != 2 * len(below.findall(codes)) or "\n\n" in codes:
        yield "`codes` doesn't say what to do below each code"
    if codes.rstrip("\n") not in printed(program, "help", "codes"):
        yield "`help codes` doesn't have what `codes` prints"
    known = codes_of_sources() - {UNPRINTED}
    told = {(int(number), name) for number, name in re.findall(r"^(\d+) +(\w+) ", codes, re.MULTILINE)}
    yield from (f"code {code} isn't both printed and in the sources" for code in sorted(told ^ known))


def python() -> Iterator[str]:
    """Codes and limits of deploy/ that aren't those of the tables."""
    named = re.compile(r"^    ([A-Z_, ]+) = ([\d, ]+)$", re.MULTILINE)
    for names, numbers in named.findall(text_of("deploy/journalcollect/common/program.py")):
        for name, number in zip(names.split(", "), map(int, numbers.split(", "))):
            if (number, name.title().replace("_", "")) not in codes_of_table():
                yield f"deploy/journalcollect/common/program.py: {number} isn't {name} in docs/FORMATS.md"
    rows = dict(re.findall(r"^\| (\w+) \| .* \| [\d,]+ \| ([\d,]+) \|$", text_of("docs/FORMATS.md"), re.MULTILINE))
    limits = found(r"^NAME, VALUE, FIELDS, ENTRY = (.*)$", "deploy/journalcollect/common/fit.py")
    if limits is None or limits.replace("_", "").split(", ") != [
            rows[it].replace(",", "") for it in ("name", "value", "fields", "entry")]:
        yield "deploy/journalcollect/common/fit.py has other limits than docs/FORMATS.md"


def toolchains() -> Iterator[str]:
    """Pages that say another toolchain than tools/kit.py knows."""
    tried = text_of("tools/kit.py").partition("TRIED = ")[2].partition("\n")[0]
    for path in ("README.md", "docs/PROOFS.md"):
        if (said := found(r"(rattle-kit-\w+)", path)) is None or f'"{said} ' not in tried:
            yield f"{path} is for {said}, which tools/kit.py doesn't know"


def lists() -> Iterator[str]:
    """Crates that docs/ARCHITECTURE.md lacks, those there that are none, and scripts that don't say what they test."""
    page = text_of("docs/ARCHITECTURE.md")
    groups = re.findall(r"^- .*(?:\n  .*)*", part_of(page, "Crates"), re.MULTILINE)
    crates = {it.split(":")[0] for it in text_of("crates.txt").splitlines() if it and it[0] != "#"}
    for it in sorted(crates ^ set(re.findall(r"\bjc_\w+", " ".join(groups)))):
        yield f"docs/ARCHITECTURE.md: the crate {it} isn't both there and listed"
    for path in sorted((ROOT / "tests").glob("test-*.sh")):
        if not re.match(r"#!.*\n# \S", path.read_text()):
            yield f"tests/{path.name} doesn't begin with what it tests"
    for it in sorted(set(re.findall(r"`(?:tests/)?(test-[\w-]+\.sh)`", page))):
        if not (ROOT / "tests" / it).exists():
            yield f"docs/ARCHITECTURE.md: there is no script {it}"


def edits() -> Iterator[str]:
    """A number of edits in docs/GATE.md that isn't theirs, and edits that don't name what has to refuse them."""
    there, told = sorted(ROOT.glob("crates/*/refused/*.edit")), found(r"^There are (\d+)\.$", "docs/GATE.md")
    if told != str(len(there)):
        yield f"docs/GATE.md tells of {told} edits, and there are {len(there)}"
    for it in there:
        if not re.search(r"^goal: \S", it.read_text(encoding="utf-8"), re.M):
            yield f"{it.relative_to(ROOT)} names no goal that has to refuse it"


def figures(text: str) -> set[str]:
    """What a text says of the time, the memory or the room for an entry, and of entries a second or a day."""
    return {it for match in FIGURE.findall(" ".join(text.split())) for it in match if it}


def part_of(page: str, title: str) -> str:
    """The part of a page below a heading."""
    return page.partition(f"\n## {title}\n")[2].partition("\n## ")[0]


def told_figures() -> Iterator[str]:
    """Figures that the one table doesn't have."""
    path, title = FIGURES
    page = text_of(path)
    table = figures(part_of(page, title))
    if not table:
        yield f"{path} has no figures under '{title}'"
    parts = {f"{path}, {it}": part_of(page, it) for it in FIGURES_BESIDE}
    yield from (f"{path} has no part '{it}'" for it in FIGURES_BESIDE if not parts[f"{path}, {it}"])
    for told, text in [*parts.items(), *((it, text_of(it)) for it in FIGURES_IN)]:
        for it in sorted(figures(text) - table):
            yield f"{told}: the figure '{it}' isn't in the table of {path}"


def lengths() -> Iterator[str]:
    """Documents that are longer than somebody reads."""
    pages = *ROOT.glob("*.md"), *ROOT.glob("docs/*.md")
    long = {str(it.relative_to(ROOT)): len(it.read_text().splitlines()) for it in pages}
    yield from (f"{path} has more than {most} lines" for path, most in PAGE_LINES.items() if long[path] > most)
    if (lines := sum(long.values())) > ALL_LINES:
        yield f"the documents have {lines} lines, and at most {ALL_LINES} are read"


def headings(path: Path) -> set[str]:
    """The names by which links lead to a document's headings."""
    titles = re.findall(r"^#+ (.*)$", path.read_text(), re.MULTILINE)
    return {re.sub(r"[^\w -]", "", title.lower()).replace(" ", "-") for title in titles}


def broken_links() -> Iterator[str]:
    """Links to headings that aren't there."""
    for path in sorted([*ROOT.glob("*.md"), *ROOT.glob("docs/*.md")]):
        for file, heading in re.findall(r"\]\(([\w./-]*)#([\w\s-]+)\)", path.read_text()):
            aim = path.parent / file if file else path
            if not aim.exists() or "".join(heading.split()) not in headings(aim):
                yield f"{path.relative_to(ROOT)}: there is no {file}#{heading}"


def differences(program: str) -> Iterator[str]:
    known = versions(program)
    if len(set(known.values())) != 1:
        yield f"versions: {known}"
    yield from (f"code {code} isn't in both tables" for code in sorted(codes_of_sources() ^ codes_of_table()))
    yield from lengths()
    yield from printed_codes(program)
    yield from python()
    yield from toolchains()
    yield from lists()
    yield from edits()
    yield from told_figures()
    yield from broken_links()


def main() -> int:
    mistakes = list(differences(sys.argv[1]))
    for mistake in mistakes:
        print(mistake, file=sys.stderr)
    return 1 if mistakes else 0


if __name__ == "__main__":
    sys.exit(main())
