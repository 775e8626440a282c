"""Takes the lemmas of a crate at their word, as the functions that no edit changes: that they are proved is what
`rt ci` says, and a check of edits doesn't prove them once more.

Others know a lemma by what it says alone, unless it is marked `abbrev` or `unfoldable`, or something unfolds it by
name. Such a one keeps its proof, or a goal that needs it would be refused for want of it.
"""

from __future__ import annotations

import os
import re
from collections.abc import Iterator

# What is written of the proof of one function, and the lists of files.
NO_LEMMAS = ("Answers.antt", "Invariants.antt", "Proof.antt", "Lib.antt", "AtItsWord.antt")
# The names that a line of a proof unfolds, with the lines that go on with it; or an attribute in the code; or a term.
UNFOLDED = re.compile(
    r"^( *)unfolding (?P<line>.*(?:\n\1 +\S.*)*)|\bunfolding\((?P<list>[^)]*)\)|\bunfold (?P<term>[^\n]*?) in\b", re.M
)
RENAMED = re.compile(r"([^\s{},]+) as ([^\s{},;]+)")
# A name and what it proves. One with parameters of its own before the colon, or with a part of its type that only its
# proof gives, stays as it is.
SIGNATURE = re.compile(r" *(?:pub )?(\S+) : ")
GIVEN_BY_PROOF = re.compile(r"(?:^|[ (,])_(?=[ ),]|$)", re.M)


def leave_lemmas_open(room: str, crate: str) -> None:
    """Puts open proofs in the place of those in the files of lemmas of the crate in this folder."""
    texts = dict(_texts(os.path.join(room, "proofs"))) | dict(_texts(os.path.join(room, "src")))
    unfolded = unfolded_in("\n".join(texts.values()))
    for file, text in texts.items():
        if file.endswith(".antt") and os.path.basename(file) not in NO_LEMMAS:
            opened = with_lemmas_open(text, unfolded)
            if opened != text:
                with open(file, "w", encoding="utf-8") as it:
                    it.write(f"use Rattle.{crate}.proofs.AtItsWord.{{at_its_word}}\n{opened}")


def _texts(folder: str) -> Iterator[tuple[str, str]]:
    for at, _, names in os.walk(folder):
        for name in names:
            with open(os.path.join(at, name), encoding="utf-8") as it:
                yield os.path.join(at, name), it.read()


def unfolded_in(text: str) -> set[str]:
    """The last parts of the names that something in the text unfolds, and of those that stand for them elsewhere."""
    lists = (it["line"] or it["list"] or it["term"] or "" for it in UNFOLDED.finditer(text))
    names = {_last_part(name) for it in lists for name in re.split(r"[\s,]+", it)}
    renamed = [(_last_part(it[1]), it[2]) for it in RENAMED.finditer(text)]
    while more := {name for name, other in renamed if other in names} - names:
        names |= more
    return names


def _last_part(name: str) -> str:
    return re.split(r"::|\.", name)[-1]


def with_lemmas_open(text: str, unfolded: set[str]) -> str:
    """The text of a file of lemmas in which what proves each is left open, but for those that something unfolds."""
    lines, made, at = text.split("\n"), [], 0
    while at < len(lines):
        head, end = lines[at], _end(lines, at)
        proof_end = _proof_end(lines, at, end)
        found = SIGNATURE.match(head)
        says = "\n".join(lines[at:end])
        if found and proof_end > end and found[1] not in unfolded and not GIVEN_BY_PROOF.search(says):
            made += [says, f"{' ' * _indent(head)}{found[1]} = at_its_word"]
            at = proof_end
        else:
            # a module's declarations are looked at one by one
            end = at + 1 if head.lstrip().startswith(("module ", "--")) or not head.strip() else end
            made += lines[at:end]
            at = end
    return "\n".join(made)


def _proof_end(lines: list[str], at: int, end: int) -> int:
    """Where the clauses end that stand behind a signature, which has the lines from `at` to `end`."""
    found = SIGNATURE.match(lines[at])
    if not found:
        return end
    indent, name = _indent(lines[at]), found[1]
    last = following = end
    while following < len(lines):
        line = lines[following]
        if line.strip() and _indent(line) == indent and line.split()[0] in (name, "unfolding"):
            following = _end(lines, following)
            last = following if line.split()[0] == name else last
        elif not line.strip() or (line.lstrip().startswith("--") and _indent(line) == indent):
            following += 1
        else:
            break
    return last


def _end(lines: list[str], at: int) -> int:
    """Where what begins with this line ends: the next one that begins as far left, and isn't blank or closes it."""
    end = at + 1
    for number in range(at + 1, len(lines)):
        line = lines[number]
        if line.strip():
            if _indent(line) <= _indent(lines[at]) and not line.lstrip().startswith((")", "]", "}")):
                break
            end = number + 1
    return end


def _indent(line: str) -> int:
    return len(line) - len(line.lstrip(" "))
