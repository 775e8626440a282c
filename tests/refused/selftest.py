"""Tries the judging of edits over a small library: what must be refused, and what must never pass as refused."""

from __future__ import annotations

import os
import shutil
import sys
import tempfile
from typing import Any

import toolchain
from functions import Function
from judging import Outcome, judge
from lemmas import unfolded_in, with_lemmas_open
from verdicts import Report

# A function with two promises. It has four names, since edits leave different goals of it open.
ZERO = """\
pub fn NAME(number: u64) -> u64
    ensures low { result ≤ number }
    ensures none { result ≡ 0 }
{
    let NAME = 0;
    NAME
}

"""
LIBRARY = """\
//! Small functions, each with a contract.
#![tactic(auto)]

ghost use Rattle.std.specs.Prelude.{◌≡◌, ◌<◌, ◌≤◌, ◌+◌, ◌↔◌, IsTrue, IsSome, IfSome};
ghost use Rattle.small.specs.Twice.{twice};

pub fn is_digit(number: u64) -> bool
    ensures { IsTrue result ↔ number < 10 }
{
    number <= 9
}

pub fn digit(number: u64) -> Option<u64>
    ensures there { IsSome result ↔ number < 10 }
    ensures same { IfSome result (λ digit. digit ≡ number) }
{
    if is_digit(number) { Some(number) } else { None }
}

pub fn following(number: u64) -> u64
    requires { number < 10 }
    ensures { result ≡ number + 1 }
{
    let one = 1;
    number + one
}

pub fn same(number: u64) -> u64
    ensures { result ≡ number }
{
    let given = number;
    given
}

pub fn lower(one: u64, other: u64) -> u64
    ensures as_one { result ≤ one }
    ensures as_other { result ≤ other }
{
    if one < other { one } else { other }
}

""" + "".join(ZERO.replace("NAME", name) for name in ("least", "first", "none", "about")) + """\
pub struct Kept {
    number: u64,
}

impl Kept {
    pub fn put(&mut self, number: u64)
        ensures { self.new.number ≡ number }
    {
        self.number = number;
    }

    pub fn raised(&self) -> u64
        requires { self.now.number < 10 }
        ensures { result ≡ self.now.number + 10 }
    {
        let ten = 10;
        self.number + ten
    }
}

pub fn doubled(number: u64) -> u64
    requires { number < 10 }
    ensures { result ≡ twice number }
{
    number + number
}

#[tactic(auto, using(crate::proofs::Lemmas::twice_shown))]
impl Kept {
    pub fn twofold(&self) -> u64
        requires { self.now.number < 10 }
        ensures { result ≡ twice self.now.number }
    {
        self.number + self.number
    }
}

pub trait Starts: Sized {
    fn start() -> u64
        ensures { result ≡ 7 };
}

impl Starts for Kept {
    fn start() -> u64 {
        3 + 4
    }
}
"""

# What the library defines, what it proves of that, and an answer that cites it; by their path in the crate.
PROOFS = {
    "specs/Lib.antt": "pub mod Twice\n",
    "specs/Twice.antt": """\
use Rattle.std.specs.Prelude.{ℕ, ◌+◌}

unfoldable pub twice : ℕ → ℕ
twice n = n + n
""",
    "proofs/Lib.antt": "pub mod Lemmas\n",
    "proofs/Lemmas.antt": """\
use Rattle.std.proofs.Common.{◌≡◌, ℕ, ◌+◌, refl}
use Rattle.small.specs.Twice.{twice}

pub twice_is : (n : ℕ) → twice n ≡ n + n
unfolding twice
twice_is n = refl

pub thrice : ℕ → ℕ
thrice n = n + n + n

-- it unfolds another by name, which so has to keep what it is
abbrev pub thrice_is : (n : ℕ) → thrice n ≡ n + n + n
unfolding thrice
thrice_is n = refl

pub twice_shown : (n : ℕ) → twice n ≡ n + n
twice_shown n =
    twice_is n
""",
    "proofs/doubled/Answers.antt": """\
use Rattle.std.proofs.Common.{sym}
use Rattle.small.proofs.Lemmas.{twice_is}
use Rattle.small.proofs.doubled.Goals as goal

pub returns : goal.returns
returns c = sym (twice_is c.args.number)
""",
    # what stands behind an answer that is left open isn't taken away with it
    "proofs/about/Answers.antt": """\
use Rattle.std.proofs.Common.{rules}
use Rattle.small.proofs.about.Goals as goal

pub returns-clause-low : goal.returns-clause-low
returns-clause-low c = search rules

itself : {A : Type 0} → A → A
itself a = a

pub returns-clause-none : goal.returns-clause-none
returns-clause-none c = itself (search rules)
""",
}

REFUSED = "refused, as it must be: "
PASSED = "NOT REFUSED: nothing of it is refused"
UNREAD = "NOT REFUSED: the checker's words can't be read"
UNTELLING = "NOT REFUSED: no promise of its own is refused: "
NO_GOAL = "NOT REFUSED: it leaves open what is no goal: "
ANOTHER = "NOT REFUSED: it is refused by what it isn't about: "

Edits = dict[str, tuple[str, str, str]]

# For each edit: the text that is there once, what takes its place, and how the report on it must begin.
EDITS: Edits = {
    "about-both": ("let about = 0;", "let about = number;", ANOTHER + "returns-clause-none"),
    "about-no-goal": ("let about = 0;", "let about = 4;", PASSED),
    "about-one": ("let about = 0;", "let about = 1;", REFUSED + "returns-clause-none"),
    "about-the-next": ("let about = 0;", "if number < 3 { return 3; } let about = 0;", ANOTHER + "returns-then-"),
    "about-what-holds": ("let about = 0;", "let about = number;", PASSED),
    "all-left-open": ("let first = 0;", "let first = 1;", PASSED),
    "another-answer": ("number <= 9", "number <= 8", REFUSED + "returns"),
    "another-answer-of-a-trait": ("3 + 4", "3 + 5", REFUSED + "returns"),
    "another-answer-of-the-same": ("number <= 9", "number <= 10", REFUSED + "returns"),
    "another-answer-of-the-same-trait": ("3 + 4", "4 + 4", REFUSED + "returns"),
    "beside-a-refused-function": ("{ Some(number) }", "{ Some(0) }", REFUSED + "returns"),
    "clause-turned": ("≡ number + 1", "≡ number + 2", "BAD EDIT: it changes more than the body"),
    "double-of-another": ("    number + number", "    number + 9", REFUSED + "returns"),
    "double-named": ("    number + number", "    number + 7", REFUSED + "returns"),
    "double-named-otherwise": ("    number + number", "    let one = number; one + number", PASSED),
    "double-otherwise": ("    number + number", "    let other = number; number + other", PASSED),
    "double-with-eight": ("    number + number", "    number + 8", REFUSED + "returns"),
    "hidden-by-a-refused-function": ("    if is_digit(number) {", "    if !!is_digit(number) {", PASSED),
    "no-goal-left-open": ("let none = 0;", "let none = 1;", NO_GOAL + "returns-clause-high"),
    "one-left-open": ("let least = 0;", "let least = 1;", REFUSED + "returns-clause-none"),
    "only-arithmetic": ("    given", "    given + 1 - 1", UNTELLING + "overflow_add"),
    "raised-by-nine": ("let ten = 10;", "let ten = 9;", REFUSED + "returns"),
    "raised-otherwise": ("let ten = 10;", "let ten = 5 + 5;", PASSED),
    "same-meaning": ("if one < other {", "if one <= other {", PASSED),
    "same-text": ("let one = 1;", "let one = 1;", "BAD EDIT: it changes nothing"),
    "stands-nowhere": ("number <= 10", "number <= 11", "BAD EDIT: an 'old:' text is in src/lib.rt 0 times"),
    "twofold-of-another": ("self.number + self.number", "self.number + 9", REFUSED + "returns"),
    "twofold-otherwise": ("self.number + self.number", "let one = self.number; one + self.number", PASSED),
}

# The goals that edits are about, and those that they leave open.
GOALS = {
    "about-both": "goal: returns-clause-low\ngoal: returns-clause-none\n",
    "about-no-goal": "goal: returns-clause-high\n",
    "about-one": "goal: returns-clause-none\n",
    "about-the-next": "goal: returns-clause-low\n",
    "about-what-holds": "goal: returns-clause-low\n",
    "all-left-open": "open: returns-clause-low\nopen: returns-clause-none\n",
    "double-named": "goal: returns\n",
    "double-named-otherwise": "goal: returns\n",
    "no-goal-left-open": "open: returns-clause-high\n",
    "one-left-open": "open: returns-clause-low\n",
}

# Edits that can't be read, beside one that can: if a check can't be read, its halves are tried. The first half has
# those that can.
UNREADABLE: Edits = {
    "another-answer": EDITS["another-answer"],
    "name-of-nothing": ("self.number = number;", "self.number = nobody;", UNREAD),
    "no-expression": ("    number + one", "    number + + one", UNREAD),
}

ONE = {"another-answer": EDITS["another-answer"]}
# Of a library that isn't built the other goals aren't known, and so aren't left open.
ABOUT_ONE = (*EDITS["about-one"][:2], REFUSED + "returns-clause-low, returns-clause-none")
NOT_BUILT = {**UNREADABLE, "about-one": ABOUT_ONE}
PROVED = "without its edits it is proved"
# An edit of a function whose answer cites a lemma that is gone, beside another.
TWICE_IS = """\
pub twice_is : (n : ℕ) → twice n ≡ n + n
unfolding twice
twice_is n = refl
"""
GONE = {**ONE, "double-of-another": (*EDITS["double-of-another"][:2], PASSED)}
# Another text of the library, which isn't proved.
WRONG = LIBRARY.replace("3 + 4", "3 + 3")


# What a check of an edit of `small::edited` says of others; the first isn't proved, and calls nothing that isn't.
BESIDE = """\
fn small::alone: no proof: expected answers in ./proofs/alone/Answers.antt; `search` did not prove `returns`
fn small::edited: not proved
fn small::caller: no proof: it calls `small::edited`, which is not proved
fn small::taken: depends on a hole in `Rattle.small.proofs.AtItsWord.at_its_word`
fn small::derived: no holes
only=5 holes=1
"""

# What a check says if a lemma can't be read: over it nothing is judged. An answer that can't be read is another matter.
BROKEN = """\
./proofs/{}.antt:9:5: error: expected a declaration, found `}}`
fn small::edited: no proof: expected answers in ./proofs/edited/Answers.antt; `search` did not prove `returns`
only=1 holes=1
"""

# Lemmas, and what is left of them if they are taken at their word.
LEMMAS = """\
-- Lemmas.
module _ (a : ℕ) where
  both : (b : ℕ) → Both
      a b
  -- by its parts
  unfolding Both
  both zero = record {
    one = refl;
  }
  both (suc b) = both b

  seen : (b : ℕ) → a ≡ b
  seen b = refl

pub given : Bare _
given = record { read = a }

pub named : a ≡ b
named = refl

last : a ≡ b
last = refl

abbrev shown : a ≡ b
unfolding renamed
  seen
shown = refl
"""
OPENED = LEMMAS.replace("""\
  -- by its parts
  unfolding Both
  both zero = record {
    one = refl;
  }
  both (suc b) = both b
""", "  both = at_its_word\n").replace("last = refl", "last = at_its_word")
# In other files: one of them by another name, and one that isn't theirs.
UNFOLDING = """\
use Rattle.small.proofs.Lemmas.{named as renamed}
#[tactic(auto, unfolding(crate::specs::Twice::twice))]
"""


def main() -> int:
    toolchain.rt().rtlib.guarded()
    edited = Function(("small::edited",), "src/lib.rt", 0, 0, range(0))
    refused = Report(1, BESIDE, set()).refused_beside([edited])
    failures = [] if refused == ["small::alone"] else [f"beside an edit: reported {refused}"]
    for name, is_read in (("Lemmas", False), ("of/Lemmas", False), ("edited/Answers", True), ("AtItsWord", True)):
        if (Report(1, BROKEN.format(name), set()).unread() is None) != is_read:
            failures.append(f"an error in {name}: {'not ' * is_read}judged")
    if (opened := with_lemmas_open(LEMMAS, unfolded_in(LEMMAS + UNFOLDING))) != OPENED:
        failures.append(f"lemmas taken at their word: {opened}")
    with tempfile.TemporaryDirectory(prefix="refused-test-") as root:
        small = Small(root)
        failures += small.failures("not built", LIBRARY, NOT_BUILT, PROVED)
        small.build(LIBRARY)
        failures += small.failures("as it is", LIBRARY, EDITS, PROVED)
        _write(os.path.join(small.folder, "proofs", "Lemmas.antt"), PROOFS["proofs/Lemmas.antt"].replace(TWICE_IS, ""))
        failures += small.failures("changed since it was built", WRONG, GONE, "without its edits it is NOT PROVED")
    for it in failures:
        print(f"tests/refused: {it}")
    if not failures:
        print(f"tests/refused: {len(EDITS | UNREADABLE)} edits of a small library are judged as they must be")
    return 1 if failures else 0


class Small:
    """The library in a repository of its own."""

    def __init__(self, root: str) -> None:
        self.root = root
        self.folder = os.path.join(root, "crates", "small")
        _write(os.path.join(root, "crates.txt"), "small:\n")
        for path, proof in PROOFS.items():
            _write(os.path.join(self.folder, path), proof)

    def crate(self, text: str) -> Any:
        """The library with this text."""
        _write(os.path.join(self.folder, "src", "lib.rt"), text)
        [small] = toolchain.rt().rtlib.crates_below(self.root)
        return small

    def build(self, text: str) -> None:
        self.crate(text).build_rlib(["--jobs", "1"], anew=False)

    def failures(self, case: str, text: str, edits: Edits, of_crate: str) -> list[str]:
        """What is reported otherwise than it must be of the edits of the library, and of itself without them."""
        wanted = {f"{name}.edit": told for name, (_, _, told) in edits.items()} | {"": of_crate}
        told = {it.name: it for it in self._outcomes(self.crate(text), edits)}
        failures = [f"{case}: nothing is reported of {it or 'the library'}" for it in wanted.keys() - told.keys()]
        failures += [f"{case}: what isn't an edit is reported: {it}" for it in told.keys() - wanted.keys()]
        for name in wanted.keys() & told.keys():
            outcome = told[name]
            is_well = wanted[name].startswith((REFUSED, PROVED))
            if not outcome.text.startswith(wanted[name]) or outcome.is_well != is_well:
                of = name or "the library"
                failures.append(f"{case}: {of}: reported {outcome.text!r}, and not {wanted[name]!r}")
        return failures

    def _outcomes(self, small: Any, edits: Edits) -> list[Outcome]:
        folder = os.path.join(self.folder, "refused")
        shutil.rmtree(folder, ignore_errors=True)
        for name, (old, new, _) in edits.items():
            text = f"file: src/lib.rt\nold: {old}\nnew: {new}\n{GOALS.get(name, '')}"
            _write(os.path.join(folder, f"{name}.edit"), text)
        return judge(small)


def _write(file: str, text: str) -> None:
    os.makedirs(os.path.dirname(file), exist_ok=True)
    with open(file, "w", encoding="utf-8") as it:
        it.write(text)


if __name__ == "__main__":
    sys.exit(main())
