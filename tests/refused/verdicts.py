"""What a check of an edited crate says of each of its functions.

The checker has one line for each function, and ends with `logic=proved` or `logic=not-proved`, or if it was asked for
some functions alone, with `only=N proved=M`, and with `only=N holes=M` if proofs are left open:

    fn base::key: proved
    fn base::value: no holes
    fn base::field: depends on a hole in `Rattle.base.proofs.key.Proof.key_spec`
    fn base::fits: no proof: expected answers in ./proofs/fits/Answers.antt; `search` did not prove `returns`
    fn base::text: not proved
    fn base::line: no proof: it calls `base::key`, which is not proved

What isn't proved of a function stands there, in notes at its lines, or in errors at its proof files:

    note: src/key.rt:36:1: it is not proved that what the function ensures holds when it returns (`returns`)
    ./proofs/text/Answers.antt:8:24: error: `returns-then-is_plain`: computed as far as they go, the two types differ
"""

from __future__ import annotations

import re
from dataclasses import dataclass
from enum import Enum

import toolchain
from checking import NOT_A_GOAL
from edits import Edit
from functions import Function
from goals import PROMISE

FUNCTION = re.compile(r"fn (\S+): (.*)")
GOAL_AT_LINE = re.compile(
    r"note: (?:\./)?(src/\S+?):(\d+):\d+: (?:it is not proved that .*?|`search` found no proof) \(`([^`]+)`\)"
)
GOAL_OF_PROOF = re.compile(r"(?:\./)?(proofs/\S+)/\w+\.antt:\d+:\d+: error: `([^`]+)`: (.*)")
SEARCHED = re.compile(r"`search` did not prove ((?:`[^`]+`(?:, | and )?)+)")
CALLED = re.compile(r"(?:; |no proof: )it [^;]*?((?:`[^`]+`(?:, | and )?)+), which (?:is|are) not proved")
# An answer to what is no goal of the function.
NO_GOAL = re.compile(r"(?:\./)?(proofs/\S+)/Answers\.antt:\d+:\d+: error: `([^`]+)`: `goal\.\2`: .* has no ")
# A proof file that names what the edit took away says nothing of the contract.
STALE = re.compile(r"has no field|is not in scope|has no `|was not admitted")
# A lemma that isn't admitted. What rests on it would be refused for that alone.
LEMMA = re.compile(
    r"(?:\./)?proofs/(?!AtItsWord\.)(?:\S+/)?(?!Answers\.|Invariants\.|Proof\.)\w+\.antt:\d+:\d+: "
    r"(?:error|.* is not admitted)"
)
# What is said of a function that is proved, by the contracts of those whose proofs are left open.
PROVED = re.compile(r"proved$|no holes$|depends on a hole in ")
# The last line of a check that ended.
JUDGED = re.compile(r"logic=(not-)?proved\b|only=\d+ (proved|holes)=\d+$")


class Kind(Enum):
    """What became of an edit's function in one check."""

    REFUSED = "a promise of its own isn't proved"
    PROVED = "nothing of it is refused"
    UNTELLING = "no promise of its own is refused"
    ANOTHER = "it is refused by what it isn't about"
    HIDDEN = "the checker says only that it calls what isn't proved"
    OPENS_NOTHING = "it leaves open what is no goal"
    UNREAD = "the checker's words can't be read"


@dataclass(frozen=True)
class Ruling:
    """What became of a function, the goals that say so, and the functions that hide it."""

    kind: Kind
    goals: tuple[str, ...] = ()
    hidden_by: frozenset[str] = frozenset()


class Report:
    """A check's exit status and output, over a crate in which these files are edited."""

    def __init__(self, status: int, output: str, edited: set[str]) -> None:
        self.status = status
        self.lines = output.rstrip("\n").split("\n")
        self.edited = edited

    def is_proved(self) -> bool:
        """Whether the whole crate is proved."""
        return self.status == 0 and self.lines[-1].startswith("logic=proved ") and self.unread() is None

    def unread(self) -> str | None:
        """The line that shows that the crate wasn't judged, if it wasn't."""
        rt = toolchain.rt()
        for line in self.lines:
            if rt.unread(line, self.edited) or rt.rtlib.STALE.search(line) or LEMMA.match(line):
                return line
        if self.status in (0, 1) and JUDGED.match(self.lines[-1]):
            return None
        return next((it for it in self.lines if "error" in it), self.lines[-1])

    def ruling(self, edit: Edit) -> Ruling:
        """What became of an edit's function. The crate must have been judged."""
        function = edit.function
        if no_goals := self._no_goals(edit):
            return Ruling(Kind.OPENS_NOTHING, no_goals)
        heads = tuple(f"fn {it}: " for it in function.symbols)
        found = [it.split(": ", 1)[1] for it in self.lines if it.startswith(heads)]
        if len(found) == 1 and PROVED.match(found[0]):
            return Ruling(Kind.PROVED)
        if len(found) != 1 or not re.match(r"no proof: |not proved(;|$)", found[0]):
            return Ruling(Kind.UNREAD, tuple(found))
        goals = tuple(dict.fromkeys([goal for it in SEARCHED.findall(found[0]) for goal in _ticked(it)]
                                    + self._goals_at(function)))
        if goals and not set(edit.about) <= set(goals):
            return Ruling(Kind.ANOTHER, goals)
        if goals:
            is_refused = all(map(PROMISE.match, edit.about)) if edit.about else any(map(PROMISE.match, goals))
            return Ruling(Kind.REFUSED if is_refused else Kind.UNTELLING, goals)
        if hidden_by := self._unproved(_ticked(" ".join(CALLED.findall(found[0])))):
            return Ruling(Kind.HIDDEN, hidden_by=hidden_by)
        return Ruling(Kind.PROVED)

    def refused_beside(self, functions: list[Function]) -> list[str]:
        """The functions other than these that aren't proved, though they call nothing that isn't."""
        named = {symbol for it in functions for symbol in it.symbols}
        found = [it.groups() for line in self.lines if (it := FUNCTION.match(line))]
        return [name for name, said in found if name not in named and not (PROVED.match(said) or CALLED.search(said))]

    def _unproved(self, called: list[str]) -> frozenset[str]:
        """Those of these functions that aren't proved, by the contracts of those whose proofs are left open."""
        proved = {it[1] for line in self.lines if (it := FUNCTION.match(line)) and PROVED.match(it[2])}
        return frozenset(called) - proved

    def _no_goals(self, edit: Edit) -> tuple[str, ...]:
        """What the edit leaves open and is no goal of its function."""
        found = [it.groups() for line in self.lines if (it := NO_GOAL.match(line))]
        return tuple(name for folder, name in found if folder in edit.function.proofs and name in edit.left_open)

    def _goals_at(self, function: Function) -> list[str]:
        """The goals that the notes at a function's lines and the errors at its proof files name."""
        goals = []
        for line in self.lines:
            if found := GOAL_AT_LINE.match(line):
                if found[1] == function.file and int(found[2]) in function.lines:
                    goals.append(found[3])
            elif found := GOAL_OF_PROOF.match(line):
                if found[1] in function.proofs and found[2] != NOT_A_GOAL and not STALE.search(found[3]):
                    goals.append(found[2])
        return goals


def _ticked(text: str) -> list[str]:
    return re.findall(r"`([^`]+)`", text)
