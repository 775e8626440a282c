"""The words of a call, as journalctl reads them, and what this front takes for itself."""
import re
from dataclasses import dataclass, field, replace

from ..common.settings import Wrong

# What journalctl has, and this front's own: options without a value, with one, and with one that may be left out.
# Behind a name stands its letter.
NONE = ("help h, version, pager-end e, follow f, all a, full l, no-full, quiet q, merge m, list-boots, dmesg k, "
        "header, show-cursor, fields N, catalog x, list-catalog, dump-catalog, reverse r, utc, no-hostname, no-tail, "
        "no-pager, verify, disk-usage, list-machines, failed")
VALUE = ("output o, output-fields, identifier t, priority p, facility, grep g, cursor c, cursor-file, after-cursor, "
         "since S, until U, unit u, user-unit, field F, machine M, count-by, folder")
MAYBE = "lines n, boot b, case-sensitive, histogram"
OWN = {"list-machines", "failed", "count-by", "folder", "histogram", "machine"}
KINDS = {each.split()[0]: kind for kind in (NONE, VALUE, MAYBE) for each in kind.split(", ")}
LETTERS = {each[-1]: each[:-2] for kind in (NONE, VALUE, MAYBE) for each in kind.split(", ") if each[-2] == " "}
# What may be the value of an option that can stand without one.
BEHIND = {"lines": re.compile(r"\d+|all"), "boot": re.compile(r"all|(?=.)([0-9a-fA-F]{32})?([+-]?\d+)?")}


@dataclass(frozen=True)
class Call:
    """The options in their order, each with its value, and the matches."""
    options: list[tuple[str, str | None]] = field(default_factory=list)
    matches: list[str] = field(default_factory=list)

    def has(self, *names: str) -> bool:
        return any(name in names for name, _ in self.options)

    def value(self, name: str) -> str | None:
        """The last one, as journalctl takes it."""
        return next((value for each, value in reversed(self.options) if each == name), None)

    def without(self, *names: str) -> "Call":
        return replace(self, options=[each for each in self.options if each[0] not in names])

    def plus(self, *names: str, **values: str) -> "Call":
        """With further options, some without a value. Of several values of one journalctl takes the last."""
        named = [(name.replace("_", "-"), value) for name, value in values.items()]
        return replace(self, options=[*self.options, *((name, None) for name in names), *named])

    def of(self, matches: list[str]) -> "Call":
        """Narrowed down: `+` is an alternative to all before it, so each alternative gets the matches."""
        narrowed = list(matches)
        for match in self.matches:
            narrowed += ["+", *matches] if match == "+" else [match]
        return replace(self, matches=narrowed)

    @property
    def lines(self) -> int | None:
        """How many entries are asked for; None if all are."""
        said = (self.value("lines") or "10") if self.has("lines") else "1000" if self.has("pager-end") else "all"
        return int(said) if said.isdigit() else None

    def words(self) -> list[str]:
        """What journalctl is called with."""
        given = [(name, value) for name, value in self.options if name not in OWN]
        found = [f"--{name}" if value is None else f"--{name}={value}" for name, value in given]
        return [*found, "--", *self.matches] if self.matches else found


def read(words: list[str]) -> Call:
    """A call of the words, by the rules of getopt_long: matches may stand anywhere, and `--` ends options."""
    call, left = Call(), list(words)
    while left:
        word = left.pop(0)
        if word == "--":
            call.matches.extend(left)
            break
        if word.startswith("--"):
            said, has_value, value = word[2:].partition("=")
            name = whole(said)
            if has_value and KINDS[name] == NONE:
                raise Wrong(f"--{name} takes no value")
        elif word.startswith("-") and word != "-":
            name, has_value, value = LETTERS.get(word[1], ""), word[2:], word[2:]
            if not name:
                raise Wrong(f"-{word[1]} is no option here")
            if has_value and KINDS[name] == NONE:
                left.insert(0, f"-{value}")             # further letters
                has_value = ""
        else:
            call.matches.append(word)
            continue
        call.options.append((name, value if has_value else following(name, left)))
    return call


def whole(said: str) -> str:
    """The name of an option, which may be said by a beginning that no other one has."""
    found = [said] if said in KINDS else [name for name in KINDS if name.startswith(said)]
    if len(found) != 1:
        raise Wrong(f"--{said} is {'more than one option' if found else 'no option here'}")
    return found[0]


def following(name: str, left: list[str]) -> str | None:
    """The value of an option that has none of its own: the next word, where that is to be one."""
    if KINDS[name] == VALUE and not left:
        raise Wrong(f"--{name} takes a value")
    if KINDS[name] == VALUE or left and name in BEHIND and BEHIND[name].fullmatch(left[0]):
        return left.pop(0)
    return None
