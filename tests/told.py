"""What a program for tests printed, taken piece by piece, and how a row isn't as it has to be."""
from __future__ import annotations

import re


class Told:
    """What the program printed and wasn't looked at yet. What isn't of the form that it should have is a ValueError."""

    def __init__(self, output: bytes) -> None:
        self.rest = output

    def take(self, size: int) -> bytes:
        if size > len(self.rest):
            raise ValueError("there is less")
        taken, self.rest = self.rest[:size], self.rest[size:]
        return taken

    def line(self) -> str:
        line, end, self.rest = self.rest.partition(b"\n")
        if not end:
            raise ValueError("there is no line")
        return line.decode()

    def begins(self, name: str) -> bool:
        """Whether a line of this name and numbers comes next."""
        return re.match(rb"%s [0-9 ]+\n" % name.encode(), self.rest) is not None

    def numbers(self, name: str) -> list[int]:
        """The numbers of a line of this name."""
        if not self.begins(name):
            raise ValueError(f"there is no {name}")
        return [int(it) for it in self.line().removeprefix(name).split()]

    def text(self, *names: str) -> bytes:
        """What comes behind its length, on a line of one of the names; or the line itself."""
        name = next(filter(self.begins, names), None)
        if name is None:
            return self.line().encode()
        text = self.take(*self.numbers(name))
        if self.take(1) != b"\n":
            raise ValueError("there is more")
        return text

    def all(self) -> bytes:
        return self.take(len(self.rest))


def report_of(line: int, said: bytes, wanted: bytes) -> str:
    return f"line {line}: {repr(said)[2:-1]} and not {repr(wanted)[2:-1]}"
