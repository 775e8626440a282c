"""The functions of a crate: where each is, and what the checker calls it."""

from __future__ import annotations

import re
from dataclasses import dataclass, replace
from itertools import zip_longest
from typing import Any

import toolchain


@dataclass(frozen=True)
class Place:
    """Where a function that can be copied begins in its file, and its name; and what opens the block that it is in, if
    it is in one, with what is imported there."""

    first: int
    name: range
    block: bytes


@dataclass(frozen=True)
class Function:
    """A function with a body, which has the bytes `start` to `end` of `file`, both braces among them; `lines` are
    those of the whole function, its clauses among them. The checker calls it by one of `symbols`. A trait's method and
    a member of a cycle can't be copied; a copy is known by the function that it is of."""

    symbols: tuple[str, ...]
    file: str
    start: int
    end: int
    lines: range
    place: Place | None = None
    copy_of: Function | None = None

    def copied(self, text: bytes, number: int) -> tuple[Function, bytes]:
        """The same function under another name, and the text of its file with it at the end."""
        assert self.place is not None
        first, name, block = self.place.first, self.place.name, self.place.block
        before = text + b"\n" + block
        added = b"_%d" % number
        copy = text[first : name.stop] + added + text[name.stop : self.end]
        moved = len(before) - first + len(added)
        begin = before.count(b"\n") + 1
        made = replace(
            self,
            symbols=(f"{self.symbols[0]}_{number}",),
            start=self.start + moved,
            end=self.end + moved,
            lines=range(begin, begin + copy.count(b"\n") + 1),
            place=None,
            copy_of=self,
        )
        return made, before + copy + (b"}" if block else b"") + b"\n"

    @property
    def asked(self) -> str:
        """What a check of this function alone is asked for: its name, or its module if it may have two."""
        [name, *others] = self.symbols
        return "::".join(name.split("::")[1:-2]) if others else name

    @property
    def proofs(self) -> list[str]:
        """The folders that may have what is written of its proof."""
        return ["/".join(["proofs", *it.split("::")[1:]]) for it in self.symbols]


def functions_of(crate: Any) -> list[Function]:
    """The functions of a crate, without its tests. What a macro writes or another function holds isn't seen."""
    source = toolchain.bodies().Source(crate.folder)
    source.read("src/main.rt" if crate.is_program else "src/lib.rt")
    return [_function(crate.name, source, it) for it in source.functions if it.has_body]


def _function(crate: str, source: Any, read: Any) -> Function:
    _, text = source.tokens(read.file)
    first, last = (text[:at].count(b"\n") + 1 for at in (read.first, read.end))
    owners = _owners(source, read) if read.block else [read.module]
    symbols = tuple("::".join([crate, *it, read.name]) for it in owners)
    return Function(symbols, read.file, read.opens, read.end, range(first, last + 1), _place(text, read))


def _place(text: bytes, read: Any) -> Place | None:
    """Where a function can be copied from, if it can: a copy at the end of its file is in the same module, and in a
    block with the same head, attributes among it, and the same imports."""
    module = re.sub(r"^/(lib|main)$|/mod$", "", read.file.removeprefix("src").removesuffix(".rt"))
    if read.in_trait or read.in_cycle or module != "".join(f"/{it}" for it in read.module):
        return None
    if not read.block:
        return Place(read.first, range(*read.named), b"")
    opens, closes = read.block.span
    head = re.search(rb"\n((?:#\[[^\n]*\]\n)*impl\b[^{}]*)\Z", text[:opens])
    if head is None or head.string[: head.start()].endswith(b"]"):
        return None
    imports = re.findall(rb"^    ghost use [^;]*;", text[opens:closes], re.M)
    return Place(read.first, range(*read.named), b"\n".join([head[1] + b"{", *imports]) + b"\n")


def _owners(source: Any, read: Any) -> list[tuple[str, ...]]:
    """The paths that a method's impl may have: the type's own, or for an alias one named after it and its arguments, as
    `SqlKeeper+S`, or for a trait one named after the type, the trait and the trait's arguments, as
    `OutOfMemoryFromAllocError`."""
    block = read.block
    if not block.trait:
        [name] = _words(block.ty, block.generics, with_paths=False)
        if types := [it for it in source.declared.get(name, []) if it[1] != "type"]:
            return [(*types[0][0], name)]
        return [(*read.module, "+".join(_words(block.ty, [], with_paths=False)))]
    names = (
        "".join(_words_of_type(block.ty, block.generics) + _words(block.trait, block.generics, with_paths))
        for with_paths in (False, True)
    )
    return [(*read.module, it) for it in dict.fromkeys(names)]


def _words_of_type(tokens: list[str], parameters: list[str]) -> list[str]:
    """The words of a type, which of a reference are such as `RefMut` and `RefSliceU8`."""
    if tokens[:1] != ["&"]:
        return _words(tokens, parameters, with_paths=False)
    signs = {"&": "Ref", "mut": "Mut", "[": "Slice"}
    words = [it for it in tokens if it in signs or it.isidentifier() and it not in parameters]
    return [signs.get(it, it[0].upper() + it[1:]) for it in words]


def _words(tokens: list[str], parameters: list[str], with_paths: bool) -> list[str]:
    """The words of a type or a trait, without an impl's own parameters; `with_paths` those before a `::` too."""
    found = []
    for word, following in zip_longest(tokens, tokens[1:], fillvalue=""):
        if word.isidentifier() and word not in parameters and (with_paths or following != ":"):
            found.append(word[0].upper() + word[1:] if following == ":" else word)
    return found
