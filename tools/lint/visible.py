"""Items of a library say who uses them: `pub` is what its `lib.rt` hands on, and no other."""

from __future__ import annotations

import re
from collections.abc import Iterator

from texts import Mistake, Text

LIBRARY = re.compile(r"(?P<source>crates/\w+/src)/lib\.rt")
ITEM = re.compile(r"pub (?:const fn|fn|struct|enum|trait|type|const|static) (?P<name>\w+)")
OPEN = re.compile(r"^pub mod (\w+);", re.MULTILINE)
# of one item, or of some in brackets; each may get another name
HANDED_ON = re.compile(r"^pub use (\w+)::(?:(\w+)[^;{]*|\{([^}]*)\});", re.MULTILINE)


def mistakes_in_visibility(texts: list[Text]) -> Iterator[Mistake]:
    """The items of a library's closed modules that are `pub`, and that its `lib.rt` doesn't hand on."""
    libraries = {it["source"]: text for text in texts if (it := LIBRARY.fullmatch(text.path))}
    for text in texts:
        source, _, module = text.path.removesuffix(".rt").rpartition("/")
        if text.kind == "rattle" and source in libraries and module != "lib":
            yield from _closed(text, module, libraries[source].content)


def _closed(text: Text, module: str, library: str) -> Iterator[Mistake]:
    if module in OPEN.findall(library):
        return
    handed_on = {it for of, one, some in HANDED_ON.findall(library) if of == module for it in _names(one or some)}
    for number, line in enumerate(text.content.split("\n"), 1):
        if (item := ITEM.match(line)) and item["name"] not in handed_on:
            yield Mistake(text.path, number, "visible", f"{item['name']} is pub, and lib.rt doesn't hand it on")


def _names(listed: str) -> Iterator[str]:
    for it in listed.split(","):
        if words := it.split():
            yield words[0]
