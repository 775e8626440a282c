"""What a device has of a folder, and of all that is in it: names that were made or removed, but not synced, may be as
before once power was lost, and of each file there is what device.py says."""
from __future__ import annotations

import os
from collections.abc import Mapping
from random import Random

from device import Call, Disk

# What lies under a path: the bytes of a file, or a folder with its names.
Content = bytes | dict[str, "Content"]


class Folder:
    """The names as they were last synced, and each that was made or removed since then."""

    def __init__(self) -> None:
        self.synced: dict[str, Folder | Disk] = {}
        self.changes: list[tuple[str, Folder | Disk | None]] = []

    def seen(self) -> dict[str, Folder | Disk]:
        return changed(self.synced, self.changes)

    def sync(self) -> None:
        self.synced, self.changes = self.seen(), []

    def is_unsynced(self) -> bool:
        """Whether a loss of power may take something away, here or below."""
        below = (node.is_unsynced() if isinstance(node, Folder) else bool(node.changes)
                 for node in self.seen().values())
        return bool(self.changes) or any(below)

    def after_loss(self, dice: Random) -> dict[str, Content]:
        """What a loss of power may leave: of the names that aren't synced none, all or some."""
        chance = dice.choice((0, 0.5, 1))
        kept = [change for change in self.changes if dice.random() < chance]
        return {name: node.after_loss(dice) for name, node in changed(self.synced, kept).items()}

    def node(self, path: str) -> Folder | Disk:
        node = self
        for name in filter(None, path.split(os.sep)):
            node = node.seen()[name]
        return node

    def take(self, call: Call, path: str) -> None:
        """A call changes what is below this folder, or syncs it."""
        folder, name = os.path.split(path)
        if call.operation == b"c" and name not in self.node(folder).seen():
            self.node(folder).changes.append((name, Disk()))
        elif call.operation == b"k" and name not in self.node(folder).seen():
            self.node(folder).changes.append((name, Folder()))
        elif call.operation == b"u":
            self.node(folder).changes.append((name, None))
        elif call.operation == b"s" and isinstance(self.node(path), Folder):
            self.node(path).sync()
        elif call.operation in (b"s", b"w", b"t"):
            self.node(path).take(call)


def changed(
    names: Mapping[str, Folder | Disk], changes: list[tuple[str, Folder | Disk | None]]
) -> dict[str, Folder | Disk]:
    """Names after some changes."""
    there = dict(names)
    for name, node in changes:
        if node is None:
            there.pop(name, None)
        else:
            there[name] = node
    return there


def write(content: Content, path: str) -> None:
    """Makes a file or a folder that isn't there."""
    if isinstance(content, bytes):
        with open(path, "wb") as file:
            file.write(content)
        return
    os.mkdir(path)
    for name, below in content.items():
        write(below, os.path.join(path, name))
