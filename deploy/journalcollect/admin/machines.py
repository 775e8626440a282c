"""Which machines may send, and under which names. A deed is done only where it isn't done yet, and is said."""
import sys
from collections.abc import Callable
from pathlib import Path

from ..collector.settings import Folder
from ..common import files, program
from ..common.protocol import HEX_ID
from ..setup import keys
from ..setup.deeds import Deeds
from ..status import looking
from .operations import No


class Machines:
    """The keys that are there. `ask` has the service do something."""

    def __init__(self, etc: Path, folder: Folder, deeds: Deeds, ask: Callable[[str, list[str]], object]) -> None:
        self.etc, self.folder, self.deeds, self.ask = etc, folder, deeds, ask

    def do(self, name: str, *words: str) -> None:
        """Does what has this name. Each says how it stands where nothing was to do."""
        if not (self.etc / "keys").is_dir():
            raise No("this is no collector: journal-collect-admin setup makes it one")
        stands = getattr(self, name)(*words)
        path, text = self.etc / "authorized_keys", keys.text(self.etc, self.folder.sockets)
        if self.deeds.count and not self.deeds.is_rehearsal:
            files.replace(path, text.encode(), 0o644)
        elif not self.deeds.count and not self.deeds.write(path, text):
            print(f"nothing was to do: {stands}")

    def key(self, name: str) -> Path:
        """Where a machine's key is, if it has one."""
        if not keys.is_machine(name):
            raise No(f"{name} can't be a machine's name: letters, digits, `.`, `_` and `-`, at most 64")
        return self.etc / "keys" / f"{name}.pub"

    def admit(self, asked: str) -> str:
        """Lets a machine in, or those of a folder: all or none. No key is that of two machines."""
        whose = {keys.of(self.key(name)): name for name in keys.machines(self.etc)}
        new = brought(asked)
        for name, text in new.items():
            if not (key := keys.of_text(text)):
                raise No(f"what is given for {name} isn't a public key")
            if whose.setdefault(key, name) != name:
                raise No(f"the key of {name} is that of {whose[key]}: each machine has a key of its own")
        for path, text in [(self.key(name), text) for name, text in new.items()]:
            deed = f"replaces the key of {path.stem}" if path.exists() else f"lets {path.stem} in"
            if keys.of(path) != keys.of_text(text) and self.deeds.begin(deed):
                files.replace(path, f"{text}\n".encode(), 0o644)
        return f"{', '.join(new)} may send"

    def retire(self, name: str) -> str:
        """Lets a machine in no more; the service ends its connections."""
        path = self.key(name)
        if path.exists() and self.deeds.begin(f"lets {name} in no more; what it sent stays its days"):
            path.unlink()
        return f"{name} has no key"

    def rename(self, old: str, new: str) -> str:
        """A machine has another name, and so has all that it sent. Its key is away meanwhile, so that nothing comes
        under a wrong one. The next call ends what one began that was killed."""
        key, to = self.key(old), self.key(new)
        away = key.with_suffix(".renamed")
        there = [path for path in (key, away) if path.exists()]
        if to.exists() and not there:
            return f"{new} has a key, and {old} has none"
        if to.exists() or not there:
            raise No(f"{new} has a key already" if there else f"{old} has no key in {key.parent}")
        self.ask("status", [])
        known = {name for name, in looking.rows(self.folder.state, "SELECT name FROM machine WHERE seen > 0")}
        if {old, new} <= known:
            raise No(f"{new} is known already")
        if self.deeds.begin(f"renames {old} to {new}, with all that it sent"):
            files.move(there[0], away)
            try:
                if new not in known:
                    self.ask("rename", [old, new])
            except BaseException:
                files.move(away, key)
                raise
            files.move(away, to)
        return ""

    def release(self, sequence: str) -> str:
        if not HEX_ID.fullmatch(sequence):
            raise No(f"{sequence} is no sequence's id: 32 digits and letters from a to f")
        if sequence in program.owners(self.folder.sequences) and self.deeds.begin(
                f"leaves {sequence} to the machine that brings a new entry of it next"):
            self.ask("release", [sequence])
        return f"{sequence} is no machine's"


def brought(name: str) -> dict[str, str]:
    """A machine and its key, or those of a folder. No machine's name has a /."""
    if "/" not in name:
        return {name: sys.stdin.read().strip()}
    if not (paths := sorted(Path(name).glob("*.pub"))):
        raise No(f"there is no NAME.pub in {name}")
    return {path.stem: path.read_text(errors="replace").strip() for path in paths}
