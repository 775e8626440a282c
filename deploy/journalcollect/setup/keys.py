"""The keys by which machines log in. Each is a file of root's, keys/NAME.pub; sshd reads one file made of them."""
import re
from pathlib import Path

# A machine's name may be a file's, and stand in a line of the protocol.
MACHINE = re.compile(r"[A-Za-z0-9][A-Za-z0-9._-]{0,63}", re.ASCII)
# A public key as ssh-keygen writes it: its kind, its bytes, and a comment.
KEY = re.compile(r"((?:ssh|ecdsa|sk)-[a-z0-9@.-]+ [A-Za-z0-9+/]+=*)(?: [^\x00-\x1f\x7f]*)?", re.ASCII)
NETCAT = "/usr/bin/nc.openbsd"


def is_machine(name: str) -> bool:
    return MACHINE.fullmatch(name) is not None


def machines(etc: Path) -> list[str]:
    return sorted(path.stem for path in (etc / "keys").glob("*.pub") if is_machine(path.stem))


def of_text(text: str) -> str:
    """The kind and the bytes of a key; nothing of a text that is none."""
    found = KEY.fullmatch(text.strip())
    return found[1] if found else ""


def of(path: Path) -> str:
    """The key that a file has; nothing of one that isn't there, or has something else in it."""
    return of_text(path.read_text(encoding="utf-8", errors="replace")) if path.exists() else ""


def text(etc: Path, sockets: Path) -> str:
    """What sshd reads. A machine's key opens the machine's own socket, and can do nothing else."""
    whose = {name: of(etc / "keys" / f"{name}.pub") for name in machines(etc)}
    return "".join(f'command="{NETCAT} -NU {sockets / name}",restrict {key} {name}\n'
                   for name, key in whose.items() if key)
