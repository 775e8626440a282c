"""The program journal-collect: every call of it is made here."""
import enum
import os
import re
import subprocess
from collections.abc import Iterable
from pathlib import Path

OK, REFUSED, USAGE, FAILED, NONE = range(5)
BAD = re.compile(rb"bad ([0-9]+) ([0-9]+)")


class Code(enum.IntEnum):
    """Why an upload isn't taken, as far as it is told apart here, by the names that docs/FORMATS.md gives them."""
    OVER_BOUNDS = 6
    NAME_TOO_LONG, VALUE_TOO_LONG = 11, 12
    TOO_MANY_FIELDS, ENTRY_TOO_LONG = 14, 15
    CONFLICT, READ_FAILED, STORE_FAILED, OUT_OF_MEMORY, NOT_THE_OWNER = 60, 61, 62, 63, 71


# What failed at the collector, and may be taken when it comes again; and what an entry with less may be taken for.
FAILURES = Code.READ_FAILED, Code.STORE_FAILED, Code.OUT_OF_MEMORY
TOO_LARGE = Code.NAME_TOO_LONG, Code.VALUE_TOO_LONG, Code.TOO_MANY_FIELDS, Code.ENTRY_TOO_LONG


class Failed(Exception):
    """The program couldn't do what was asked, and what it said."""


class Bad(Failed):
    """The program can't take what is at this place of a stream, and the code that says why."""

    def __init__(self, why: str, code: int, place: int) -> None:
        super().__init__(why)
        self.code, self.place = code, place


def path() -> Path:
    """The program beside the library that this module is in: PREFIX/bin for PREFIX/lib/journal-collect. The environment
    may name another one, as tests do."""
    named = os.environ.get("JOURNAL_COLLECT")
    return Path(named) if named else Path(__file__).resolve().parents[4] / "bin" / "journal-collect"


def run(*words: str | Path, given: bytes = b"", allowed: Iterable[int] = (OK,),
        out: int = subprocess.PIPE) -> subprocess.CompletedProcess[bytes]:
    """Calls the program with some words and an input; how it ended, if the status is allowed."""
    ended = subprocess.run([path(), *words], input=given, stdout=out, stderr=subprocess.PIPE, check=False)
    if ended.returncode in allowed:
        return ended
    why = f"journal-collect {' '.join(map(str, words))}: status {ended.returncode}: "
    why += ended.stderr.decode(errors="replace").strip()
    if bad := BAD.match(ended.stdout or ended.stderr):
        raise Bad(why, int(bad[1]), int(bad[2]))
    raise Failed(why)


def said(*words: str | Path, given: bytes = b"", allowed: Iterable[int] = (OK,)) -> str:
    return run(*words, given=given, allowed=allowed).stdout.decode(errors="replace").strip()


def acknowledged(upload: Path, answers: str) -> tuple[int, str]:
    """What some answers, a line each, mean to an upload that is to be whole: OK, all of it is acknowledged; REFUSED,
    and the line that refuses it; NONE is about it."""
    ended = run("acknowledged", upload, given=answers.encode(), allowed=(OK, REFUSED, NONE))
    return ended.returncode, ended.stdout.decode(errors="replace").strip()


def collecting(sequences: Path, database: Path, names: str = "-") -> list[str | Path]:
    """The call that stores the uploads that are named in a file, by lines `MACHINE<tab>PATH`, and answers each."""
    return [path(), "collect", "--sequences", sequences, "--tables", "3", "--files-from", names, database]


def has_note(sequences: Path, sequence: str, number: int) -> bool:
    return said("notes", "--sequences", sequences, "has", given=f"{sequence} {number}\n".encode()) == "noted"


def forget_after(sequences: Path, windows: Iterable[tuple[str, int, int]]) -> None:
    """Of each window of a sequence only the first so many notes stay. Nobody may store meanwhile."""
    lines = "".join(f"{sequence} {window} {count}\n" for sequence, window, count in windows)
    said("notes", "--sequences", sequences, "forget-after", given=lines.encode())


def owners(sequences: Path) -> dict[str, str]:
    """Of each sequence that is a machine's, the SHA-256 digest of the machine's name."""
    lines = said("owners", "--sequences", sequences, allowed=(OK, REFUSED)).splitlines()
    return dict(line.split(" ") for line in lines if not line.startswith("bad "))


def change_owners(sequences: Path, *words: str) -> None:
    """Gives a machine another name, or leaves a sequence to who brings it next. Nobody may store meanwhile."""
    said("owners", "--sequences", sequences, *words)


def differs(sequences: Path, database: Path) -> str | None:
    """How a database differs from its notes; None if each of its entries is noted as it is."""
    ended = run("check", "--sequences", sequences, database, allowed=range(-64, 256))
    told = ended.stdout.decode(errors="replace").strip()
    if ended.returncode == OK and told.endswith(" 0"):
        return None
    return f"{told} {ended.stderr.decode(errors='replace')}".strip()


def export(database: Path, out: int) -> None:
    """Writes all entries of a database to an open file."""
    run("export", database, out=out)


def touched(upload: int) -> int:
    """How many files of notes an upload touches, which is in an open file; 0 if it has a fault."""
    ended = subprocess.run([path(), "inspect", "/dev/stdin"], stdin=upload, capture_output=True, check=False)
    if ended.returncode not in (OK, REFUSED):
        raise Failed(f"journal-collect inspect: status {ended.returncode}")
    return int(ended.stdout.split()[7]) if ended.returncode == OK else 0


def upload(stream: Path, source: str, out: int) -> None:
    """Writes all of an export stream to an open file, as an upload that is to be whole; a Bad if it has a fault."""
    bounds = ["--resume", str(stream.with_name(stream.name + ".resume")), "--limit", str(2**63 - 1), "--whole"]
    run("upload", "--source", source, *bounds, "export", stream, out=out)


def look_at(upload: Path) -> None:
    """Returns if the program can take an upload as far as that doesn't depend on what is stored; otherwise a Bad."""
    run("inspect", upload)
