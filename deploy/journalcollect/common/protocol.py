"""What a machine and the collector's service say to each other over the machine's socket: version 1.

The service greets. Then the machine asks, `had` or `upload` with its bytes behind it, and each question has one line
for an answer, in turn. Lines are ASCII and have at most 200 bytes with their line feed, which `str` leaves out.
"""
import enum
import re
from typing import NamedTuple

LONGEST_LINE = 200
# The greatest number and time that an entry may have.
GREATEST = 2**63 - 1
# What an upload of an export stream of version 2 that is to be whole begins with (docs/FORMATS.md); and its header.
WHOLE, HEADER, STREAM = b"JCUPLD02\1\1" + bytes(6), 48, b"\1"
KIND, SOURCE, START, COUNT = slice(8, 9), slice(16, 32), slice(32, 40), slice(40, 48)
# A file of notes has so many numbers of a sequence, and an upload touches so many files of notes at most.
WINDOW, MOST_WINDOWS = 4096, 16
HEX_ID = re.compile(r"[0-9a-f]{32}")
NUMBER, DIGEST = r"(0|[1-9][0-9]{0,18})", r"([0-9a-f]{64})"
GREETING = re.compile(rf"journal-collect 1 {NUMBER} (?:{DIGEST}|-)")
HAD = re.compile(rf"had ({HEX_ID.pattern}) {NUMBER}")
UPLOAD = re.compile(rf"upload {NUMBER} {DIGEST} {NUMBER}")
ACK = re.compile(rf"ack {HEX_ID.pattern} {NUMBER} {NUMBER} {NUMBER} {NUMBER}")
NO = re.compile(rf"no (?:{HEX_ID.pattern} {NUMBER}|- -) {NUMBER} {NUMBER}")


class NotALine(ValueError):
    """What came is no line of the protocol."""


class Greeting(NamedTuple):
    """The service's first line: its clock, in microseconds since 1970, and its daily head, if it has one yet."""
    realtime: int
    head: str | None

    def __str__(self) -> str:
        return f"journal-collect 1 {self.realtime} {self.head or '-'}"


class Had(NamedTuple):
    """The key of an entry that was acknowledged: is it known still?"""
    sequence: str
    number: int

    def __str__(self) -> str:
        return f"had {self.sequence} {self.number}"


class Upload(NamedTuple):
    """An upload comes behind this line: its bytes, their digest, and the machine's clock in microseconds."""
    size: int
    sha256: str
    realtime: int

    def __str__(self) -> str:
        return f"upload {self.size} {self.sha256} {self.realtime}"


class Known(enum.StrEnum):
    """What `had` is answered."""
    HAD = "had"
    LOST = "lost"


class Verdict(enum.StrEnum):
    """What becomes of an upload that the program wasn't asked about, or that ended it."""
    LATER = "later"
    SMALLER = "smaller"
    NEVER = "never"


class Put(NamedTuple):
    """An upload wasn't stored, and why."""
    verdict: Verdict
    why: str

    def __str__(self) -> str:
        """One line of ASCII, cut to what fits."""
        why = " ".join(self.why.encode("ascii", "replace").decode("ascii").split())
        return f"{self.verdict} {why[:LONGEST_LINE - 20]}"


class Answer(NamedTuple):
    """The program's line about an upload, which `journal-collect acknowledged` says the meaning of: how many entries
    weren't stored before; or by which code it was refused, and the place of that."""
    line: str
    new: int = 0
    code: int = 0
    place: int = 0

    def __str__(self) -> str:
        return self.line


Question = Had | Upload
Reply = Known | Put | Answer


def greeting(line: str) -> Greeting:
    if not (found := GREETING.fullmatch(line)):
        raise NotALine(line)
    return Greeting(number(found[1]), found[2])


def question(line: str) -> Question:
    if found := HAD.fullmatch(line):
        return Had(found[1], number(found[2]))
    if found := UPLOAD.fullmatch(line):
        return Upload(number(found[1]), found[2], number(found[3]))
    raise NotALine(line)


def reply(line: str) -> Reply:
    word, _, why = line.partition(" ")
    if line in list(Known):
        return Known(line)
    return Put(Verdict(word), why) if word in list(Verdict) else answer(line)


def answer(line: str) -> Answer:
    if found := ACK.fullmatch(line):
        return Answer(line, new=int(found[3]))
    if found := NO.fullmatch(line):
        return Answer(line, code=int(found[2]), place=int(found[3]))
    raise NotALine(line)


def number(text: str) -> int:
    if int(text) > GREATEST:
        raise NotALine(text)
    return int(text)


def encoded(line: Greeting | Question | Reply) -> bytes:
    return f"{line}\n".encode("ascii")


def decoded(data: bytes) -> str:
    """The text of a line that came whole."""
    if not data.endswith(b"\n") or len(data) > LONGEST_LINE or not data.isascii():
        raise NotALine(repr(data[:LONGEST_LINE]))
    return data[:-1].decode("ascii")
