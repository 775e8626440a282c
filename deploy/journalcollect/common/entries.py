"""Entries of export streams. Lengths are followed, so no line of a message is taken for a field.

An entry that is short and has only lines NAME=VALUE, as nearly all have, is taken at once by regular expressions.
Others go field by field: from a file each in parts, so a reader holds a block and what is made of the parts.
"""
import collections
import contextlib
import re
from collections.abc import Iterator
from io import BufferedReader, BytesIO, RawIOBase
from mmap import mmap
from typing import NamedTuple, cast

Data = bytes | mmap
# What is read at once, and the longest part of a field.
BLOCK = 1 << 16
# journald takes no value of 768 MiB, so a length over this is of no stream.
LONGEST = 1 << 30
# Names are those that journald has. The group isn't possessive (`++`): Python 3.11.2 takes half of one then.
PLAIN = re.compile(rb"(?:[A-Z_][A-Z0-9_]{0,63}+=[^\n]*+\n)+\n")
# A field's name, or none where it is some more of the last one; its text as it is spelled, and of that the value.
Part = tuple[bytes, bytes, bytes]
# What begins with `__` is about the entry, and nearly always comes first.
ABOUT = re.compile(rb"(__[A-Z0-9_]++)=([^\n]*+)\n")
HEAD = re.compile(rb"(?:__[^\n]*+\n)*")
NAME = re.compile(rb"[A-Z_][A-Z0-9_]{0,63}")
OWN = b"_COLLECTED_"
BOOT, BOOT_ID, NO_BOOT = re.compile(rb"\n_BOOT_ID=([^\n]*)"), re.compile(rb"[0-9a-f]{32}"), b"0" * 32
# What systemd-journal-remote takes: at a time that isn't below it ends, without a word and with status 0.
TIMES = range(1, 1 << 55)
MOST_FIELDS = 1_000
DAMAGED = "this isn't an export stream, or it is damaged"


class Unfit(ValueError):
    """The stream can't be followed any more."""


class CutOff(Unfit):
    """It ends within an entry, of which the metadata that came are known."""

    def __init__(self, known: dict[bytes, bytes]) -> None:
        super().__init__("the stream is cut off within an entry")
        self.known = known


def buffered(data: bytes) -> BufferedReader:
    return BufferedReader(cast(RawIOBase, BytesIO(data)))


def parts(source: BufferedReader, line: bytes) -> Iterator[Part]:
    """The parts of the field that begins with this line, as far as the stream goes."""
    name, equals, value = line.partition(b"=")
    if not name:
        raise Unfit(f"a field has no name: {DAMAGED}")
    if equals:
        yield name, line, value.removesuffix(b"\n")
        while not line.endswith(b"\n") and (line := source.readline(BLOCK)):
            yield b"", line, line.removesuffix(b"\n")
        return
    if len(line) == BLOCK and not line.endswith(b"\n"):
        raise Unfit(f"a name is too long: {DAMAGED}")
    length = source.read(8)
    count = int.from_bytes(length, "little") if len(length) == 8 else 0
    if count > LONGEST:
        raise Unfit(f"a value of {count} bytes: {DAMAGED}")
    yield line.removesuffix(b"\n"), line + length, b""
    left = count + 1
    while left and (piece := source.read(min(left, BLOCK))):
        left -= len(piece)
        yield b"", piece, piece if left else piece[:-1]
    if not left and not piece.endswith(b"\n"):
        raise Unfit(f"no newline after a value: {DAMAGED}")


class Untaken(Exception):
    """systemd-journal-remote doesn't take the entry, and why; the databases have it."""


class Entry(NamedTuple):
    """Its key and times, its boot, and the text of its fields."""
    realtime: int
    monotonic: int
    sequence: str
    number: int
    boot: str
    fields: bytes

    def text(self, machine: str | None, with_key: bool) -> bytes:
        """What systemd-journal-remote reads, with the collector's name of the machine."""
        own = b"_COLLECTED_FROM=%s\n" % machine.encode() if machine else b""
        if with_key:
            own += b"_COLLECTED_SEQNUM=%d\n_COLLECTED_SEQNUM_ID=%s\n" % (self.number, self.sequence.encode())
        return b"__REALTIME_TIMESTAMP=%d\n__MONOTONIC_TIMESTAMP=%d\n%s%s\n" % (
            self.realtime, self.monotonic, own, self.fields)


class Span(NamedTuple):
    """Where an entry begins and ends in a stream, and whether it has only lines NAME=VALUE."""
    begin: int
    end: int
    is_plain: bool


def spans(data: Data, at: int = 0) -> Iterator[Span]:
    length = len(data)
    while at < length:
        if data[at] == 10:
            at += 1
            continue
        plain = PLAIN.match(data, at)
        end = plain.end() if plain else at + sum(len(spelled) for _, _, spelled in fields(data, at)) + 1
        yield Span(at, end, plain is not None)
        at = end


def last_key(data: Data, at: int) -> tuple[str, int] | None:
    """The key of the last entry; None if there is none that can be followed."""
    with contextlib.suppress(KeyError, ValueError):
        for last in collections.deque(spans(data, at), 1):
            about = {name: value for name, value, _ in fields(data, last.begin) if name.startswith(b"__SEQNUM")}
            return about[b"__SEQNUM_ID"].decode("ascii").lower(), int(about[b"__SEQNUM"])
    return None


def entry(data: Data, span: Span) -> Entry:
    """The entry that a span has. What systemd-journal-remote doesn't take is Untaken."""
    text = data[span.begin:span.end]
    head = HEAD.match(text)
    own = text[head.end():-1] if head else text
    if head and span.is_plain and b"\n__" not in own and OWN not in own:
        about, boots, count = dict(ABOUT.findall(head[0])), BOOT.findall(b"\n" + own), own.count(b"\n")
    else:
        about, kept = {}, list[bytes]()
        for name, value, spelled in fields(text):
            if name.startswith((b"__", OWN)):
                about[name] = value
            elif not NAME.fullmatch(name):
                raise Untaken("a field's name is none of journald's")
            else:
                kept.append(spelled)
        own, boots, count = b"".join(kept), [each[9:-1] for each in kept if each[:9] == b"_BOOT_ID="], len(kept)
    try:
        realtime, monotonic = int(about[b"__REALTIME_TIMESTAMP"]), int(about[b"__MONOTONIC_TIMESTAMP"])
        sequence, number = about[b"__SEQNUM_ID"].decode("ascii").lower(), int(about[b"__SEQNUM"])
    except (KeyError, ValueError) as error:
        raise Unfit(f"an entry without its key or its times: {error}") from error
    if realtime not in TIMES or monotonic and monotonic not in TIMES:
        raise Untaken("their time is none that a journal file can have")
    if len(boots) != 1 or not BOOT_ID.fullmatch(boots[0]) or boots[0] == NO_BOOT:
        raise Untaken("they aren't of one boot")
    if count > MOST_FIELDS:
        raise Untaken(f"they have over {MOST_FIELDS} fields")
    return Entry(realtime, monotonic, sequence, number, boots[0].decode("ascii"), own)


def fields(data: Data, at: int = 0) -> Iterator[tuple[bytes, bytes, bytes]]:
    """The fields of the entry that begins here, in either spelling: name, value, and how it is spelled."""
    while (end := data.find(b"\n", at)) != at:
        if end < 0:
            raise Unfit("the stream ends within an entry")
        name, equals, value = data[at:end].partition(b"=")
        if not equals:
            begin = end + 9
            end = begin + int.from_bytes(data[end + 1:begin], "little")
            value = data[begin:end]
            if data[end:end + 1] != b"\n":
                raise Unfit("no newline after a value")
        yield name, value, data[at:end + 1]
        at = end + 1
