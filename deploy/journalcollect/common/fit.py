"""Makes an export stream one that journal-collect takes: what fit-stream does, and how a machine reads its journal.

An entry without `__SEQNUM` and `__SEQNUM_ID`, as journalctl before systemd 254 writes it, gets both from its
`__CURSOR`. Of an entry over the limits less is held: its key, its times, its short fields and the beginning of its
message, so memory is bounded whatever the stream has. A field says what isn't there. No user can write that one, for
journald drops names that begin with `_`, and whatever somebody logs beside message, unit and user hides none of these.
"""
import argparse
import codecs
import re
import sys
from collections.abc import Callable, Iterator
from contextlib import suppress
from dataclasses import dataclass
from io import BufferedReader

from journalcollect.common.entries import BLOCK, PLAIN, CutOff, Unfit, buffered, parts

NAME, VALUE, FIELDS, ENTRY = 1_024, 16_777_216, 4_096, 33_554_432
ABOUT = re.compile(rb"^(__[^=\n]*)=(.*)$", re.MULTILINE)
LEFT_OUT = b"_JOURNAL_COLLECT_LEFT_OUT"
# The bytes of a field that is short, and of a message's beginning; how many fields are kept of each sort.
SHORT, BEGINNING = 4_096, 2_048
METADATA, TRUSTED, KNOWN, OTHERS = 16, 128, 64, 64
KNOWN_NAMES = frozenset(b"MESSAGE MESSAGE_ID PRIORITY SYSLOG_IDENTIFIER SYSLOG_FACILITY SYSLOG_PID CODE_FILE CODE_LINE "
                        b"CODE_FUNC ERRNO UNIT USER_UNIT COREDUMP_EXE COREDUMP_PID COREDUMP_UID COREDUMP_SIGNAL "
                        b"COREDUMP_COMM COREDUMP_UNIT".split())
# So many names are told of those that are left out.
LETTERS, MOST_NAMES = frozenset(b"ABCDEFGHIJKLMNOPQRSTUVWXYZ0123456789_"), 8


@dataclass
class Field:
    """A field as the stream spells it, or the beginning of a long one; `length` is that of all of it."""
    name: bytes
    text: bytearray
    length: int = 0


class Entry:
    """One entry: its metadata, and its text within the limits. That of a larger one is handed to `overflow`, if any."""

    def __init__(self, overflow: Callable[[bytes], object] | None = None, whole: bytes = b"") -> None:
        self.overflow = overflow
        # The text of a short one, or its fields.
        self.whole, self.held = whole, list[Field]()
        self.known: dict[bytes, bytes] = dict(ABOUT.findall(whole))
        self.fields = self.counted = self.bytes = self.value = 0
        self.is_large = False
        if whole.count(b"\n") > FIELDS:
            self.unfold()

    def unfold(self) -> None:
        """Takes field by field what was taken at once."""
        if self.whole:
            text, self.whole = self.whole, b""
            self.read(buffered(text))

    def read(self, source: BufferedReader) -> bool:
        """Reads it field by field; whether there is one."""
        while line := source.readline(BLOCK):
            if line != b"\n":
                for name, text, value in parts(source, line):
                    self.add(name, text, value)
            elif self.held:
                return True
        if self.held:
            raise CutOff(self.known)
        return False

    def add(self, name: bytes, text: bytes, value: bytes) -> None:
        """One more field, or some more of the last one."""
        if name:
            self.value = 0
            if len(self.held) < 2 * FIELDS:
                self.held.append(Field(name, bytearray()))      # the last of so many stands for those behind it
        field = self.held[-1]
        # metadata aren't counted, but they take memory as all else does
        self.value += len(value)
        self.bytes += len(name) + len(value)
        if not field.name.startswith(b"__"):
            self.fields += bool(name)
            self.counted += len(name) + len(value)
        elif text.endswith(b"\n"):
            self.known[field.name] = value
        field.text += text
        field.length += len(text)
        if self.is_large:
            if self.overflow:
                self.overflow(text)
            del field.text[SHORT:]
        elif (len(name) > NAME or self.value > VALUE or self.fields > FIELDS or self.counted > ENTRY
              or self.bytes > ENTRY + VALUE):
            self.shorten()

    def shorten(self) -> None:
        self.unfold()
        self.is_large = True
        for field in self.held:
            if self.overflow:
                self.overflow(field.text)
            del field.text[SHORT:]

    def key(self) -> tuple[str, int]:
        """The sequence id and the sequence number."""
        try:
            if b"__SEQNUM" in self.known and b"__SEQNUM_ID" in self.known:
                return self.known[b"__SEQNUM_ID"].decode("ascii"), int(self.known[b"__SEQNUM"])
            parts = dict(part.partition(b"=")[::2] for part in self.known.get(b"__CURSOR", b"").split(b";"))
            return parts[b"s"].decode("ascii"), int(parts[b"i"], 16)
        except (KeyError, ValueError):
            raise Unfit("an entry has neither a sequence number nor a cursor that has it") from None

    @property
    def realtime(self) -> int:
        """When it was logged, by the clock that it had, in microseconds."""
        text = self.known.get(b"__REALTIME_TIMESTAMP", b"")
        return int(text) if text.isdigit() and len(text) <= 20 else 0

    def missing(self, sequence: str = "") -> bytes:
        """The lines of its key that its text lacks, perhaps under another sequence id, and its end."""
        text = ""
        if sequence or b"__SEQNUM_ID" not in self.known:
            text = f"__SEQNUM_ID={sequence or self.key()[0]}\n"
        if b"__SEQNUM" not in self.known:
            text += f"__SEQNUM={self.key()[1]}\n"
        return text.encode() + b"\n"

    def text(self, sequence: str = "") -> bytes:
        """Its text with its key, perhaps under another sequence id; of a large one what is left of it."""
        if self.whole and not sequence:
            return self.whole[:-1] + self.missing()
        self.unfold()
        held = [field for field in self.held if not (sequence and field.name == b"__SEQNUM_ID")]
        kept = rest(held) if self.is_large else [field.text for field in held]
        return b"".join([*kept, self.missing(sequence)])

    @property
    def was_shortened(self) -> bool:
        self.unfold()
        return any(field.name == LEFT_OUT for field in self.held)


def rest(fields: list[Field]) -> list[bytes]:
    """What goes out of an entry that is too large."""
    room = {"__": METADATA, "_": TRUSTED, "known": KNOWN, "": OTHERS}
    kept, names, count, length = list[bytes](), list[bytes](), 0, 0
    for field in fields:
        sort = "__" if field.name.startswith(b"__") else "_" if field.name.startswith(b"_") else \
            "known" if field.name in KNOWN_NAMES else ""
        text = bytes(field.text)
        if field.length > SHORT or not room[sort]:
            count, length = count + 1, length + field.length
            if LETTERS.issuperset(field.name) and len(field.name) <= 64 and len(names) < MOST_NAMES:
                names.append(field.name)
            if field.name != b"MESSAGE" or not room[sort]:
                continue
            text = beginning(text)
        kept.append(text)
        room[sort] -= 1
    more = b", .." * (count > len(names))
    return [*kept, b"%s=%d fields, %d bytes: %s%s\n" % (LEFT_OUT, count, length, b", ".join(names), more)]


def beginning(text: bytes) -> bytes:
    """A message of which so much is there, cut where a character ends."""
    is_binary = text.startswith(b"MESSAGE\n")
    value = text[len(b"MESSAGE\n") + 8 * is_binary:][:BEGINNING]
    with suppress(UnicodeDecodeError):
        value = value[:codecs.utf_8_decode(value)[1]]
    return b"MESSAGE\n%s%s\n" % (len(value).to_bytes(8, "little"), value) if is_binary else b"MESSAGE=%s\n" % value


def entries(source: BufferedReader, overflow: Callable[[bytes], object] | None = None) -> Iterator[Entry]:
    """Each entry of a stream, once it is read whole."""
    while True:
        found = PLAIN.match(source.peek())
        entry = Entry(overflow, source.read(found.end()) if found else b"")
        if not entry.whole and not entry.held and not entry.read(source):
            return
        yield entry


def main() -> None:
    parser = argparse.ArgumentParser(prog="fit-stream",
                                     description="Makes an export stream one that journal-collect takes.")
    parser.add_argument("--leave-out-large", action="store_true", help="leave out entries over the limits")
    leave_out_large = parser.parse_args().leave_out_large
    source = BufferedReader(open(0, "rb", 0), BLOCK)
    try:
        # The buffer is its own, for a write without one may be cut short and say nothing.
        with open(1, "wb", closefd=False) as out:
            for entry in entries(source, None if leave_out_large else out.write):
                if not entry.is_large:
                    out.write(entry.text())
                elif leave_out_large:
                    print("left out: __SEQNUM={1} __SEQNUM_ID={0}".format(*entry.key()), file=sys.stderr)
                else:
                    out.write(entry.missing())
    except Unfit as fault:
        sys.exit(str(fault))
    except OSError as error:
        sys.exit(f"write failed: {error}")
