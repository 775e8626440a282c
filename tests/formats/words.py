"""What is said of bytes, each under a word, by what the words of crates/jc_test_calls print, a program for tests:

| Word | |
|---|---|
| `cut` | an export stream, in pieces of each length: the entries' canonical texts, and then `ok LEFT` or |
| | `bad CODE PLACE` |
| `fails MOST,READS` | the same from a device that gives so many bytes at most and fails after so many reads: `stop` |
| `fed` | pieces: how many bytes a scanner takes of each, how many it has then, its first fields; where one is empty, |
| | whether it gives an `entry`, a `fault` or `none` |
| `payload OFFSET` | the payload of a journal file's object at the offset, or `none` |
| `ends LENGTH` | a journal file in a space of this length: `ok ENTRIES`, or `bad ENTRIES CODE PLACE`; the number of |
| | its arrays, and where the last range ended that was asked for |
| `asked LENGTH,PLACE` | the same end, and then how many bytes were asked for from the place on |
| `parts LENGTH,PLACE..` | by pages of such a space: after each place how often it was read by now, and eight bytes |
| `fields` | a text of fields: `some NUMBER`, or `none` |
| `text` | a value: whether it is a text, `yes` or `no` |
| `value` | a value: the text of the field `MESSAGE` with it |
| `writes` | a value: the canonical text of an entry with it, by a writer; by sinks that fail, as much as they took |
| `head` | an upload's header: `first KIND START`, `second KIND START WHOLE ENTRIES`, or `bad CODE PLACE` |
| `answer` | an answer's line: the line that is written for it, or `none` |
| `resume` | a resume point's text: the text that is written for it, or `none` |
| `agrees` | a stream and a resume point: whether its entries are those that are acknowledged, `yes` or `no` |
| `next LIMIT` | a stream and a resume point: the next upload and its length, or `changed` |
| `whole LIMIT` | the same of an upload that is to be whole |
| `sends` | a journal file: its upload and that one's length |
| `acks` | a stream, a resume point and answers: after each whether the point `moves` or `stays`, and its text |
"""
from __future__ import annotations

from collections.abc import Callable, Sequence
from typing import Any, NamedTuple

from samples import HEAD, SOURCE
from told import Told

MOST = 2**64 - 1
# More bytes than the texts have that are written in part.
LONGEST = 200


class Word(NamedTuple):
    """What the program is called with for a row, by the paths of files with its bytes and by its numbers; and what it
    said then, by those bytes."""
    calls: Callable[[Sequence[str], str], list[str]]
    said: Callable[[Told, Sequence[bytes]], bytes]
    has_numbers: bool = False
    # how many things a row has at least
    things: int = 1


def numbered(numbers: str) -> list[str]:
    """The words that give the next ones these numbers."""
    return ["numbers", numbers] if numbers else []


def each(*names: str) -> Callable[[Sequence[str], str], list[str]]:
    """Words of the program, each with the one file."""
    return lambda paths, numbers: [*numbered(numbers), *(it for name in names for it in (name, *paths))]


def together(name: str) -> Callable[[Sequence[str], str], list[str]]:
    """A word of the program with all files. It has a number, if not by the row."""
    return lambda paths, numbers: [*numbered(numbers or "0"), name, ",".join(paths)]


def one(ways: Sequence[Any]) -> Any:
    """What is told in several ways, which has to be the same."""
    if any(way != ways[0] for way in ways):
        raise ValueError("another way it is something else")
    return ways[0]


# Export streams.

def heard(told: Told) -> tuple[list[bytes], str]:
    """The texts of a source's entries, and how it ended: `ok LEFT`, `bad CODE PLACE` or `stop`. Where it ends otherwise
    if it is asked once more, another line comes before that."""
    texts = []
    while told.begins("entry"):
        texts.append(told.text("entry"))
    line = told.line()
    if line.startswith(f"ok {len(texts)} "):
        return texts, "ok " + line.split(" ")[2]
    return texts, "stop" if line == "failed" else line


def heard_text(told: Told) -> bytes:
    texts, end = heard(told)
    return b"".join(texts) + end.encode()


def cut_calls(paths: Sequence[str], _: str) -> list[str]:
    devices = [word for most in (1, 7, 65_536) for word in (*numbered(f"{most},{MOST}"), "entries", *paths)]
    return ["reader", *paths, *devices]


def fed(told: Told, _: Sequence[bytes]) -> bytes:
    said = []
    while told.rest:
        if told.begins("field"):
            said.append(b"=".join(map(told.take, told.numbers("field"))))
        else:
            said.append(told.line().strip().encode())
    return b", ".join(said)


# Journal files.

def file_end(count: int, end: str) -> bytes:
    """How a file ended after so many entries."""
    if end.startswith("bad "):
        return end.replace("bad", f"bad {count}").encode()
    return b"ok %d" % count if end == "ok 0" else b"stopped"


def long_file(told: Told) -> tuple[bytes, int, int, int]:
    """How a file ends in a longer space, the number of its arrays, and what was asked of the space."""
    line = told.line()
    count = line.split(" ")[1] if line.startswith("ok ") else "0"
    arrays, = told.numbers("steps")
    return file_end(int(count), line.replace(f"ok {count}", "ok")), arrays, *told.numbers("asked")


def parts(told: Told, _: Sequence[bytes]) -> bytes:
    said = []
    while told.rest:
        said.append(b"%d %s" % (*told.numbers("reads"), told.take(8)))
    return b", ".join(said)


# Values and texts.

def value_calls(paths: Sequence[str], _: str) -> list[str]:
    return [*numbered(str(MOST)), "value", *paths]


def spelled(told: Told) -> tuple[bytes, bytes, bytes, bytes]:
    """Whether a value is a text, its field's, that of an entry with it, and what a sink took: less if it failed."""
    is_text, field, whole = told.line().encode(), told.text("fields"), told.text("put")
    has_failed = told.begins("front")
    front = told.take(*told.numbers("front" if has_failed else "whole"))
    if has_failed == (front == whole):
        raise ValueError("a sink didn't fail as it said")
    return is_text, field, whole, front


def writes(told: Told, _: Sequence[bytes]) -> bytes:
    """What a writer has, if each sink has as much of it as it was called."""
    wholes = []
    for calls in range(LONGEST):
        _, _, whole, front = spelled(told)
        wholes += [whole, front + whole[calls:]]
        if len(front) != min(calls, len(whole)):
            raise ValueError(f"after {calls} calls a sink has {len(front)} bytes")
    return one(wholes)


def head(told: Told, things: Sequence[bytes]) -> bytes:
    """A header that is another one once it is written is no header here, nor is one of another source."""
    if not told.begins("bad"):
        one([told.take(len(SOURCE)), SOURCE])
        one([told.take(HEAD), things[0]])
    return told.line().encode()


def answer(told: Told, _: Sequence[bytes]) -> bytes:
    said = told.all()
    return b"none" if said == b"none\n" else said


# Uploads.

def upload(told: Told) -> bytes:
    """An upload and its length, or that there is none."""
    if not told.begins("upload"):
        return told.line().removeprefix("upload ").encode()
    made = told.text("upload")
    return made + b" %d" % len(made)


def uploader(told: Told) -> tuple[bytes, bytes, bytes]:
    """Whether a stream's entries are an uploader's, and its next upload of either version."""
    return told.line().encode(), upload(told), upload(told)


def acks(told: Told, _: Sequence[bytes]) -> bytes:
    uploader(told)
    said = b""
    while told.rest:
        name = told.rest.partition(b" ")[0]
        said += name + b" " + told.text("moves", "stays")
    return said


WORDS = {
    "cut": Word(cut_calls, lambda told, _: one([heard_text(told) for _ in range(4)])),
    "fails": Word(each("entries"), lambda told, _: heard_text(told), has_numbers=True),
    "fed": Word(together("scanner"), fed),
    "payload": Word(each("payload"), lambda told, _: told.text("payload"), has_numbers=True),
    "ends": Word(lambda paths, length: [*numbered(f"{length},0"), "long", *paths],
                 lambda told, _: b"%s %d %d" % long_file(told)[:3], has_numbers=True),
    "asked": Word(each("long"), lambda told, _: b"%s %d" % long_file(told)[::3], has_numbers=True),
    "parts": Word(each("parts"), parts, has_numbers=True),
    "fields": Word(each("fields"), lambda told, _: told.line().encode()),
    "text": Word(value_calls, lambda told, _: spelled(told)[0]),
    "value": Word(value_calls, lambda told, _: spelled(told)[1]),
    "writes": Word(lambda paths, _: [
        word for calls in range(LONGEST) for word in (*numbered(str(calls)), "value", *paths)], writes),
    "head": Word(each("head"), head),
    "answer": Word(each("answer"), answer),
    "resume": Word(each("resume"), lambda told, _: told.text("resume")),
    "agrees": Word(together("uploader"), lambda told, _: uploader(told)[0], things=2),
    "next": Word(together("uploader"), lambda told, _: uploader(told)[1], has_numbers=True, things=2),
    "whole": Word(together("uploader"), lambda told, _: uploader(told)[2], has_numbers=True, things=2),
    "sends": Word(each("send"), lambda told, _: upload(told)),
    "acks": Word(together("uploader"), acks, things=3),
}
