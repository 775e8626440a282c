"""Entries of export streams, whatever a message has in it."""
import struct

import pytest
from collecting import digits, plain

from journalcollect.common import entries
from journalcollect.common.entries import Unfit, Untaken

BOOT = digits("boot", "web")


def of(data: bytes) -> list[entries.Entry]:
    return [entries.entry(data, span) for span in entries.spans(data)]


@pytest.mark.parametrize("message", ["one line", "", "=", "a\n\nb", "a\n\n__SEQNUM=7\n", "x\n_BOOT_ID=" + BOOT + "\n",
                                     "\n", "tab\tand ünïcode", b"\x00\xff\n\n\n"])
def test_a_message_is_never_taken_for_fields(message: str | bytes) -> None:
    found = of(plain("web", 3, message).text() + plain("web", 4, "next").text())
    assert [each.number for each in found] == [3, 4]
    assert found[0].boot == found[1].boot == BOOT
    data = message if isinstance(message, bytes) else message.encode()
    assert data in found[0].fields and b"__SEQNUM" not in found[0].fields.replace(data, b"")


def test_a_name_of_one_letter_is_no_part_of_the_line_before() -> None:
    field = b"A\n" + struct.pack("<Q", 3) + b"\n" * 4
    found = of(plain("web", 3, "m").text()[:-1] + field + b"\n" + plain("web", 4, "next").text())
    assert [each.number for each in found] == [3, 4] and found[0].fields.endswith(field)


def test_the_text_has_the_machine_and_not_what_a_machine_says_of_it() -> None:
    entry = of(plain("web", 1, "m", _COLLECTED_FROM="db", _COLLECTED_SEQNUM="9").text())[0]
    assert entry.text("web", False).count(b"_COLLECTED_") == 1
    assert b"\n_COLLECTED_FROM=web\n" in entry.text("web", False)
    assert b"_COLLECTED_SEQNUM=1\n_COLLECTED_SEQNUM_ID=" + digits("sequence", "web").encode() in entry.text("web", True)


def test_empty_lines_between_entries_are_nothing() -> None:
    assert len(of(b"\n\n" + plain("web", 1, "a").text() + b"\n\n\n" + plain("web", 2, "b").text() + b"\n")) == 2


def test_what_a_journal_file_cant_have_is_told() -> None:
    text = plain("web", 1, "m").text()
    for bad in (text.replace(b"_BOOT_ID=" + BOOT.encode() + b"\n", b""),
                text.replace(BOOT.encode(), b"0" * 32),
                text.replace(b"PRIORITY=6\n", b"_BOOT_ID=" + b"a" * 32 + b"\n"),
                text.replace(b"__REALTIME_TIMESTAMP=", b"__REALTIME_TIMESTAMP=9"),
                plain("web", 1, "m", realtime=0).text(),
                text.replace(b"PRIORITY=6", b"priority=6"),
                text.replace(b"PRIORITY=6\n", b"".join(b"A=%d\n" % each for each in range(1001)))):
        with pytest.raises(Untaken):
            of(bad)


@pytest.mark.parametrize("cut", [5, 60, 200])
def test_a_stream_that_is_cut_is_none(cut: int) -> None:
    text = plain("web", 1, "m" * 100 + "\n").text()
    with pytest.raises(Unfit):
        of(text + text[:cut])


def test_a_length_that_goes_too_far_is_found() -> None:
    with pytest.raises(Unfit):
        list(entries.spans(b"MESSAGE\n" + struct.pack("<Q", 1 << 40) + b"abc\n\n"))


@pytest.mark.parametrize("name", ["__SEQNUM", "__SEQNUM_ID", "__REALTIME_TIMESTAMP", "__MONOTONIC_TIMESTAMP"])
def test_an_entry_without_its_key_or_its_times_is_none(name: str) -> None:
    lines = plain("web", 1, "m").text().splitlines(keepends=True)
    with pytest.raises(Unfit):
        of(b"".join(line for line in lines if not line.startswith(f"{name}=".encode())))
