"""Rows that are wrong are reported, each with its line."""
from __future__ import annotations

from collections.abc import Iterator

import row_scripts
from made import reports_of
from samples import E1, SOURCE

# Scripts, in which the front of the report stands below each line that is wrong. Of a report that comes over journals
# of several kinds or in several ways only the first is here.
REPORTED = {
    "uploads": r"""upload head:1:0 ENTRY => ack S 0 1 0 0
stores ENTRY
    ack (source) 0 1 1 0\n and not ack (source) 0 1 0 0\n (map, byte by byte)
upload head:1:0 ENTRY => ack S 0 1 1 0
stores ""
    (the entry) and not  (map, byte by byte)
upload head:1:0 ENTRY
    nothing is wanted and not head:1:0 ENTRY
uploads ENTRY
    no line begins with 'uploads' and not ENTRY
begins "ENTRY
    a quotation mark has no other one and not "ENTRY
upload ENTRIES => ack S 0 1 1 0
    no piece is ENTRIES and not ENTRIES => ack S 0 1 1 0
stores "ENTRY
    a quotation mark has no other one and not "ENTRY
fronts 47 49 head:1:0 => no - - 1 47
    there are fewer bytes and not 47 49 head:1:0 => no - - 1 47
upload head:1:0 ENTRY => ack S 0 1 1 0
    nothing is run and not a run
""",
    "whole-uploads": r"""fronts 46 47 head:1:0 => no - - 1 46
stores ""
    no - - 1 46\nno - - 1 47\n and not no - - 1 46\nno - - 1 46\n (map, byte by byte)
begins head:1:0 ENTRY
stores ""
    (the entry) and not  (map, byte by byte)
""",
    "empty": r"""# no rows
    no rows and not some
""",
    "steps": r"""take 0 head:1:0 ENTRY => ack S 0 1 1 0
    no journal is there and not 0 head:1:0 ENTRY => ack S 0 1 1 0
journal map union
take 0 head:1:0 ENTRY => ack S 0 1 0 0
    ack (source) 0 1 1 0\n and not ack (source) 0 1 0 0\n (map)
journal map
take 1,49 head:1:0 ENTRY => ack S 0 1 1 0
    no (source) 0 61 0\n and not ack (source) 0 1 1 0\n (map)
journal map
add ENTRY ENTRY_2 => taken 2 1 0
    taken 2 2 0 and not taken 2 1 0 (map)
journal map
conflict 1 ENTRY CHANGED_ENTRY ENTRY == ""
    conflict 1, (the entry) and not conflict 1,  (map)
journal map
conflict 0 ENTRY CHANGED_ENTRY ENTRY == ENTRY
    conflict 1, (the entry) and not conflict 0, (the entry) (map)
journal union
take 0 head:1:0 ENTRY => ack S 0 1 1 0
turn
stores ENTRY
present ENTRY
     and not (the entry) (union)
journal union
turn
turn
turn
    status 1, Error: Kind(InvalidInput)\n and not what was asked
journal map
turn
    status 1, Error: Kind(InvalidInput)\n and not what was asked
journal union
catch ENTRY => differs 0
    done and not differs 0 (union)
journal union
present-add ENTRY => taken 1 0 0
    taken 1 1 0 and not taken 1 0 0 (union)
journal union
machine web
take 0 head:1:0 ENTRY => ack S 0 1 1 0
machine db
take 0 head:1:0 ENTRY_2 => ack S 0 1 1 0
    no (source) 0 71 0\n and not ack (source) 0 1 1 0\n (union)
journal shut
take 0 head:1:0 => ack S 0 0 0 0
    no (source) 0 62 0\n and not ack (source) 0 0 0 0\n (shut)
journal elsewhere
asked => stop 62 0, failures 0
    stop 62 0, failures 1 and not stop 62 0, failures 0 (elsewhere)
fails 1,169,48,0,2,170 head:1:0 ENTRY => ack S 0 1 0 0
    ack (source) 0 1 1 0\n and not ack (source) 0 1 0 0\n (map, behind 0 reads)
fails 1,169,48,169,171,170 head:1:0 ENTRY => ack S 0 1 1 0
    ack (source) 0 1 1 0\n and not no (source) 0 61 0\n (map, behind 170 reads)
fails 1,169,48,0,0,169 head:1:0 ENTRY => ack S 0 1 1 0
    no (source) 0 61 0\n and not ack (source) 0 1 1 0\n (map, behind all 169 reads)
fails 1,168,48,0,0,169 head:1:0 ENTRY => ack S 0 1 1 0
    169 bytes, and 3 numbers of reads and not
fails 0,48,1 head:1:0 => ack S 0 1 1 0
    it takes 1000 reads and not ack (source) 0 1 1 0\n
stops 46,1,0 ENTRY
    (the entry)(2) and not (the entry) (map, behind 46 writes)
stops 46,0,45 ENTRY
    ack (source) 0 1 1 0\nstopped 1 0 and not ack (source) 0 1 1 0\nstopped 0 45 (map, behind 46 writes)
limits 1 2 3
    no limits and not 1 2 3
""",
}
E2_SHOWN = repr(E1.replace(b"SEQNUM=1", b"SEQNUM=2"))[2:-1]


def meant(front: str) -> str:
    return (front.replace("(source)", SOURCE.hex()).replace("(the entry)(2)", repr(E1)[2:-1] + E2_SHOWN)
            .replace("(the entry)", repr(E1)[2:-1]))


def firsts(name: str, script: str) -> list[str]:
    """The reports of a script, without those that differ from one before them in the kind or the way alone."""
    found: dict[str, str] = {}
    for report in filter(None, reports_of(name, script)):
        found.setdefault(report.rpartition(" (")[0] or report, report)
    return list(found.values())


def unlike() -> Iterator[str]:
    """How the reports of wrong scripts aren't those that they have to be, one by one; empty if they are."""
    for name, text in REPORTED.items():
        script, fronts = row_scripts.parted(text)
        yield from row_scripts.unlike(firsts(name, script), map(meant, fronts))
