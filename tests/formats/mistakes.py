"""Rows that are wrong are reported, each with its line."""
from __future__ import annotations

from collections.abc import Iterator

import row_scripts
from samples import E1
from script import reports

# A script, in which the front of the report stands below each line that is wrong.
REPORTED = r"""cut METADATA "=x\n\n" => bad 10 108
    bad 10 109 and not bad 10 108
cut ENTRY => ok 0
    (the entry)ok 0 and not ok 0
fields "A=1\n" => some 2
    some 1 and not some 2
text byte:255 => yes
    no and not yes
value "a" == "MESSAGE=b\n"
    MESSAGE=a\n and not MESSAGE=b\n
answer "no - - 1 47\n" => none
    no - - 1 47\n and not none
resume "resume 1 - -\n" == "resume 1 - -\n"
    none and not resume 1 - -\n
read ENTRY => ok 0
    no such word and not read
cut ENTRIES => ok 0
    no row (no piece is ENTRIES) and not ENTRIES => ok 0
cut "ENTRY => ok 0
    no row (a quotation mark has no other one) and not "ENTRY => ok 0
cut ENTRY
    no row (nothing is wanted) and not ENTRY
limits 1 2 3
    no limits and not 1 2 3
fails 1,1 "" => stop
    ok 0 and not stop
fed "a" , "" => takes 1 1, entry
    takes 1 1, none and not takes 1 1, entry
payload 320 JOURNAL_FILE => none
    MESSAGE=hi and not none
ends 400 JOURNAL_FILE => ok 1 1 400
    ok 1 1 394 and not ok 1 1 400
ends 400 JOURNAL_FILE put:88:200 => ok 1 0 0
    bad 0 32 88 0 208 and not ok 1 0 0
asked 400,320 JOURNAL_FILE => ok 1 25
    ok 1 26 and not ok 1 25
parts 400,0 JOURNAL_FILE => 2 LPKSHHRH
    1 LPKSHHRH and not 2 LPKSHHRH
parts 400,393 JOURNAL_FILE => 1 LPKSHHRH
    0 no bytes and not 1 LPKSHHRH
writes "hi" => hi
    (the entry) and not hi
head head:1:0 set:7:51 => bad 3 8
    bad 2 0 and not bad 3 8
agrees ENTRY , "resume 2 000102030405060708090a0b0c0d0e0f 2\n" => yes
    no and not yes
next 1 "" , "resume 2 000102030405060708090a0b0c0d0e0f 2\n" => unchanged
    changed and not unchanged
payload JOURNAL_FILE => none
    no row (no numbers) and not JOURNAL_FILE => none
fails 1,,2 ENTRY => ok 0
    no row (no numbers) and not 1,,2 ENTRY => ok 0
agrees ENTRY => yes
    too few things and not ENTRY => yes
payload 1,2 JOURNAL_FILE => none
    status 1, Error: Kind(InvalidInput)\n and not none
agrees ENTRY , "resume 2 - -\n" => yes
    status 1, Error: Kind(InvalidInput)\n and not yes
head head:1:0 set:16:0 => first 1 0
    what means nothing
"""


def unlike() -> Iterator[str]:
    """How the reports of wrong scripts aren't those that they have to be, one by one; empty if they are."""
    script, fronts = row_scripts.parted(REPORTED.replace("(the entry)", repr(E1)[2:-1]))
    for text, wanted in ((script, fronts), ("# no rows", ["no rows"])):
        yield from row_scripts.unlike(filter(None, reports(text)), wanted)
