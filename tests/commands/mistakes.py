"""Scripts that are wrong fail, and their reports say at which line and how."""
from __future__ import annotations

from collections.abc import Iterator

from script import reports

# Each block has the front of a report, and then the script that it is of. One that begins with an empty line is right.
BLOCKS = r"""2: standard output is b'journal-collect 0.1.0\n' and not b'journal-collect 9\n'
run --version
> journal-collect 9
====
3: standard output is b'journal-collect 0.1.0\n' and not b'journal-collect 0.1.0\nmore\n'
run --version
> journal-collect 0.1.0
> more
====
2: standard output is b'journal-collect 0.1.0\n' and not b'journal'
run --version
prints "journal"
====
1: standard output is b'journal-collect 0.1.0\n' and not b''
run --version
====
2: standard output is b'journal-collect 0.1.0\n' and not one with b'collector'
run --version
has "collector"
====
1: standard output is
run --version
# it is compared before this line
> journal-collect 0.1.0
====
4: no run comes right before '>'
run --version
> journal-collect 0.1.0
file @in
> more
====
2: standard error is 'cannot open /
run verify export @none
fails 3 cannot open it
====
2: the status is 3 and not 1
run verify export @none
fails 1 cannot open @none
====
2: standard output is b'' and not b'ok\n', standard error is 'bad id\n' and not '', the status is 2 and not 0
run show @db --id 0
> ok
====
2: standard error is "error: unexpected argument
run --verbose
misused warning
====
3: the status is 0 and not 1
run --version
> journal-collect 0.1.0
status 1
====
2: the file is b'ab' and not b'ac'
file @in "ab"
holds @in "ac"
====
2: the file is there
file @in
missing @in
====
2: [Errno 2] No such file or directory: '/
file @in
input @none
====
1: 'CREATE' is refused
statement @db CREATE
====
1: no line begins with 'runs'
runs --version
====
2: '256' is no number up to 255
run --version
status 256
====
3: standard error is 'write failed\n' and not '', the status is 3 and not 0
room 7
run --version
prints "journal"
====
4: standard output is b'journal' and not b'journal-collect 0.1.0\n'
room 7
run --version
> journal-collect 0.1.0
fails 3 write failed
====
3: no run comes behind this
run --version
> journal-collect 0.1.0
room 1
====
2: standard output is b'ack a0a1a2a3a4a5a6a7a8a9aaabacadaeaf 0 1 1 0\n' and not
collects @db 1 ENTRY
collects @other 2 ENTRY
====
2: standard output is b'bad 10 0\n' and not b'bad 10 1\n'
file @in "=x"
run verify export @in => reports 1 bad 10 1
====
2: standard output is b'journal-collect 0.1.0\n' and not b'journal-collect 9\n'
run --version => journal-collect 0.1.0
run --version => journal-collect 9
====
3: in.new is left
file @in.new
run --version
> journal-collect 0.1.0
====
1: 'in' is no path in the folder
missing in
====
1: no piece is ENTRIES
file @in ENTRIES
====
1: byte:256: bytes must be in range(0, 256)
file @in byte:256
====
1: cut:2: there are fewer bytes
file @in "a" cut:2
====
1: put:1:0: nothing is at this place
file @in "12345678" put:1:0
====
1: a quotation mark has no other one
file @in "open
====
2: no run comes behind this
# a script without a run
file @in ENTRY
====
6: [Errno 2] No such file or directory: '/
case a file
file @in
run verify export @in
> ok 0 0
case another folder
holds @in
====

case words for bytes, each by another way to the same ones
file @in fill:65:2 byte:66 again:2:2 cut:6 set:0:67
holds @in "CABABA"
file @in number:16961 number:0 put:8:17219 cut:10
holds @in "AB" byte:0 byte:0 byte:0 byte:0 byte:0 byte:0 "CC"
file @in entries:1:3
holds @in ENTRY ENTRY_2 ENTRY_3
run --version
> journal-collect 0.1.0
"""


def unlike(library: str, skipped: list[str]) -> Iterator[str]:
    """How the first report of each script isn't the one that it has to be; empty if it is."""
    for block in BLOCKS.split("====\n"):
        front, _, script = block.partition("\n")
        if told := list(reports(script, library, skipped)):
            report = next(filter(None, told), "")
            is_right = report.startswith(front) if front else not report
            yield "" if is_right else f"mistakes.py: {report!r} and not {front!r}:\n{script}"
