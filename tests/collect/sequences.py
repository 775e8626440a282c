"""The files of `collect --sequences`: which there are, what stands in them, and what isn't read of them.

What is answered and stored over many databases is held against a model in turns.py, and worked in tests/journals. Here
the files are read and written as docs/FORMATS.md has them.
"""
from __future__ import annotations

import os
import resource
import shutil
import stat
import subprocess
from collections.abc import Sequence
from pathlib import Path
from typing import Any

import samples
from brought import Brought, as_lines
from listed import next_line
from make import Machine
from model import Entry, Journal
from note_files import CLOSED, NOTE, OPEN, OWNER, WINDOW, file_of, note, noted, notes_in, notes_of
from trial import Trial, as_output, run, start, status_of

WEB, MAIL = "web", "mail"
# So many windows are used where so many files may be open, some more than are kept open.
WINDOWS, FILES = 100, 84
# So much memory a run may take; all uploads that wait have twice as much.
MEMORY = 100 << 20


class Union:
    """Databases over one folder, and the journal that they have together."""

    def __init__(self, trial: Trial) -> None:
        self.trial = trial
        self.folder = os.path.join(trial.folder(), "sequences")
        self.journal = Journal()

    def words(self, database: str) -> list[str]:
        return ["collect", "--sequences", self.folder, "--files-from", "-", database]

    def run(self, *uploads: Brought, **options: Any) -> tuple[bytes, str, int]:
        """A run over a database that isn't there yet."""
        names = self.trial.put([brought.upload for brought in uploads])
        return run(*self.words(self.trial.database()), stdin=as_lines(names, uploads), **options)

    def take(self, what: str, *uploads: bytes, machine: str | None = None, **options: Any) -> None:
        """Such a run answers as the model does, and all is noted then."""
        lines = [self.journal.take(upload, machine) for upload in uploads]
        told = self.run(*(Brought(machine, upload) for upload in uploads), **options)
        self.trial.expect(what, told, (as_output(lines), "", status_of(lines)))
        self.trial.expect(f"{what}: notes", notes_of(self.folder), noted(self.journal))

    def path(self, entry: Entry) -> Path:
        """The file that has the note of an entry."""
        return Path(file_of(self.folder, *entry.key))


def note_of(entry: Entry) -> bytes:
    return note(entry.text(), entry.seqnum)


def at_numbers(machine: Machine, numbers: Sequence[int]) -> list[Entry]:
    """A machine's entries with other numbers."""
    return [entry._replace(seqnum=number) for entry, number in zip(machine.entries, numbers)]


def folder_is_made(trial: Trial) -> None:
    """The folder is made for its user alone, with a file for each window of numbers that has notes, and one that says
    whose the sequence is."""
    union = Union(trial)
    machine = Machine(trial.dice, 4)
    machine.entries = at_numbers(machine, (WINDOW - 1, WINDOW, 2**63 - 1, 5))
    far, near = machine.entries[:3], machine.entries[3]
    union.take("far apart", machine.stream(0, 3), machine=WEB)
    trial.expect("the folder's mode", stat.S_IMODE(os.stat(union.folder).st_mode), 0o700)
    trial.expect("sequences", os.listdir(union.folder), [machine.seqnum_id.hex()])
    below = os.path.join(union.folder, machine.seqnum_id.hex())
    trial.expect("its folder's mode", stat.S_IMODE(os.stat(below).st_mode), 0o700)
    trial.expect("windows", set(os.listdir(below)), {"0", "1", str(2**51 - 1), str(2**51)})
    read = [union.path(entry).read_bytes() for entry in far]
    trial.expect("their files", read, [note_of(entry) + CLOSED for entry in far])
    owner = file_of(union.folder, machine.seqnum_id)
    trial.expect("whose it is", Path(owner).read_bytes(), note(WEB.encode()) + CLOSED)
    union.take("again, and one more", machine.stream(0, 4), machine=WEB)
    trial.expect("the longer file", union.path(near).read_bytes(), note_of(far[0]) + note_of(near) + CLOSED)


def many_windows(trial: Trial) -> None:
    """More windows than have their notes in memory, one after the other, and then twice in each of two runs."""
    union = Union(trial)
    machine = Machine(trial.dice, 6)
    machine.entries = at_numbers(machine, range(7, 6 * WINDOW, WINDOW))
    for number in range(6):
        union.take(f"window {number}", machine.stream(number, number + 1))
    for time in range(2):
        union.take(f"all windows, {time}", machine.stream(0, 6), machine.stream(0, 6))


def few_files() -> None:
    resource.setrlimit(resource.RLIMIT_NOFILE, (FILES, FILES))


def more_than_are_open(trial: Trial) -> None:
    """More windows than files may be open, twice in one run: what wasn't used for long is closed, and opened again."""
    union = Union(trial)
    machine = Machine(trial.dice, WINDOWS)
    machine.entries = at_numbers(machine, range(7, WINDOWS * WINDOW, WINDOW))
    uploads = [machine.stream(number, number + 1) for number in range(WINDOWS)]
    union.take("more than are open", *uploads, *uploads, preexec_fn=few_files)


def little_memory() -> None:
    resource.setrlimit(resource.RLIMIT_AS, (MEMORY, MEMORY))


def large(trial: Trial) -> None:
    """Large uploads that wait are stored in less memory than they have bytes."""
    text = b"MESSAGE=" + bytes(MEMORY // 32) + b"\n\n"
    uploads = [samples.stream(samples.entry_text(number)[:-1] + text) for number in range(1, 65)]
    Union(trial).take("large", *uploads, preexec_fn=little_memory)


def behind_notes(trial: Trial) -> None:
    """Whatever stands behind the last whole note whose gate is open, the next note comes behind that one."""
    for place in range(5):
        union = Union(trial)
        machine = Machine(trial.dice, 3)
        first, _, last = machine.entries
        union.take("the first", machine.stream(0, 1))
        tail = (b"", CLOSED, note_of(last)[:-1], CLOSED + 3 * OPEN, b"\xff")[place]
        union.path(first).write_bytes(note_of(first) + tail)
        union.take(f"behind {tail!r}", machine.stream(2, 3))
        made = union.path(last).read_bytes()
        trial.expect(f"the file behind {tail!r}", made[:2 * NOTE.size + 1], note_of(first) + note_of(last) + CLOSED)
        union.take(f"all behind {tail!r}", machine.stream(0, 3))


def owned_by(trial: Trial, text: bytes) -> tuple[Union, Machine]:
    """A file of these bytes says whose a machine's sequence is."""
    union, machine = Union(trial), Machine(trial.dice, 4)
    path = file_of(union.folder, machine.seqnum_id)
    os.makedirs(os.path.dirname(path))
    Path(path).write_bytes(text)
    return union, machine


def refused(union: Union, what: str, machine: Machine) -> None:
    """An upload of another machine is refused."""
    told = union.run(Brought(MAIL, machine.stream(1, 4)))
    union.trial.expect(f"{what}: another one", told, (b"no %s 1 71 0\n" % machine.source.hex().encode(), "", 1))


def owners_that_are_none(trial: Trial) -> None:
    """Without a whole note of the number 2^63 before the first gate that is closed the sequence is nobody's, and a
    claim is written behind what there is."""
    zero, other = note(b"zero"), note(b"zero", OWNER + 1)
    low = note(b"zero", 3)
    for text, left in ((b"", b""), (zero[:-1], b""), (zero[:1], b""), (CLOSED + zero[1:], b""), (b"\2" + zero[1:], b""),
                       (CLOSED + zero[1:] + zero, b""), (other, other), (low, low), (b"zero\n", b"")):
        union, machine = owned_by(trial, text)
        what = f"{text[:9]!r}, {len(text)} bytes"
        told = union.run(Brought(WEB, machine.stream(0, 2)))
        trial.expect(what, told, (b"ack %s 0 2 2 0\n" % machine.source.hex().encode(), "", 0))
        read = list(notes_in(file_of(union.folder, machine.seqnum_id)))
        wanted = [NOTE.unpack(part)[1:] for part in (left, note(WEB.encode())) if part]
        trial.expect(f"{what}: its notes", read, wanted)
        refused(union, what, machine)


def owners_that_hold(trial: Trial) -> None:
    """The last whole note of the number 2^63 before the first gate that is closed holds."""
    web, mail = note(WEB.encode()), note(MAIL.encode())
    for text in (web, web + CLOSED, mail + web, web + mail[:-1], web + CLOSED + mail[1:] + mail,
                 note(b"mail", OWNER + 1) + web, web + note(b"mail", OWNER - 1)):
        union, machine = owned_by(trial, text)
        told = union.run(Brought(WEB, machine.stream(0, 2)))
        trial.expect("the owner", told, (b"ack %s 0 2 2 0\n" % machine.source.hex().encode(), "", 0))
        refused(union, f"{text[:9]!r}, {len(text)} bytes", machine)


def no_file(trial: Trial) -> None:
    """What can't be opened says nobody's name: the upload is answered 62, and taken later."""
    union = Union(trial)
    machine = Machine(trial.dice, 4)
    union.take("the owner", machine.stream(0, 2), machine=WEB)
    path, aside = file_of(union.folder, machine.seqnum_id), os.path.join(trial.folder(), "aside")
    os.rename(path, aside)
    os.mkdir(path)
    for name in (WEB, MAIL):
        output, _, status = union.run(Brought(name, machine.stream(2, 4)))
        wanted = b"no %s 2 62 0\n" % machine.source.hex().encode()
        trial.expect(f"a folder, {name}", (output, status), (wanted, 3))
    os.rmdir(path)
    os.rename(aside, path)
    union.take("later", machine.stream(2, 4), machine=WEB)


def at_once(trial: Trial) -> None:
    """A second run ends before it answers anything, as long as the first one has the folder."""
    union = Union(trial)
    machine = Machine(trial.dice, 4)
    process = start(*union.words(trial.database()), stdin=subprocess.PIPE)
    first = Brought(WEB, machine.stream(0, 2))
    process.stdin.write(as_lines(trial.put([first.upload]), [first]))
    trial.expect("the first", next_line(process), as_output([union.journal.take(first.upload, WEB)]))
    closed = (b"", f"cannot open {union.folder}\n", 3)
    trial.expect("meanwhile", union.run(Brought(MAIL, machine.stream(1, 4))), closed)
    output, errors = process.communicate()
    trial.expect("its end", (output, errors, process.returncode), (b"", b"", 0))
    union.take("later", machine.stream(1, 4), machine=WEB)
    refused(union, "later", machine)


def looking_makes_none(trial: Trial) -> None:
    """A window that was only looked into has no file, nor has one whose notes wait. If somebody makes one then, the run
    doesn't add to it, and fails as it ends. A next run over its database notes what waited."""
    union = Union(trial)
    machine = Machine(trial.dice, 4)
    machine.entries = at_numbers(machine, (7, WINDOW + 7, WINDOW + 8, WINDOW + 9))
    database = trial.database()
    process = start(*union.words(database), stdin=subprocess.PIPE)

    def told(upload: bytes) -> bytes:
        process.stdin.write(as_lines(trial.put([upload]), [Brought(None, upload)]))
        return next_line(process)

    stored, differs = machine.stream(0, 1), machine.stream(1, 2) + machine.other(0)[len(machine.stream(0, 0)):]
    for upload in (stored, differs):
        trial.expect("a run", told(upload), as_output([union.journal.take(upload, None)]))
    trial.expect("files of notes", list(Path(union.folder).glob("*/*")), [])
    second, third = machine.stream(1, 2), machine.stream(2, 3)
    elsewhere = Union(trial)
    taken = elsewhere.run(Brought(None, second))
    trial.expect("elsewhere", taken, (as_output([union.journal.take(second, None)]), "", 0))
    shutil.copytree(elsewhere.folder, union.folder, dirs_exist_ok=True)
    trial.expect("the run again", told(third), as_output([union.journal.take(third, None)]))
    output, errors = process.communicate()
    trial.expect("its end", (output, errors, process.returncode), (b"", b"store failed\n", 3))
    trial.expect("a next run over its database", run(*union.words(database)), (b"", "", 0))
    union.take("later", machine.stream(1, 4))


def main() -> None:
    with Trial("sequences") as trial:
        rows = (folder_is_made, many_windows, more_than_are_open, large, behind_notes, owners_that_are_none,
                owners_that_hold, no_file, at_once, looking_makes_none)
        for row in rows:
            row(trial)
        trial.finish(f"{len(rows)} kinds of rows over the files of notes")


if __name__ == "__main__":
    main()
