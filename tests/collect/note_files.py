"""The notes in a folder, as docs/FORMATS.md has them: read, and changed as people and the service change them."""
from __future__ import annotations

import contextlib
import hashlib
import os
import shutil
import struct
from collections.abc import Iterator
from pathlib import Path

from model import Journal

# How many numbers a file has the notes of, and a note: its gate, the entry's number and the digest of its text.
WINDOW = 4096
NOTE = struct.Struct("<BQ32s")
OPEN, CLOSED = b"\1", b"\0"
# The number of the note that says whose a sequence is, which no entry has, and its file.
OWNER = 2**63
OWNERS = str(OWNER // WINDOW)
# The digests of what is noted, by sequences and numbers.
Notes = dict[tuple[bytes, int], bytes]


def note(text: bytes, number: int = OWNER, gate: bytes = OPEN) -> bytes:
    """The note of an entry's text, or of a machine's name."""
    return gate + NOTE.pack(0, number, hashlib.sha256(text).digest())[1:]


def notes_in(path: str) -> Iterator[tuple[int, bytes]]:
    """The notes of a file, up to the first whose gate is closed or that is cut short."""
    with open(path, "rb") as file:
        while len(block := file.read(NOTE.size)) == NOTE.size:
            gate, number, digest = NOTE.unpack(block)
            if gate != 1:
                return
            yield number, digest


def notes_of(folder: str) -> Notes:
    """What the files of a folder note, each of its own numbers."""
    return {(bytes.fromhex(sequence), number): digest
            for sequence in (os.listdir(folder) if os.path.isdir(folder) else ())
            for window in os.listdir(os.path.join(folder, sequence)) if window.isdigit()
            for number, digest in notes_in(os.path.join(folder, sequence, window)) if number // WINDOW == int(window)}


def noted(journal: Journal) -> Notes:
    """What is noted once all of a journal is."""
    entries = {key: hashlib.sha256(entry.text()).digest() for key, entry in journal.entries.items()}
    return entries | {(sequence, OWNER): hashlib.sha256(machine.encode()).digest()
                      for sequence, machine in journal.owners.items()}


def file_of(folder: str, sequence: bytes, number: int = OWNER) -> str:
    """The file that has the note of a number; without one, that of whose a sequence is."""
    return os.path.join(folder, sequence.hex(), str(number // WINDOW))


def give(folder: str, sequence: bytes, machine: str) -> None:
    """A sequence is a machine's from now on."""
    path = file_of(folder, sequence)
    Path(f"{path}.new").write_bytes(note(machine.encode()) + CLOSED)
    os.replace(f"{path}.new", path)


def release(folder: str, sequence: bytes) -> None:
    """A sequence is nobody's from now on."""
    path = file_of(folder, sequence)
    os.remove(path)
    with contextlib.suppress(FileNotFoundError):
        os.remove(f"{path}-wal")


def lose_notes(folder: str) -> None:
    """All notes are lost, but for whose each sequence is."""
    for sequence in os.listdir(folder) if os.path.isdir(folder) else ():
        path = os.path.join(folder, sequence)
        for name in os.listdir(path):
            if name != OWNERS:
                os.remove(os.path.join(path, name))
        if not os.listdir(path):
            shutil.rmtree(path)
