"""The program's runs over uploads that come in pieces, or from a device that fails."""
from __future__ import annotations

import fcntl
import os
import socket
import struct
import subprocess
import termios
import threading
import time
from collections.abc import Sequence
from contextlib import suppress
from typing import Any

from samples import HEAD
from trial import PROGRAM

Told = tuple[bytes, str, int]


def run(*words: str, **options: Any) -> Told:
    """What the program prints, and its status."""
    told = subprocess.run([PROGRAM, *words], capture_output=True, check=False, timeout=600, **options)
    return told.stdout, told.stderr.decode(), told.returncode


def in_pieces(upload: bytes, most: int) -> list[bytes]:
    """An upload in pieces of at most so many bytes. None has bytes of the header and of what is behind it: of a packet
    what a read doesn't ask for is lost, and at the header's end no more is asked for than it has left."""
    return [part[at:at + most] for part in (upload[:HEAD], upload[HEAD:]) for at in range(0, len(part), most)]


def by_pipes(words: Sequence[str], uploads: Sequence[bytes], most: int) -> Told:
    """A run over uploads that come by pipes, in packets of at most so many bytes, and each read gives one."""
    ends = [os.pipe2(os.O_CLOEXEC | os.O_DIRECT) for _ in uploads]
    readings = [reading for reading, _ in ends]
    # each by a thread of its own, since what is refused isn't read to its end, and others come behind it
    writers = [threading.Thread(target=write, args=(writing, upload, most))
               for (_, writing), upload in zip(ends, uploads)]
    for writer in writers:
        writer.start()
    try:
        return run(*words, *(f"/dev/fd/{reading}" for reading in readings), pass_fds=readings)
    finally:
        # a writer waits for what nobody reads while anybody might
        for reading in readings:
            os.close(reading)
        for writer in writers:
            writer.join()


def write(end: int, upload: bytes, most: int) -> None:
    """Writes an upload in packets. A run that has ended reads no more."""
    with suppress(BrokenPipeError):
        for piece in in_pieces(upload, most):
            os.write(end, piece)
    os.close(end)


def by_failing_input(words: Sequence[str], packets: Sequence[bytes]) -> Told:
    """A run over an upload on standard input, whose reads give these packets, one each, and then fail once."""
    ours, theirs = socket.socketpair(socket.AF_UNIX, socket.SOCK_SEQPACKET)
    with theirs:
        # what its peer never read is why a socket fails once that is closed
        theirs.send(b"unread")
        sender = threading.Thread(target=send_and_fail, args=(ours, packets))
        sender.start()
        told = run(*words, stdin=theirs)
    sender.join()
    return told


def send_and_fail(ours: socket.socket, packets: Sequence[bytes]) -> None:
    """The failure comes when all packets are read: it would go before them."""
    with ours, suppress(ConnectionError):
        for packet in packets:
            ours.send(packet)
        while unread(ours):
            time.sleep(0.0005)


def unread(ours: socket.socket) -> int:
    """How many bytes the peer hasn't read, with what is around them."""
    return struct.unpack("i", fcntl.ioctl(ours, termios.TIOCOUTQ, bytes(4)))[0]
