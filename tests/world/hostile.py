#!/usr/bin/python3 -B
"""One hostile machine: hostile.py SOCKET SEED LEDGERS.. It has a key, so a socket, and does to it what it likes
until it is killed. LEDGERS are folders with uploads of other machines, whose sequences it names."""
from __future__ import annotations

import hashlib
import os
import random
import socket
import struct
import sys
import time
from collections.abc import Callable
from pathlib import Path

MESSAGE = b"evil"


def upload(body: bytes, count: int, kind: int = 1, start: int = 0) -> bytes:
    return b"JCUPLD02" + bytes([kind, 1]) + bytes(6) + os.urandom(16) + struct.pack("<QQ", start, count) + body


def entry(sequence: bytes, number: int, more: bytes = b"") -> bytes:
    return (b"__REALTIME_TIMESTAMP=%d\n__MONOTONIC_TIMESTAMP=1\n_BOOT_ID=%032d\n__SEQNUM=%d\n__SEQNUM_ID=%s\n"
            b"MESSAGE=%s\n%s\n" % (1_700_000_000_000_000 + number, 1, number, sequence, MESSAGE, more))


class Hostile:
    def __init__(self, path: str, seed: str, ledgers: list[str]) -> None:
        self.path, self.dice, self.ledgers = path, random.Random(seed), [Path(each) for each in ledgers]
        self.held: list[socket.socket] = []
        # Beside what has a method: no line, one without an end, an upload that is too large, has another digest, has
        # many sequences, a large entry, or many short fields, or begins late.
        self.deeds: list[Callable[[], object]] = [
            self.half, self.many_windows, self.others, self.slowly, self.hold, self.no_export, self.asks, self.plain,
            lambda: self.say(self.dice.randbytes(300) + b"\n"),
            lambda: self.say(b"upload " + b"9" * 3_000_000),
            lambda: self.say(f"upload {2**62} {'0' * 64} 1\n".encode()),
            lambda: self.send(upload(entry(self.id(), 1), 1), "0" * 64),
            lambda: self.send(upload(b"".join(entry(self.id(), 1) for _ in range(500)), 500)),
            lambda: self.send(upload(entry(self.id(), 1, b"X=" + b"x" * self.dice.choice((2_000_000, 15_000_000))
                                           + b"\n"), 1)),
            lambda: self.send(upload(entry(self.id(), 1, b"".join(b"F%d=\n" % each for each in range(60_000))), 1)),
            lambda: self.send(upload(entry(self.id(), 1), 1, start=7))]

    def id(self) -> bytes:
        return self.dice.randbytes(16).hex().encode()

    def connect(self) -> socket.socket:
        link = socket.socket(socket.AF_UNIX)
        link.settimeout(20)
        link.connect(self.path)
        link.recv(200)
        return link

    def say(self, data: bytes) -> bytes:
        with self.connect() as link:
            link.sendall(data)
            return link.recv(200)

    def send(self, data: bytes, digest: str = "") -> bytes:
        head = f"upload {len(data)} {digest or hashlib.sha256(data).hexdigest()} {time.time_ns() // 1000}\n"
        return self.say(head.encode() + data)

    def half(self) -> None:
        with self.connect() as link:
            link.sendall(f"upload 100000 {'0' * 64} 1\n".encode() + b"JCUPLD02")

    def many_windows(self) -> None:
        sequence = self.id()
        self.send(upload(b"".join(entry(sequence, 1 + 4096 * each) for each in range(500)), 500))

    def others(self) -> None:
        """Entries under another machine's keys, and of its sequence behind all that it has."""
        if found := [path for ledger in self.ledgers for path in ledger.glob("*")]:
            data = self.dice.choice(found).read_bytes()
            sequence = data.partition(b"__SEQNUM_ID=")[2][:32]
            self.send(upload(entry(sequence, self.dice.choice((1, 2, 10_000_000))), 1))
            self.send(data)

    def slowly(self) -> None:
        with self.connect() as link:
            for byte in b"upload 48 " + b"0" * 30:
                link.sendall(bytes([byte]))
                time.sleep(0.01)

    def hold(self) -> None:
        """Connections that nobody ends, as many as there may be, and more."""
        self.held = [self.connect() for _ in range(12)]

    def no_export(self) -> None:
        self.send(upload(b"LPKSHHRH" + bytes(4_000), 1, kind=2))
        self.send(self.dice.randbytes(5_000))

    def asks(self) -> None:
        self.say(b"had %s 1\n" % self.id())
        self.say(b"had ../../x 1\n")

    def plain(self) -> None:
        sequence, first = self.id(), self.dice.randrange(1 << 40)
        self.send(upload(b"".join(entry(sequence, first + each) for each in range(5)), 5))

    def go_on(self) -> None:
        while True:
            try:
                self.dice.choice(self.deeds)()
            except OSError:
                pass                # the service ended the connection, or doesn't run
            time.sleep(0.05)


if __name__ == "__main__":
    Hostile(sys.argv[1], sys.argv[2], sys.argv[3:]).go_on()
