#!/usr/bin/python3 -IBS
"""What stands for ssh between a machine and the collector: link.py SOCKET FAULT LEDGER, which is CONNECT of a machine.

It carries bytes both ways, as `nc -NU SOCKET` behind ssh does. The file FAULT has a word and a number: `whole 0`;
`refused 0`, no connection comes about; `cut N`, it ends after so many bytes of the machine; `deaf N`, the collector's
answers are lost after so many bytes, and it ends; `slow N`, so many bytes a second; `open N`, after so many bytes
neither side hears anything any more, and nobody is told, for a while.

It is the witness, too: an upload that the collector acknowledges is kept in the folder LEDGER.
"""
import os
import selectors
import socket
import sys
import tempfile
import time

PATIENCE, HEAD = 4.0, 48


class Witness:
    """Reads along: the uploads that go up, in their order, and the line that answers each."""

    def __init__(self, ledger: str) -> None:
        self.ledger, self.up, self.down = ledger, b"", b""
        self.asked: list[bytes] = []            # the uploads that have no answer; of another question nothing
        self.is_greeted = False

    def goes_up(self, piece: bytes) -> None:
        self.up += piece
        while b"\n" in self.up:
            line, _, rest = self.up.partition(b"\n")
            size = int(line.split()[1]) if line.startswith(b"upload ") else 0
            if len(rest) < size:
                return
            self.asked.append(rest[:size])
            self.up = rest[size:]

    def comes_down(self, piece: bytes) -> None:
        self.down += piece
        while b"\n" in self.down:
            line, _, self.down = self.down.partition(b"\n")
            if self.is_greeted and self.asked:
                self.answered(self.asked.pop(0), line.decode("ascii", "replace").split())
            self.is_greeted = True

    def answered(self, upload: bytes, words: list[str]) -> None:
        """`ack SOURCE START COUNT NEW LEFT`: all of it, if it has as many entries as its head says."""
        if len(upload) < HEAD or words[:1] != ["ack"]:
            return
        count = int.from_bytes(upload[40:48], "little")
        if words[1:4] == [upload[16:32].hex(), "0", str(count)] and words[5] == "0":
            handle, path = tempfile.mkstemp(prefix="new.", dir=self.ledger)
            os.write(handle, upload)
            os.rename(path, path.replace("new.", "upload."))


def carried(link: socket.socket, word: str, number: int, witness: Witness) -> None:
    """Until one side ends, or the fault comes."""
    ways = selectors.DefaultSelector()
    ways.register(0, selectors.EVENT_READ)
    ways.register(link, selectors.EVENT_READ)
    seen = {"up": 0, "down": 0}
    while True:
        for key, _ in ways.select():
            way = "up" if key.fileobj == 0 else "down"
            piece = os.read(key.fd, 1 << 16)
            seen[way] += len(piece)
            (witness.goes_up if way == "up" else witness.comes_down)(piece)
            if seen[way] > number and (word, way) in (("cut", "up"), ("deaf", "down"), ("open", "up")):
                if word == "cut":
                    link.sendall(piece[:max(0, len(piece) - seen[way] + number)])
                if word == "open":
                    time.sleep(PATIENCE)
                return
            if word == "slow":
                time.sleep(len(piece) / number)
            if not piece and way == "up":
                link.shutdown(socket.SHUT_WR)
                ways.unregister(0)
            elif not piece:
                return
            elif way == "up":
                link.sendall(piece)
            else:
                os.write(1, piece)


def main() -> int:
    path, fault, ledger = sys.argv[1:]
    with open(fault, encoding="ascii") as file:
        word, number = file.read().split()
    with socket.socket(socket.AF_UNIX) as link:
        try:
            if word == "refused":
                return 255
            link.connect(path)
            carried(link, word, int(number), Witness(ledger))
        except OSError:
            return 255
    return 0


if __name__ == "__main__":
    sys.exit(main())
