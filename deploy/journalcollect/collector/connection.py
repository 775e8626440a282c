"""One connection of a machine: what it asks is answered, one after the other."""
import hashlib
import os
import socket
import threading
import time
from io import BufferedReader
from typing import cast

from ..common import files, protocol
from .gate import Gate
from .state import log
from .store import Store
from .turns import Waiting

# Seconds without a byte within an upload, and between requests; bytes a second that come at least.
IDLE, REST, RATE = 90.0, 3600.0, 1_000
# What is read at once of an upload, and what a connection holds between requests.
PIECE, BUFFER = 1 << 16, 512
# What is too large is read to its end, so that it can be answered, if it is no larger than this.
READ_TO_END = 256 << 20


class Connection(threading.Thread):
    def __init__(self, one: socket.socket, machine: str, store: Store, gate: Gate) -> None:
        super().__init__(name=machine, daemon=True)
        self.one, self.machine, self.store, self.gate = one, machine, store, gate
        self.input = cast(BufferedReader, one.makefile("rb", BUFFER))

    def run(self) -> None:
        try:
            with self.one, self.input, self.gate.entered(self.machine, self.one):
                self.say(protocol.Greeting(time.time_ns() // 1000, self.store.head()))
                while line := self.input.readline(protocol.LONGEST_LINE + 1):
                    asked = protocol.question(protocol.decoded(line))
                    self.say(self.known(asked) if isinstance(asked, protocol.Had) else self.upload(asked))
        except (OSError, protocol.NotALine):
            pass                                       # it was cut, or is no machine of ours: what it sent comes again
        except Exception as error:
            log(f"{self.machine}: {type(error).__name__}: {error}")

    def say(self, line: protocol.Greeting | protocol.Reply) -> None:
        self.one.settimeout(IDLE)
        self.one.sendall(protocol.encoded(line))
        self.one.settimeout(REST)

    def known(self, key: protocol.Had) -> protocol.Known:
        """Whether an entry that was acknowledged is known still. Of another machine's sequence nothing is told."""
        if not {self.machine, ""} & (self.store.state.came_with(key.sequence) or {""}):
            return protocol.Known.LOST
        if self.store.knows(self.machine, key.sequence, key.number):
            return protocol.Known.HAD
        self.store.state.tell(f"lost {self.machine}", f"{self.machine}: entry {key.number} of {key.sequence} was "
                              "acknowledged, and isn't here: what its journal still has comes once more")
        return protocol.Known.LOST

    def upload(self, told: protocol.Upload) -> protocol.Reply:
        """Takes an upload, and has it stored, if no bound is in the way."""
        self.store.state.saw(self.machine).skew = told.realtime / 1e6 - time.time()
        if told.size > READ_TO_END:
            raise protocol.NotALine(str(told))
        refusal = self.gate.before(self.machine, told.size)
        with files.unnamed(self.store.folder.recent) as handle:
            digest, lines, refusal = self.read(handle, told.size, refusal)
            if digest != told.sha256:
                raise protocol.NotALine("another digest")
            new_files = refusal or self.gate.of_upload(self.machine, handle, told.size)
            if isinstance(new_files, protocol.Put):
                return new_files
            return self.store.ask(Waiting(self.machine, handle, told.size, lines, new_files))

    def read(self, handle: int, size: int, refusal: protocol.Put | None) -> tuple[str, int, protocol.Put | None]:
        """Reads an upload; its digest, its lines, and why it isn't taken: then it is kept nowhere."""
        self.one.settimeout(IDLE)
        end, digest, lines = time.monotonic() + IDLE + size / RATE, hashlib.sha256(), 0
        while size:
            piece = self.input.read1(min(size, PIECE))
            if not piece or time.monotonic() > end:
                raise protocol.NotALine("it was cut")
            size -= len(piece)
            digest.update(piece)
            lines += piece.count(b"\n")
            try:
                while piece and not refusal:
                    piece = piece[os.write(handle, piece):]
            except OSError as error:
                refusal = protocol.Put(protocol.Verdict.LATER, f"the disk of the collector: {error.strerror}")
        return digest.hexdigest(), lines, refusal
