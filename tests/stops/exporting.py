"""A run of `collect --then-export` over a device that stops or fails: the file is the old or the new one whole, and
what is answered stays stored."""
from __future__ import annotations

import os
import shutil
from concurrent.futures import Executor

import device
import samples
from trial import PROGRAM, Trial, run
from upwards import stops_and_failures

OLD = b"what was there before\n"
BEFORE = samples.E1
AFTER = samples.E1 + samples.E2
ANSWER = f"ack {samples.SOURCE.hex()} 0 1 1 0\n".encode()
AGAIN = f"ack {samples.SOURCE.hex()} 0 1 0 0\n".encode()
USUAL = (ANSWER, "", 0)
WHYS = ("read failed", "write failed", "store failed")


class Exporting:
    """One upload into a journal with an entry, and a file that is there."""

    def __init__(self, trial: Trial) -> None:
        self.trial = trial
        self.upload, = trial.put([samples.stream(samples.E2)])
        self.base = trial.database()
        run("collect", self.base, *trial.put([samples.stream(samples.E1)]))

    def run(
        self, mode: str, first: int, last: int, reads: bool = False
    ) -> tuple[str, tuple[bytes, str, int], list[device.Call]]:
        """The folder with the database and the file, what the run printed, and the calls."""
        database = self.trial.database()
        folder = os.path.dirname(database)
        for end in ("", "-wal"):
            shutil.copyfile(self.base + end, database + end)
        with open(os.path.join(folder, "out"), "wb") as file:
            file.write(OLD)
        words = [PROGRAM, "collect", "--then-export", os.path.join(folder, "out"), database, self.upload]
        return database, *device.run(self.trial.library, mode, first, last, words, reads=reads, steady=True)

    def once(self, mode: str, number: int, last: int, reads: bool = False) -> bool:
        what = f"collect --then-export, calls {number} to {last}, mode {mode}"
        database, told, calls = self.run(mode, number, last, reads)
        self.told(what, database, mode, told)
        folder = os.path.dirname(database)
        # what an earlier run left so, to the byte, was looked at then
        if self.trial.is_new(folder, "exporting", told == USUAL, told[0] == ANSWER):
            self.left(what, database, told)
        shutil.rmtree(folder)
        return bool(calls)

    def told(self, what: str, database: str, mode: str, told: tuple[bytes, str, int]) -> None:
        if mode != "f":
            was_killed = told[1:] == ("", -9) and ANSWER.startswith(told[0])
            self.trial.expect(f"{what}: {told}", told == USUAL or was_killed, True)
            return
        whys = {f"{why}\n" for why in (*WHYS, f"cannot open {database}", f"cannot open {self.upload}")} | {""}
        self.trial.expect(f"{what}: {told}", told == USUAL or (told[1] in whys and told[2] == 3), True)

    def left(self, what: str, database: str, told: tuple[bytes, str, int]) -> None:
        """What the run left, and what the same command makes of it."""
        trial, folder = self.trial, os.path.dirname(database)
        out = os.path.join(folder, "out")
        text = content(out)
        is_stored = told[0] == ANSWER
        may_be = [AFTER] if told == USUAL else [OLD, AFTER] if is_stored else [OLD, BEFORE]
        trial.expect(f"{what}: the file", text in may_be, True)
        stored = run("export", database)
        journals = [AFTER] if is_stored else [BEFORE, AFTER]
        trial.expect(f"{what}: the journal", stored in [(data, "", 0) for data in journals], True)
        again = run("collect", "--then-export", out, database, self.upload)
        trial.expect(f"{what}: again", again, (AGAIN if stored[0] == AFTER else ANSWER, "", 0))
        trial.expect(f"{what}: the file then", content(out), AFTER)
        trial.expect(f"{what}: what lies beside it", "out.new" in os.listdir(folder), False)

    def in_order(self) -> None:
        """The new text is synced before it takes the file's name, and the folder after that. The database's folder is
        synced as it is opened."""
        database, told, calls = self.run("n", 0, 0)
        operations = b"".join(call.operation for call in calls if call.kind == b"o").lstrip(b"s")
        self.trial.expect("collect --then-export: calls that change a file", (told, operations), (USUAL, b"cwsms"))
        shutil.rmtree(os.path.dirname(database))

    def sweep(self, pool: Executor) -> int:
        self.in_order()
        return stops_and_failures("collect --then-export", pool, self.once)


def content(path: str) -> bytes:
    with open(path, "rb") as file:
        return file.read()
