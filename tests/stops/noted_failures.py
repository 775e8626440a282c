"""`collect --sequences` is killed before and within each of its calls that change a file; and a device fails at each of
its calls, alone and with all later ones, where reads, which are of lists and uploads too, are counted; and so does
standard output. Uploads are stored in two groups, one of which has two that are refused.

What was acknowledged is stored once, and the sequence is its machine's. The first of those that failed or weren't
answered may be stored, too, if none behind them was acknowledged. If whose a sequence is couldn't be written or synced,
the run takes up nothing more; if notes couldn't, as it ends, it fails. Of one call that failed it is told whether notes
did, or the database. A next run over a sound device takes all uploads, and notes what isn't noted.
"""
from __future__ import annotations

import os
import re
import shutil
import signal
from functools import partial

import device
import samples
from collecting import of_a_list
from noted_run import NotedRun
from brought import LONG, Brought
from trial import PROGRAM
from upwards import NEVER, upwards

OTHER = bytes(range(64, 80))


def is_note(call: device.Call) -> bool:
    """Whether a call writes or syncs the file of a window."""
    folder, name = os.path.split(call.path)
    return call.operation in (b"w", b"s") and name.isdigit() and "sequences" in folder.split(os.sep)


def is_beside_database(call: device.Call) -> bool:
    return "sequences" in call.path.split(os.sep)


def is_refused(line: str) -> bool:
    return not line.startswith("ack ")


def ended(noted: NotedRun, what: str, told: tuple[bytes, str, int], calls: list[device.Call]) -> list[str]:
    """The lines of a run that wasn't killed."""
    trial, lines = noted.trial, of_a_list(noted.trial, what, told, len(noted.uploads))
    if not calls:
        trial.expect(f"{what}: undisturbed", told, noted.usual)
    fails_at_end = told[0] == noted.usual[0] and told[1].endswith("store failed\n")
    if any(map(is_note, calls)) and not fails_at_end:
        trial.expect(f"{what}: {lines}, none is acknowledged behind it", lines == sorted(lines, key=is_refused), True)
        trial.expect(f"{what}: {lines}, one fails", any(line.endswith(" 62 0") for line in lines), True)
    return lines


def explained(noted: NotedRun, what: str, folder: str, call: device.Call, why: str) -> None:
    """What is told of the one call that failed, where the store did."""
    of_notes = f"the file of notes {folder}{os.sep}sequences{os.sep}"
    noted.trial.expect(f"{what}: {call} {why}", ["the database failed" in why, of_notes in why],
                       [not is_beside_database(call), is_beside_database(call)])


def disturbed(noted: NotedRun, mode: str, number: int, last: int = NEVER, only: str = "") -> bool:
    """The run is killed at a call, or the calls from one to another fail; answers whether there are such calls."""
    trial, what = noted.trial, f"calls {number} to {last}, mode {mode} {only}"
    folder = trial.folder()
    words = [noted.list if word == "-" else word for word in (PROGRAM, "--explain", *noted.prepare(folder))]
    (output, errors, status), calls = device.run(
        trial.library, mode, number, last, words, reads=not only, only=only, steady=True)
    errors, *why = re.split("^explain: ", errors, flags=re.MULTILINE)
    told = output, errors, status
    if calls and mode != "f":
        is_usual = noted.usual[0].startswith(told[0]) and told[1:] == ("", -signal.SIGKILL)
        trial.expect(f"{what}: {told}", is_usual, True)
        lines = told[0][:told[0].rfind(b"\n") + 1].decode().splitlines()
    else:
        lines = ended(noted, what, told, calls)
        if number == last and ("store failed" in errors or any(line.endswith(" 62 0") for line in lines)):
            explained(noted, what, folder, calls[0], "".join(why))
    may_be = noted.may_be(what, lines)
    # what an earlier run left so, to the byte, was looked at then
    if may_be and trial.is_new(folder, *lines):
        noted.left(what, folder, may_be)
    shutil.rmtree(folder)
    return bool(calls)


def main() -> None:
    one, rest = samples.stream(samples.E1), samples.stream(samples.E2, samples.E3)
    other = samples.stream(samples.entry_text(1).replace(samples.SEQNUM_ID.hex().encode(), OTHER.hex().encode()))
    uploads = [Brought("web", one), Brought("mail", samples.stream(samples.entry_text(4))),
               Brought("web", samples.stream(samples.H1)), Brought(LONG, other), Brought("web", rest)]
    with device.trial_of("noted failures") as (trial, pool):
        noted = NotedRun(trial, "collect --sequences", uploads)
        kills = sum(upwards(pool, partial(disturbed, noted, mode)) for mode in "kh")
        alone = upwards(pool, lambda number: disturbed(noted, "f", number, number))
        later = upwards(pool, partial(disturbed, noted, "f"))
        lines = upwards(pool, partial(disturbed, noted, "f", only="1"))
        trial.expect("lines that can't be printed", lines, len(uploads))
        trial.finish(f"{kills} kills, {alone} calls failed alone, {later} with all later ones, {lines} lines failed")


if __name__ == "__main__":
    main()
