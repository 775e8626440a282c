"""How often `collect --sequences` syncs: for uploads of many machines that wait, some of which are refused or can't be
opened; and for one upload with many new windows.

The syncs between two lines of standard output, or before the first and behind the last one, are a round. Those behind
the last line keep no upload waiting: the service has one run for each database, whose windows are noted as it ends.
"""
from __future__ import annotations

import itertools
import os

import device
import samples
from brought import Brought, as_lines, stranger
from make import Machine
from model import Journal
from trial import PROGRAM, Trial, as_output, run, status_of

# So many uploads wait, and this many rounds and syncs of the database they may take, and so many syncs each file of
# notes, as the service counts on.
WAITING, ROUNDS, OF_THE_DATABASE, OF_A_FILE = 300, 30, 30, 8
# An upload has so many new windows or sequences, and so many syncs it may wait for, if they are of one sequence.
WINDOWS, BEFORE_ITS_ANSWER = 16, 40


def count(trial: Trial, name: str, uploads: list[Brought | None]) -> int:
    """A run over uploads, in place of some of which there is no file; how many syncs came before its last answer."""
    journal, root = Journal(), trial.folder()
    paths = trial.put([brought.upload if brought else b"" for brought in uploads])
    missing = [path for path, brought in zip(paths, uploads) if not brought]
    for path in missing:
        os.unlink(path)
    lines = [journal.take(brought.upload, brought.machine) if brought else "no - - 61 0" for brought in uploads]
    names, = trial.put([as_lines(paths, [brought or Brought(None, b"") for brought in uploads])])
    words = ["collect", "--sequences", os.path.join(root, "sequences"), "--files-from", names, os.path.join(root, "db")]
    told, calls = device.run(trial.library, "n", 0, 0, [PROGRAM, *words])
    errors = "".join(f"cannot open {path}\n" for path in missing)
    trial.expect(f"{name}: answers", told, (as_output(lines), errors, status_of(lines)))
    trial.expect(f"{name}: export", run("export", os.path.join(root, "db")), (journal.text(), "", 0))
    events = [call for call in calls if call.kind == b"1" or call.operation == b"s"]
    syncs = [call.kind for call in events if call.kind != b"1"]
    rounds = sum(is_sync for is_sync, _ in itertools.groupby(events, lambda call: call.kind != b"1"))
    files = {call.path for call in calls if call.operation == b"c" and os.path.basename(call.path).isdigit()}
    of_notes = syncs.count(b"o")
    behind = next(at for at, call in enumerate(reversed(events)) if call.kind == b"1")
    print(f"counted: {name}: {len(syncs)} syncs in {rounds} rounds, {len(syncs) - behind} before the last answer; "
          f"{of_notes} for {len(files)} files of notes")
    trial.expect(f"{name}: rounds", rounds <= ROUNDS, True)
    trial.expect(f"{name}: syncs of the database", len(syncs) - of_notes <= OF_THE_DATABASE, True)
    trial.expect(f"{name}: syncs of notes", of_notes <= OF_A_FILE * len(files), True)
    return len(syncs) - behind


def main() -> None:
    with device.trial_of("counted") as (trial, _):
        machines = [Machine(trial.dice, 1) for _ in range(WAITING)]
        waiting = [Brought(f"{number}", machine.stream(0, 1)) for number, machine in enumerate(machines)]
        odd = [Brought("0", waiting[0].upload + b"=x"), stranger(machines[0].seqnum_id), None]
        count(trial, f"{WAITING} uploads that wait", waiting[:100] + odd + waiting[100:])
        far = Machine(trial.dice, WINDOWS)
        far.entries = [entry._replace(seqnum=7 + 4096 * number) for number, entry in enumerate(far.entries)]
        waited = count(trial, f"{WINDOWS} windows of a sequence", [Brought("far", far.stream(0, WINDOWS))])
        trial.expect("syncs before its answer", waited <= BEFORE_ITS_ANSWER, True)
        many = [machine.stream(0, 1)[samples.HEAD:] for machine in machines[1:WINDOWS]]
        count(trial, f"{WINDOWS} sequences", [Brought("many", b"".join([waiting[0].upload, *many]))])
        trial.finish("3 runs")


if __name__ == "__main__":
    main()
