"""Databases of the first version of the tables, as an earlier program left them and as the stock sqlite3 makes them:
`migrate` takes their journals over, and no other command does. tests/stops has it stopped anywhere.
"""
from __future__ import annotations

import gzip
import os
import shutil

import samples
from make import Machine
from model import Journal, read_stream
from stock import IS_HERE, stock
from trial import ROWS, SCHEMA, TABLES, Trial, as_output, run

FIXTURES = os.path.join(os.path.dirname(os.path.abspath(__file__)), "..", "fixtures")
# The databases of an earlier program: one was closed, and of the other what is stored is in the log.
EARLIER = ("closed", "killed")
ENTRIES = """
CREATE TABLE entry(seqid BLOB NOT NULL, seqnum INTEGER NOT NULL,
  realtime INTEGER NOT NULL, monotonic INTEGER NOT NULL,
  body BLOB NOT NULL, PRIMARY KEY(seqid, seqnum)) STRICT
"""
STATEMENTS = (
    "CREATE TABLE journal(one INTEGER PRIMARY KEY, version INTEGER NOT NULL) STRICT",
    ENTRIES,
    "INSERT INTO journal VALUES(1, 1)",
)
OLD_ROWS = """
SELECT lower(hex(seqid)) || ' ' || seqnum || ' ' || realtime || ' ' || monotonic || ' ' || lower(hex(body))
FROM entry ORDER BY seqid, seqnum
"""
REFUSED = (b"bad 67 0\n", "", 1)


def earlier_journal() -> Journal:
    """The journal that the databases of an earlier program have."""
    with open(os.path.join(FIXTURES, "systemd-254", "regular.export"), "rb") as file:
        return Journal(read_stream(file.read()))


def earlier(trial: Trial, name: str) -> str:
    """A database as an earlier program left it."""
    database = trial.database()
    for end in ("", "-wal"):
        packed = os.path.join(FIXTURES, "tables-1", f"{name}.db{end}.gz")
        if os.path.exists(packed):
            with gzip.open(packed) as old, open(database + end, "wb") as new:
                shutil.copyfileobj(old, new)
    return database


def migrated(trial: Trial) -> str:
    """The same journal in tables by key, beside those that it came from."""
    database = earlier(trial, "closed")
    trial.expect("a journal goes over", run("migrate", database), usual(earlier_journal()))
    return database


def by_key(trial: Trial) -> str:
    """The same journal in tables by key, which were made so."""
    database = trial.database()
    upload = samples.stream(earlier_journal().text())
    trial.expect("collected", run("collect", "--tables", "2", database, stdin=upload)[1:], ("", 0))
    return database


def older(trial: Trial, journal: Journal) -> str:
    """A database of the first version with this journal, which the stock sqlite3 makes."""
    database = trial.database()
    rows = ", ".join(f"(x'{e.seqnum_id.hex()}', {e.seqnum}, {e.realtime}, {e.monotonic}, x'{e.body().hex()}')"
                     for e in journal.in_order())
    for statement in STATEMENTS + ((f"INSERT INTO entry VALUES {rows}",) if rows else ()):
        trial.expect("a statement of the stock sqlite3", stock(database, statement), "")
    return database


def usual(journal: Journal) -> tuple[bytes, str, int]:
    """What `migrate` prints of a journal that isn't over yet, and its status."""
    return as_output([f"ok {len(journal.entries)}"]), "", 0


def is_over(trial: Trial, what: str, database: str, journal: Journal) -> bool:
    """Whether the journal is in the new tables; it is whole in either. The database is left as it is."""
    over = run("check", trial.copy(database)) != REFUSED
    copied = trial.copy(database)
    if not over:
        if IS_HERE:
            rows = "".join(f"{e.seqnum_id.hex()} {e.seqnum} {e.realtime} {e.monotonic} {e.body().hex()}\n"
                           for e in journal.in_order())
            trial.expect(f"{what}: the old rows", stock(trial.copy(database), OLD_ROWS), rows)
        trial.expect(f"{what}: migrate", run("migrate", copied), usual(journal))
    trial.expect(f"{what}: export", run("export", copied), (journal.text(), "", 0))
    holds_rows(trial, what, copied, journal)
    shutil.rmtree(os.path.dirname(copied))
    return over


def holds_rows(trial: Trial, what: str, database: str, journal: Journal) -> None:
    """The stock sqlite3 finds just this journal in the new tables, and nothing in the old one."""
    if IS_HERE:
        copied = trial.copy(database)
        trial.expect(f"{what}: rows", stock(copied, ROWS), journal.rows())
        trial.expect(f"{what}: old rows", stock(copied, OLD_ROWS), "")
        trial.expect(f"{what}: tables", (stock(copied, TABLES) or "").split(), (ENTRIES + SCHEMA).split())
        trial.expect(f"{what}: integrity", stock(copied, "PRAGMA integrity_check"), "ok\n")
        shutil.rmtree(os.path.dirname(copied))


def migrate(trial: Trial, what: str, database: str, journal: Journal) -> None:
    """The journal goes over, if it hasn't yet."""
    told = (b"bad 64 0\n", "", 1) if is_over(trial, what, database, journal) else usual(journal)
    trial.expect(f"{what}: migrate", run("migrate", database), told)
    trial.expect(f"{what}: it is over", is_over(trial, f"{what}, then", database, journal), True)


def one_after_the_other(trial: Trial, what: str, database: str, journal: Journal, uploads: list[bytes]) -> None:
    """Every other command refuses the old tables and changes nothing; once the journal is over, more is collected."""
    for words in (["export"], ["show"], ["collect"]):
        told = run(words[0], database, *words[1:], stdin=uploads[0])
        trial.expect(f"{what}: {words}", told, (b"", "bad 67 0\n", 1))
    migrate(trial, what, database, journal)
    migrate(trial, f"{what}, again", database, journal)
    for upload in uploads:
        line = journal.take(upload)
        trial.expect(f"{what}: more", run("collect", database, stdin=upload), (as_output([line]), "", 0))
    is_over(trial, f"{what} and more", database, journal)


def main() -> None:
    with Trial("older") as trial:
        machine = Machine(trial.dice, 110)
        for name in EARLIER:
            uploads = [machine.stream(0, 10), machine.file(20)]
            one_after_the_other(trial, name, earlier(trial, name), earlier_journal(), uploads)
        if not IS_HERE:
            trial.finish(f"{len(EARLIER)} databases of an earlier program")
        journal = Journal(machine.entries[:100])
        one_after_the_other(trial, "many entries", older(trial, journal), journal, [machine.stream(0, 110)])
        trial.finish(f"{len(EARLIER)} databases of an earlier program, and a larger one")


if __name__ == "__main__":
    main()
