"""Rows over tables with a text a row, as docs/FORMATS.md has them: usage: python3 by_text.py PROGRAM FOLDER"""
import itertools
import os
import struct

import table_rows
from older import ENTRIES, STATEMENTS
from table_rows import ACK, SOURCE, expect, new, run, run_all, schema, stock
from samples import E1, E2, E3, H1, SEQNUM_ID, entry_text

BY_TEXT = [STATEMENTS[0], ENTRIES.strip()]


def collect(path: str, *entries: bytes, tables: str = "3") -> tuple[int, str]:
    return table_rows.collect(path, *entries, tables=tables)


def is_made() -> None:
    """What is made, as the stock SQLite reads it."""
    path = new("made")
    two = b"__REALTIME_TIMESTAMP=7\n__MONOTONIC_TIMESTAMP=8\n__SEQNUM=9\n__SEQNUM_ID=%s\nB=2\nA=3\nB=1\n\n" % (
        SEQNUM_ID.hex().encode())
    expect("collect", collect(path, E2, two, E1), (0, ACK.format(3, 3)))
    expect("its tables", schema(path), BY_TEXT)
    with stock(path) as connection:
        expect("the version", connection.execute("SELECT * FROM journal").fetchall(), [(1, 3)])
        expect("entries", connection.execute("SELECT rowid, * FROM entry ORDER BY rowid").fetchall(),
               [(1, SEQNUM_ID, 2, 1000000, 5, b"MESSAGE=hi\n"), (2, SEQNUM_ID, 9, 7, 8, b"A=3\nB=1\nB=2\n"),
                (3, SEQNUM_ID, 1, 1000000, 5, b"MESSAGE=hi\n")])
        expect("the stock check", connection.execute("PRAGMA integrity_check").fetchall(), [("ok",)])


def goes_on() -> None:
    """A database stays as it is, whatever is asked for, and each command finds out which tables it has."""
    texts = {}
    for kind, other in (("2", "3"), ("3", "2")):
        path = new(f"kind-{kind}")
        expect("collect", collect(path, E1, E2, tables=kind), (0, ACK.format(2, 2)))
        before = schema(path)
        expect("another option", collect(path, E2, E3, tables=other), (0, ACK.format(2, 1)))
        expect("no option", collect(path, E1, E3, tables=""), (0, ACK.format(2, 0)))
        expect("a conflict", collect(path, H1), (1, f"no {SOURCE} 0 60 0\n"))
        expect("its tables", schema(path), before)
        expect("check", run("check", path), (0, "ok 3\n"))
        texts[kind] = [run("export", path), run("show", path), run("show", "--from", "2", "--field", "MESSAGE", path)]
    expect("what is listed", texts["3"], texts["2"])
    expect("an export", texts["3"][0][1].count("__SEQNUM="), 3)
    path = new("without")
    collect(path, E1, tables="")
    with stock(path) as connection:
        expect("without the option", connection.execute("SELECT version FROM journal").fetchall(), [(2,)])
    expect("no such tables", run("collect", "--tables", "4", new("never"))[0], 2)
    expect("nothing is made", os.path.exists(new("never")), False)


def beside_others() -> None:
    """What another program added stands beside a journal's tables, and its kind is told by them alone."""
    for kind, change in itertools.product(("2", "3"), ("ANALYZE", "CREATE TABLE other(id INTEGER PRIMARY KEY, a, b)",
                                                       "CREATE TABLE other(a, b, c, d, e)")):
        path = new(f"beside-{kind}-{change.replace(' ', '')[:20]}-{len(change)}")
        collect(path, E1, E2, tables=kind)
        with stock(path) as connection:
            connection.execute(change)
        expect(f"{kind} {change}", run("check", path), (0, "ok 2\n"))
        expect(f"{kind} {change}: collect", collect(path, E2, E3, tables=""), (0, ACK.format(2, 1)))


def binary(name: str, value: bytes) -> str:
    """A field in the binary spelling, as SQL has these bytes."""
    return (name.encode() + b"\n" + struct.pack("<Q", len(value)) + value + b"\n").hex()


# Bodies that aren't the canonical text of an entry's fields.
NO_BODIES = {
    "a body without an end": "413d31",
    "a name alone": "410a",
    "no name": "3d310a",
    "fields out of order": b"B=1\nA=1\n".hex(),
    "a field that comes twice": b"A=1\nA=1\n".hex(),
    "values out of order": b"A=2\nA=1\n".hex(),
    "a field of metadata": b"__SEQNUM=1\n".hex(),
    "a text in the binary spelling": binary("A", b"1"),
    "a value that is no text in the text spelling": b"A=\xff\n".hex(),
    "a size beyond the end": b"A\n\x09\x00\x00\x00\x00\x00\x00\x001\n".hex(),
    "a size that is cut short": b"A\n\x01\x00\x00".hex(),
    "a byte behind the last field": b"A=1\n\n".hex(),
}
# A change of three entries with two fields each, and what `check` says then. Rows are in the order of keys.
HOSTILE = {
    **{what: (f"UPDATE entry SET body = x'{body}' WHERE seqnum = 2", "bad 65 1") for what, body in NO_BODIES.items()},
    "a binary value": (f"UPDATE entry SET body = x'{binary('A', bytes([255]))}' WHERE seqnum = 2", "ok 3"),
    "an entry without fields": ("UPDATE entry SET body = x'' WHERE seqnum = 2", "ok 3"),
    "two wrong rows": ("UPDATE entry SET body = x'41' WHERE seqnum > 1", "bad 65 1"),
    "the last row": ("UPDATE entry SET body = x'41' WHERE seqnum = 3", "bad 65 2"),
    "a sequence id of 15 bytes": (
        "UPDATE entry SET seqid = x'000102030405060708090a0b0c0d0e' WHERE seqnum = 1", "bad 65 0"),
    "a sequence id of 17 bytes": (
        "UPDATE entry SET seqid = x'000102030405060708090a0b0c0d0e0f10' WHERE seqnum = 1", "bad 65 2"),
    "the sequence number 0": ("UPDATE entry SET seqnum = 0 WHERE seqnum = 1", "bad 65 0"),
    "a negative number": ("UPDATE entry SET seqnum = -7 WHERE seqnum = 3", "bad 65 0"),
    "a negative time": ("UPDATE entry SET realtime = -1 WHERE seqnum = 2", "bad 65 1"),
    "another negative time": ("UPDATE entry SET monotonic = -1 WHERE seqnum = 3", "bad 65 2"),
    "version 9": ("UPDATE journal SET version = 9", "bad 64 0"),
    "version 2": ("UPDATE journal SET version = 2", "bad 67 0"),
    "version 1": ("UPDATE journal SET version = 1", "bad 67 0"),
    "version 0": ("UPDATE journal SET version = 0", "bad 64 0"),
    "no version": ("DELETE FROM journal", "bad 64 0"),
    "two versions": ("INSERT INTO journal VALUES (2, 3)", "bad 64 0"),
    "a version in another row": ("UPDATE journal SET one = 5", "ok 3"),
    "an entry that is deleted": ("DELETE FROM entry WHERE seqnum = 2", "ok 2"),
    "all of them": ("DELETE FROM entry", "ok 0"),
    "an entry more": ("INSERT INTO entry SELECT seqid, 7, 1, 1, body FROM entry WHERE seqnum = 1", "ok 4"),
    "rowids below 0": ("UPDATE entry SET rowid = -rowid", "ok 3"),
    "a file that is written anew": ("VACUUM", "ok 3"),
}


def hostile() -> None:
    table_rows.hostile("3", HOSTILE, "entry")


def last_rowid() -> None:
    """Behind the last rowid that there is the library stores nothing more, and says so."""
    path = new("last")
    collect(path, E1, E2, E3)
    with stock(path) as connection:
        connection.execute("UPDATE entry SET rowid = 9223372036854775807 WHERE seqnum = 1")
    expect("check", run("check", path), (0, "ok 3\n"))
    expect("one more", collect(path, entry_text(4)), (3, f"no {SOURCE} 0 62 0\n"))
    expect("what there was again", collect(path, E3, E1, E2), (0, ACK.format(3, 0)))
    expect("check again", run("check", path), (0, "ok 3\n"))


# A change of three entries that leaves the same journal: where its rows stand says nothing.
IN_ANOTHER_ORDER = {
    "entries that were put in again in another order": (
        "CREATE TEMP TABLE t AS SELECT * FROM entry; DELETE FROM entry; INSERT INTO entry SELECT * FROM t "
        "ORDER BY seqnum % 2, seqnum DESC"),
    "a table that was copied in no order": (
        "CREATE TEMP TABLE t AS SELECT * FROM entry; DELETE FROM entry; INSERT INTO entry SELECT * FROM t "
        "ORDER BY random()"),
    "an entry at another rowid": "UPDATE entry SET rowid = 77 WHERE seqnum = 2",
}


def in_another_order() -> None:
    table_rows.in_another_order("3", IN_ANOTHER_ORDER)


def migrated_in_no_order() -> None:
    """Tables of version 1 whose rows were copied in no order show the same journal once they are migrated."""
    for kind in ("2", "3"):
        exports = []
        for order in ("seqnum", "random()"):
            path = new(f"no-order-{kind}-{order}")
            with stock(path) as connection:
                connection.executescript(";".join(STATEMENTS))
                connection.execute("CREATE TEMP TABLE t AS SELECT * FROM entry")
                connection.executemany("INSERT INTO t VALUES (?, ?, 1000000, 5, ?)",
                                       [(SEQNUM_ID, number, b"MESSAGE=hi\n") for number in range(1, 10)])
                connection.execute(f"INSERT INTO entry SELECT * FROM t ORDER BY {order}")
            expect(f"migrate to {kind}", run("migrate", "--tables", kind, path), (0, "ok 9\n"))
            exports.append(run("export", path))
        expect(f"{kind}: export", exports[1], exports[0])
        expect(f"{kind}: what is exported", exports[0][1].encode(), b"".join(map(entry_text, range(1, 10))))


def migrated_beside() -> None:
    """From tables of version 1, and by key, beside a table of another program."""
    changes = ("ANALYZE", "CREATE TABLE other(a, b)", "CREATE TABLE other(id INTEGER PRIMARY KEY)",
               "CREATE TABLE a(a); CREATE TABLE b(b); CREATE TABLE c(c)")
    for number, change in enumerate(changes):
        for kind, of_version in (("2", 1), ("3", 1), ("3", 2)):
            path = new(f"beside-{number}-{kind}-{of_version}")
            with stock(path) as connection:
                connection.executescript(";".join(STATEMENTS))
                connection.executescript(change if of_version == 1 else "SELECT 1")
            if of_version == 2:
                expect("of version 1", run("migrate", path), (0, "ok 0\n"))
                with stock(path) as connection:
                    connection.executescript(change)
            what = f"from {of_version} to {kind}, {change}"
            expect(what, run("migrate", "--tables", kind, path), (0, "ok 0\n"))
            expect(f"{what}: check", run("check", path), (0, "ok 0\n"))
            expect(f"{what}: collect", collect(path, E1, E2), (0, ACK.format(2, 2)))
            expect(f"{what}: export", run("export", path)[1].count("__SEQNUM="), 2)


def made_by_key(name: str, of_version_1: bool) -> str:
    """A database of three entries, whose tables are by key."""
    path = new(name)
    if of_version_1:
        with stock(path) as connection:
            connection.executescript(";".join(STATEMENTS))
        expect("of version 1", run("migrate", path), (0, "ok 0\n"))
    expect("collect", collect(path, E3, E1, E2, tables="2"), (0, ACK.format(3, 3)))
    return path


def is_moved() -> None:
    """From tables by key, which were made so or came from version 1."""
    for of_version_1 in (False, True):
        path = made_by_key(f"key-{of_version_1}", of_version_1)
        listed = [run("export", path), run("show", path)]
        expect("by key again", run("migrate", path), (1, "bad 64 0\n"))
        expect("of version 3", run("migrate", "--tables", "3", path), (0, "ok 3\n"))
        expect("once more", run("migrate", "--tables", "3", path), (1, "bad 64 0\n"))
        expect("what is listed", [run("export", path), run("show", path)], listed)
        expect("its tables", schema(path), BY_TEXT)
        with stock(path) as connection:
            expect("the version", connection.execute("SELECT * FROM journal").fetchall(), [(1, 3)])
            expect("entries", connection.execute("SELECT rowid, seqnum, body FROM entry ORDER BY rowid").fetchall(),
                   [(number, number, b"MESSAGE=hi\n") for number in (1, 2, 3)])
            expect("the stock check", connection.execute("PRAGMA integrity_check").fetchall(), [("ok",)])
        expect("collect", collect(path, E1, entry_text(4)), (0, ACK.format(2, 1)))


if __name__ == "__main__":
    run_all((is_made, goes_on, beside_others, hostile, last_rowid, in_another_order, migrated_in_no_order,
             migrated_beside, is_moved))
