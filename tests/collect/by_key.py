"""Rows over tables by key, as docs/FORMATS.md has them: usage: python3 by_key.py PROGRAM FOLDER"""
import table_rows
from table_rows import ACK, SOURCE, collect, expect, new, run, run_all, stock, with_two
from samples import E1, E2, E3

BY_HAND = """
CREATE TABLE journal(one INTEGER PRIMARY KEY, version INTEGER NOT NULL) STRICT;
CREATE TABLE record(seqid BLOB NOT NULL, seqnum INTEGER NOT NULL,
  realtime INTEGER NOT NULL, monotonic INTEGER NOT NULL) STRICT;
CREATE TABLE field(seqid BLOB NOT NULL, seqnum INTEGER NOT NULL,
  pos INTEGER NOT NULL, name BLOB NOT NULL, value BLOB NOT NULL) STRICT;
INSERT INTO journal VALUES (1, 2);
"""


def copied(table: str, order: str) -> str:
    """All rows of a table are put in again in another order."""
    return (f"CREATE TEMP TABLE t AS SELECT * FROM {table}; DELETE FROM {table};"
            f"INSERT INTO {table} SELECT * FROM t ORDER BY {order}; DROP TABLE t;")


def moved(table: str, *steps: tuple[int, int]) -> str:
    """Rows stand at other rowids, one after the other."""
    return "".join(f"UPDATE {table} SET rowid = {to} WHERE rowid = {at};" for at, to in steps)


FIELDS_MOVED = moved("field", (1, 11), (2, 12), (3, 1), (4, 2), (11, 3), (12, 4))
RECORDS_MOVED = moved("record", (1, 9), (2, 1), (9, 2))
# One field more of the second entry, behind its others and, by its place and its name, in their order.
FIELD_MORE = "INSERT INTO field SELECT seqid, 2, 2, x'5a', x'31' FROM record WHERE seqnum = 2"

# A change of three entries with two fields each, and what `check` says then: records are in the order of keys.
HOSTILE = {
    "an entry that is deleted": ("DELETE FROM field WHERE seqnum = 2; DELETE FROM record WHERE seqnum = 2", "ok 2"),
    "the last one": ("DELETE FROM field WHERE seqnum = 3; DELETE FROM record WHERE seqnum = 3", "ok 2"),
    "all of them": ("DELETE FROM field; DELETE FROM record", "ok 0"),
    "the fields of one": ("DELETE FROM field WHERE seqnum = 2", "ok 3"),
    "its last field": ("DELETE FROM field WHERE seqnum = 2 AND pos = 1", "ok 3"),
    "its first field": ("DELETE FROM field WHERE seqnum = 2 AND pos = 0", "bad 65 1"),
    "a place behind the last": ("UPDATE field SET pos = 6 WHERE seqnum = 3 AND pos = 1", "bad 65 2"),
    "a place below 0": ("UPDATE field SET pos = -1 WHERE seqnum = 3 AND pos = 1", "bad 65 2"),
    "a name that isn't behind the one before": (
        "UPDATE field SET name = x'41' WHERE seqnum = 2 AND pos = 1", "bad 65 1"),
    "a field that comes twice": (
        "INSERT INTO field SELECT seqid, seqnum, 2, name, value FROM field WHERE seqnum = 2 AND pos = 1", "bad 65 1"),
    "a record at another rowid": (moved("record", (1, 7)), "ok 3"),
    "a record at rowid 0": (moved("record", (1, 0)), "ok 3"),
    "a record below 0": (moved("record", (2, -2)), "ok 3"),
    "records in another order than their fields": (RECORDS_MOVED, "ok 3"),
    "fields in another order than their records": (FIELDS_MOVED, "ok 3"),
    "entries in another order, as if they had come so": (RECORDS_MOVED + FIELDS_MOVED, "ok 3"),
    "two fields of an entry in another order": (moved("field", (3, 9), (4, 3), (9, 4)), "ok 3"),
    "fields without a record": ("DELETE FROM record WHERE seqnum = 3", "bad 64 0"),
    "fields behind a gap": (moved("field", (6, 8), (5, 7)), "ok 3"),
    "a field at rowid 0": (moved("field", (1, 0)), "ok 3"),
    "a field below 0": (moved("field", (1, -1)), "ok 3"),
    "a field more": (FIELD_MORE, "ok 3"),
    "a field more behind a gap": (FIELD_MORE.replace("2, 2, x", "2, 3, x"), "bad 65 1"),
    "an entry more": ("INSERT INTO record SELECT seqid, 7, 1, 1 FROM record WHERE seqnum = 1", "ok 4"),
    "a file that is written anew": ("VACUUM", "ok 3"),
}
# A change of three entries with two fields each that leaves the same journal: where its rows stand says nothing.
IN_ANOTHER_ORDER = {
    "records that were put in again in another order": copied("record", "seqnum % 2, seqnum DESC"),
    "fields that were put in again in another order": copied("field", "pos DESC, seqnum % 2"),
    "tables that were copied in no order": copied("record", "random()") + copied("field", "random()"),
    "records in another order than their fields": RECORDS_MOVED,
    "a field far from the others of its entry": moved("field", (3, 77)),
}


def hostile() -> None:
    table_rows.hostile("2", HOSTILE)


def in_another_order() -> None:
    table_rows.in_another_order("2", IN_ANOTHER_ORDER)


def field_more() -> None:
    """A field that somebody added is its entry's, whose upload without it isn't a repeat."""
    path = new("more")
    third = with_two(2).replace(b"PRIORITY=6\n", b"PRIORITY=6\nZ=1\n")
    collect(path, *map(with_two, (1, 2, 3)), tables="2")
    with stock(path) as connection:
        connection.executescript(FIELD_MORE)
    expect("check", run("check", path), (0, "ok 3\n"))
    expect("export", run("export", path)[1].encode(), with_two(1) + third + with_two(3))
    expect("without it", collect(path, with_two(1), with_two(2), tables="2"), (1, f"no {SOURCE} 0 60 1\n"))
    expect("with it", collect(path, with_two(1), third, with_two(3), tables="2"), (0, ACK.format(3, 0)))


def last_rowid() -> None:
    """Behind the last rowid that there is the library stores nothing more, and says so."""
    for table in ("record", "field"):
        path = new(f"last-{table}")
        collect(path, E1, E2, E3, tables="2")
        with stock(path) as connection:
            connection.execute(f"UPDATE {table} SET rowid = 9223372036854775807 WHERE seqnum = 1")
        expect(f"{table}: check", run("check", path), (0, "ok 3\n"))
        expect(f"{table}: one more", collect(path, with_two(4), tables="2"), (3, f"no {SOURCE} 0 62 0\n"))
        expect(f"{table}: again", collect(path, E3, E1, E2, tables="2"), (0, ACK.format(3, 0)))
        expect(f"{table}: check again", run("check", path), (0, "ok 3\n"))


def by_hand() -> None:
    """Tables without keys and references: a record is read by itself, and a field without one by nobody."""
    for number, (what, change, says) in enumerate((
        ("as they are made", "SELECT 1", "ok 3"),
        ("a key that comes twice", "INSERT INTO record SELECT * FROM record WHERE seqnum = 2", "ok 4"),
        ("all rows twice",
         "INSERT INTO record SELECT * FROM record; INSERT INTO field SELECT * FROM field", "bad 65 0"),
        ("fields without a record", "DELETE FROM record WHERE seqnum = 2", "ok 2"),
    )):
        path, other = new(f"hand-{number}"), new(f"like-{number}")
        expect(f"{what}: collect", collect(other, *map(table_rows.with_two, (1, 2, 3)), tables="2"),
               (0, ACK.format(3, 3)))
        with stock(path) as connection:
            connection.executescript(f"{BY_HAND} ATTACH '{other}' AS given")
            connection.executescript("INSERT INTO record SELECT * FROM given.record ORDER BY rowid;"
                                     "INSERT INTO field SELECT * FROM given.field ORDER BY rowid; DETACH given")
            connection.executescript(change)
        expect(what, run("check", path), (0 if says.startswith("ok") else 1, says + "\n"))


def stays_in_order() -> None:
    """What is stored in several runs, with repeats and in any order of keys, is found whole each time."""
    path = new("order")
    for uploads, counts in (((E3, E1), (2, 2)), ((E1, E2), (2, 1)), ((E2, E3), (2, 0))):
        expect("collect", collect(path, *uploads, tables="2"), (0, ACK.format(*counts)))
    expect("check", run("check", path), (0, "ok 3\n"))
    with stock(path) as connection:
        expect("records", connection.execute("SELECT rowid, seqnum FROM record ORDER BY rowid").fetchall(),
               [(1, 3), (2, 1), (3, 2)])
        expect("fields", connection.execute("SELECT rowid, seqnum, pos FROM field ORDER BY rowid").fetchall(),
               [(1, 3, 0), (2, 1, 0), (3, 2, 0)])


if __name__ == "__main__":
    run_all((hostile, in_another_order, field_more, last_rowid, by_hand, stays_in_order))
