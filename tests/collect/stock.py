"""The stock sqlite3 of Python, if it knows STRICT tables."""
from __future__ import annotations

import sqlite3

IS_HERE = sqlite3.sqlite_version_info >= (3, 37)


def stock(path: str, statement: str) -> str | None:
    """The answers of a statement, a line for each row; None if it is refused."""
    connection = sqlite3.connect(path, timeout=0)
    try:
        with connection:
            return "".join(f"{row[0]}\n" for row in connection.execute(statement))
    except sqlite3.DatabaseError:
        return None
    finally:
        connection.close()
