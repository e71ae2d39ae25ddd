"""The file of a store: its tables, and what it holds."""

import contextlib
import os
import sqlite3

# The tables of docs/design/store.md.
ROWS = (
    "CREATE TABLE stix_row (date INTEGER PRIMARY KEY, collection BLOB NOT NULL, kind TEXT NOT NULL, number BLOB NOT NULL, "
    "version INTEGER NOT NULL, dated INTEGER NOT NULL, body TEXT NOT NULL) STRICT"
)
MARK = "CREATE TABLE stix_mark (one INTEGER PRIMARY KEY CHECK (one = 1), date INTEGER NOT NULL) STRICT"
# A store whose form has no number, and whose pages have no checksums, so that a test may change it.
UNNAMED = f"{ROWS}; {MARK}; INSERT INTO stix_mark VALUES (1, 0)"


def ask(file, statements, *values):
    """Runs statements, and gives the rows of all; the values are those of a single statement."""
    with contextlib.closing(sqlite3.connect(file)) as database:
        rows = [row for it in statements.split(";") for row in database.execute(it, values)]
        database.commit()
        return rows


def bodies(file):
    """The bodies in a store's file, by date."""
    if not os.path.exists(file) or not ask(file, "SELECT 1 FROM sqlite_master WHERE name = 'stix_row'"):
        return []
    return [it for it, in ask(file, "SELECT body FROM stix_row ORDER BY date")]
