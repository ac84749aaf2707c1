#!/usr/bin/python3
"""A consumer that shows a row told twice: ledger.py SERVER NAME FILE [LO HI] keeps each row that it is told, in order.

The other consumers put a row that comes twice where it already stands, and look the same. This one has it twice.
"""

import argparse
import os
import sqlite3
import sys

sys.path.append(os.path.join(os.path.dirname(os.path.abspath(__file__)), "..", "..", "clients", "python"))
from ripsawbean_client import Outrun, Place  # noqa: E402
from ripsawbean_consumers.following import arguments, follow  # noqa: E402

TABLES = """
    PRAGMA journal_mode = WAL;
    CREATE TABLE IF NOT EXISTS place (one INTEGER PRIMARY KEY, identity TEXT, timestamp INTEGER, generation INTEGER);
    CREATE TABLE IF NOT EXISTS told (id INTEGER PRIMARY KEY, updated INTEGER, key BLOB, after BLOB);
"""


class Ledger:
    def __init__(self, file):
        self.db = sqlite3.connect(file, isolation_level=None)
        self.db.executescript(TABLES)

    def load(self):
        stored = self.db.execute("SELECT identity, timestamp, generation FROM place").fetchone()
        return Place(*stored) if stored else None

    def store(self, batch):
        with self.db:
            self.db.execute("BEGIN IMMEDIATE")
            if self.load() != batch.was:
                raise Outrun()
            if batch.reset:
                self.db.execute("DELETE FROM told")
            told = ((change.timestamp, change.key, change.value) for change in batch.changes)
            self.db.executemany("INSERT INTO told (updated, key, after) VALUES (?, ?, ?)", told)
            self.db.execute("INSERT OR REPLACE INTO place VALUES (1, ?, ?, ?)", batch.place)

    def rows(self):
        """The rows of the map, which the rows told make one after the other."""
        found = {key: after for _, key, after in self.told()}
        return [(key, after) for key, after in found.items() if after is not None]

    def told(self):
        return self.db.execute("SELECT updated, key, after FROM told ORDER BY id").fetchall()

    def close(self):
        self.db.close()


if __name__ == "__main__":
    words = argparse.ArgumentParser(description=__doc__)
    arguments(words, "file")
    given = words.parse_args()
    follow(given, lambda: Ledger(given.file), (sqlite3.Error,))
