"""A search index in SQLite's FTS5.

It has the values of the keys of its span. The table `place` says of which timestamp they are, and changes in the same
transaction. Readers may ask meanwhile. It needs nothing but Python.
"""

import sqlite3

from ripsawbean_client import Outrun, Place

FAILURES = (sqlite3.Error,)
TOGETHER = 1000  # rows that are read in one transaction
TABLES = """
    PRAGMA journal_mode = WAL;
    CREATE TABLE IF NOT EXISTS place
        (one INTEGER PRIMARY KEY CHECK (one = 1), identity TEXT, timestamp INTEGER, generation INTEGER);
    CREATE TABLE IF NOT EXISTS document (id INTEGER PRIMARY KEY, key BLOB UNIQUE, value BLOB);
    CREATE VIRTUAL TABLE IF NOT EXISTS body USING fts5 (text);
"""
# A row whose text isn't the one that is searched has that one as its value.
ROWS = """
    SELECT key, value, text FROM document LEFT JOIN body ON body.rowid = id WHERE key > ? ORDER BY key LIMIT ?
"""
ROW = "SELECT key, value, text FROM document LEFT JOIN body ON body.rowid = id WHERE key = ?"
SEARCH = """
    SELECT key, snippet(body, 0, '[', ']', '..', 8) FROM body JOIN document ON id = body.rowid
    WHERE body MATCH ? ORDER BY rank, key LIMIT 10
"""


def opened(file, name):
    return Index(file)


class Index:
    def __init__(self, file):
        self.db = sqlite3.connect(file, isolation_level=None)
        self.db.executescript(TABLES)

    def load(self):
        stored = self.db.execute("SELECT identity, timestamp, generation FROM place").fetchone()
        return Place(*stored) if stored else None

    def store(self, batch):
        self.db.execute("BEGIN IMMEDIATE")
        try:
            if self.load() != batch.was:
                raise Outrun()
            if batch.reset:
                self.db.execute("DELETE FROM document")
                self.db.execute("DELETE FROM body")
            for change in batch.changes:
                self.take(change)
            self.db.execute("INSERT OR REPLACE INTO place VALUES (1, ?, ?, ?)", batch.place)
            self.db.execute("COMMIT")
        finally:
            if self.db.in_transaction:
                self.db.execute("ROLLBACK")

    def take(self, change):
        known = self.db.execute("SELECT id FROM document WHERE key = ?", (change.key,)).fetchone()
        if known:
            self.db.execute("DELETE FROM body WHERE rowid = ?", known)
            self.db.execute("DELETE FROM document WHERE id = ?", known)
        if change.value is not None:
            at = self.db.execute("INSERT INTO document (key, value) VALUES (?, ?)", change[:2]).lastrowid
            self.db.execute("INSERT INTO body (rowid, text) VALUES (?, ?)", (at, text_of(change.value)))

    def rows(self):
        key, some = b"", None
        while some is None or len(some) == TOGETHER:
            some = self.db.execute(ROWS, (key, TOGETHER)).fetchall()
            for key, value, text in some:
                yield key, searched(value, text)

    def look(self, keys):
        self.db.execute("BEGIN")
        try:
            found = [row for key in keys for row in self.db.execute(ROW, (key,))]
            return self.load(), {key: searched(value, text) for key, value, text in found}
        finally:
            self.db.execute("ROLLBACK")

    def search(self, words):
        """Keys and a piece of the text of the ten best, the best first."""
        return self.db.execute(SEARCH, (words,)).fetchall()

    def close(self):
        self.db.close()


def text_of(value):
    return value.decode(errors="replace")


def searched(value, text):
    """The value, where its text is the one that is searched, and else that one."""
    return value if text == text_of(value) else (text or "").encode()
