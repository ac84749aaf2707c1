"""A replica in PostgreSQL.

The table `ripsawbean` has the rows, and `ripsawbean_place` says of which timestamp they are. Both change in one
transaction, so a reader at REPEATABLE READ sees the database as it was at that timestamp. Where values are JSON, a view
over `convert_from(value, 'UTF8')::jsonb` has their members as columns. It needs Debian's python3-psycopg2.
"""

import psycopg2
from psycopg2.extras import execute_values

from ripsawbean_client import Outrun, Place

FAILURES = (psycopg2.Error,)
TOGETHER = 1000  # rows that are read in one transaction
TABLES = """
    CREATE TABLE IF NOT EXISTS ripsawbean (key bytea PRIMARY KEY, value bytea NOT NULL);
    CREATE TABLE IF NOT EXISTS ripsawbean_place
        (one int PRIMARY KEY CHECK (one = 1), identity text, timestamp bigint, generation bigint);
"""
PUT = "INSERT INTO ripsawbean VALUES %s ON CONFLICT (key) DO UPDATE SET value = EXCLUDED.value"
ROWS = "SELECT key, value FROM ripsawbean WHERE key > %s ORDER BY key LIMIT %s"
GONE = "DELETE FROM ripsawbean WHERE key = ANY (%s)"
PLACE = ("INSERT INTO ripsawbean_place VALUES (1, %s, %s, %s) ON CONFLICT (one) DO UPDATE "
         "SET identity = EXCLUDED.identity, timestamp = EXCLUDED.timestamp, generation = EXCLUDED.generation")


def opened(dsn, name):
    return Table(dsn)


class Table:
    def __init__(self, dsn):
        self.db = psycopg2.connect(dsn)
        with self.db, self.db.cursor() as cursor:
            cursor.execute(TABLES)

    def load(self):
        with self.db, self.db.cursor() as cursor:
            return self.stored(cursor)

    def stored(self, cursor):
        cursor.execute("SELECT identity, timestamp, generation FROM ripsawbean_place")
        stored = cursor.fetchone()
        return Place(*stored) if stored else None

    def store(self, batch):
        after = {change.key: change.value for change in batch.changes}
        with self.db, self.db.cursor() as cursor:  # commits at its end, and rolls back where something is raised
            cursor.execute("LOCK TABLE ripsawbean_place IN EXCLUSIVE MODE")  # readers aren't kept waiting
            if self.stored(cursor) != batch.was:
                raise Outrun()
            if batch.reset:
                cursor.execute("DELETE FROM ripsawbean")
            execute_values(cursor, PUT, [pair for pair in after.items() if pair[1] is not None], page_size=1000)
            cursor.execute(GONE, ([key for key, value in after.items() if value is None],))
            cursor.execute(PLACE, batch.place)

    def rows(self):
        key, some = b"", None
        while some is None or len(some) == TOGETHER:
            with self.db, self.db.cursor() as cursor:
                cursor.execute(ROWS, (key, TOGETHER))
                some = cursor.fetchall()
            for key, value in some:
                yield bytes(key), bytes(value)

    def look(self, keys):
        with self.db, self.db.cursor() as cursor:
            cursor.execute("SET TRANSACTION ISOLATION LEVEL REPEATABLE READ")
            cursor.execute("SELECT key, value FROM ripsawbean WHERE key = ANY (%s)", (keys,))
            found = {bytes(key): bytes(value) for key, value in cursor}
            return self.stored(cursor), found

    def close(self):
        self.db.close()
