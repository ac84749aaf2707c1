"""A cache in Redis that is never wrong.

The hash NAME:rows has the rows, and the hash NAME:place says of which timestamp they are. Both change in one MULTI/EXEC,
so a reader that asks for both in one MULTI/EXEC sees the database as it was at that timestamp. Redis has to keep both or
neither: leave `maxmemory-policy` at `noeviction`. It needs Debian's python3-redis.
"""

import contextlib
import sqlite3

import redis

from ripsawbean_client import Outrun, Place

FAILURES = (redis.RedisError,)
TOGETHER = 1000  # rows that Redis is asked for at once


def opened(url, name):
    return Cache(url, name)


class Cache:
    def __init__(self, url, name):
        self.redis = redis.Redis.from_url(url)
        self.rows_name, self.place = name + ":rows", name + ":place"

    def load(self, connection=None):
        return place_of((connection or self.redis).hmget(self.place, Place._fields))

    def store(self, batch):
        after = {change.key: change.value for change in batch.changes}
        put = {key: value for key, value in after.items() if value is not None}
        gone = [key for key, value in after.items() if value is None]
        with self.redis.pipeline() as pipe:
            pipe.watch(self.place)  # EXEC does nothing where another consumer writes the place from here on
            if self.load(pipe) != batch.was:
                raise Outrun()
            pipe.multi()
            if batch.reset:
                pipe.delete(self.rows_name)
            if put:
                pipe.hset(self.rows_name, mapping=put)
            if gone:
                pipe.hdel(self.rows_name, *gone)
            pipe.hset(self.place, mapping=batch.place._asdict())
            pipe.execute()

    def rows(self):
        """Redis tells them in no order, and some twice: SQLite sorts them, in a file where they are many."""
        with contextlib.closing(sqlite3.connect("")) as sorter:
            sorter.execute("CREATE TABLE row (key BLOB PRIMARY KEY, value BLOB) WITHOUT ROWID")
            cursor = None
            while cursor != 0:
                cursor, some = self.redis.hscan(self.rows_name, cursor or 0, count=TOGETHER)
                sorter.executemany("INSERT OR REPLACE INTO row VALUES (?, ?)", some.items())
            yield from sorter.execute("SELECT key, value FROM row ORDER BY key")

    def look(self, keys):
        with self.redis.pipeline() as pipe:
            pipe.hmget(self.place, Place._fields)
            pipe.hmget(self.rows_name, keys)
            stored, values = pipe.execute()
        return place_of(stored), dict(zip(keys, values))

    def close(self):
        self.redis.close()


def place_of(stored):
    return None if None in stored else Place(stored[0].decode(), int(stored[1]), int(stored[2]))
