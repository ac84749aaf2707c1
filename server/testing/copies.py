"""Copies in Redis, SQLite and PostgreSQL are compared with the database while writers and consumers go on, and changes
go to a webhook. Each function is a test, as in `edges`.
"""

import contextlib
import http.server
import json
import sqlite3
import subprocess
import sys
import threading
import time

import psycopg2
import redis

from edges import put, rows_at, settled
from machine import CONSUMER, Postgres, Redis, Server, wait_for
from ripsawbean_consumers.postgres_replica import Table
from ripsawbean_consumers.redis_cache import Cache
from ripsawbean_consumers.search_index import Index

SPAN = ("key/", "still0")
STILL = 3000  # rows that nobody writes any more: some pages of each side
MOVING = 2000
LOST, WRONG, EXTRA = b"still/00007", b"still/01234", b"still/more"


class Writers(threading.Thread):
    """Rows of the span change as fast as the server takes them, until it is closed."""

    def __init__(self, server):
        super().__init__()
        self.server, self.is_over, self.count = server, False, 0

    def run(self):
        while not self.is_over:
            self.count += 1
            some = range(self.count * 20, self.count * 20 + 20)
            rows = ["put . key/%d %d\n" % (at % MOVING, at) for at in some]
            self.server.call("".join(["begin\n", *rows, "del . key/%d\n" % (some[-1] % MOVING), "commit .\n"]))

    def __enter__(self):
        self.start()
        return self

    def __exit__(self, *_):
        self.is_over = True
        self.join()


def still(server):
    lines = ["begin\n"] + ["put . still/%05d %d\n" % (at, at) for at in range(STILL)] + ["commit .\n"]
    server.call("".join(lines))


def compared(kind, server, name, target, span=SPAN):
    """Status, differences by key, and what is said to people."""
    words = [sys.executable, "-B", CONSUMER, kind, server.url, name, target, *span, "--compare"]
    done = subprocess.run(words, capture_output=True, text=True, timeout=300)
    return done.returncode, {one["key"].encode(): one for one in map(json.loads, done.stdout.splitlines())}, done.stderr


def is_the_same(told):
    status, differences, words = told
    assert (status, differences) == (0, {}) and ": 0 differ." in words, told
    return int(words.rpartition(": 0 differ. ")[2].split()[0])


def finds_what_is_planted(told):
    status, differences, words = told
    found = {key: (one["database"], one["copy"]) for key, one in differences.items()}
    assert status == 1 and ": 3 differ." in words, told
    assert found == {LOST: ("7", None), WRONG: ("1234", "1235"), EXTRA: (None, "1")}, told


def compare_copy(room, kind, name, target, make, plant):
    """A copy is the same while it changes, and what is planted in it is found, each time."""
    server = room.start(Server(room.path))
    still(server)
    room.start(room.script(name, kind, server.url, name, target, *SPAN))
    put(server, 50, keys=2000)
    wait_for(lambda: place_of(make), "the first rows")
    with Writers(server) as writers:
        again = [is_the_same(compared(kind, server, name, target)) for _ in range(3)]
        plant()
        finds_what_is_planted(compared(kind, server, name, target))
        finds_what_is_planted(compared(kind, server, name, target))
    assert writers.count > 0 and sum(again) > 0, "nothing has changed meanwhile: %d, %s" % (writers.count, again)
    status, _, words = compared(kind, server, name, target, span=("key/", "key0"))
    assert status == 1, "rows beside the span aren't found: " + words
    room.programs[-1].kill()
    assert compared(kind, Server(room.path), name, target)[0] == 2, "no server answers, and the copies are the same"


def place_of(make):
    with contextlib.closing(make()) as target:
        return target.load()


def test_a_cache_in_redis_is_compared_under_writes(room, _):
    target = room.start(Redis(room.path))

    def plant():
        with contextlib.closing(redis.Redis.from_url(target.url)) as db:
            db.hdel("cache:rows", LOST)
            db.hset("cache:rows", mapping={WRONG: "1235", EXTRA: "1"})
    compare_copy(room, "redis", "cache", target.url, lambda: Cache(target.url, "cache"), plant)


def test_a_replica_in_postgresql_is_compared_under_writes(room, _):
    target = room.start(Postgres(room.path))

    def plant():
        with contextlib.closing(psycopg2.connect(target.dsn)) as db, db, db.cursor() as cursor:
            cursor.execute("DELETE FROM ripsawbean WHERE key = %s", (LOST,))
            cursor.execute("UPDATE ripsawbean SET value = '1235' WHERE key = %s", (WRONG,))
            cursor.execute("INSERT INTO ripsawbean VALUES (%s, '1')", (EXTRA,))
    compare_copy(room, "postgresql", "replica", target.dsn, lambda: Table(target.dsn), plant)


def test_an_index_in_sqlite_is_compared_under_writes(room, _):
    file = room.file("copy.db")

    def plant():
        """The index may be wrong where the rows beside it are right."""
        with contextlib.closing(sqlite3.connect(file, timeout=60)) as db, db:
            db.execute("DELETE FROM document WHERE key = ?", (LOST,))
            db.execute("UPDATE body SET text = '1235' WHERE rowid = (SELECT id FROM document WHERE key = ?)", (WRONG,))
            at = db.execute("INSERT INTO document (key, value) VALUES (?, ?)", (EXTRA, b"1")).lastrowid
            db.execute("INSERT INTO body (rowid, text) VALUES (?, '1')", (at,))
    compare_copy(room, "sqlite", "index", file, lambda: Index(file), plant)


class Receiver(http.server.BaseHTTPRequestHandler):
    """Keeps what is posted, and answers every fifth request 500, having kept it or not."""

    def do_POST(self):
        body = json.loads(self.rfile.read(int(self.headers["Content-Length"])))
        self.server.count += 1
        status = self.server.status or (500 if self.server.count % 5 == 0 else 204)
        if status == 204 or self.server.count % 2:
            self.server.bodies.append(body)
        self.send_response(status)
        self.send_header("Content-Length", "0")
        self.end_headers()

    def log_message(self, *_):
        pass


def test_a_webhook_has_each_change(room, server):
    """At least once, in order but for repeats, over a crash of the consumer and refusals of the receiver."""
    receiver = http.server.HTTPServer(("127.0.0.1", 0), Receiver)
    receiver.count, receiver.status, receiver.bodies = 0, 0, []
    threading.Thread(target=receiver.serve_forever, daemon=True).start()
    still(server)
    url = "http://127.0.0.1:%d/changes" % receiver.server_port
    hook = room.start(room.script("hook", "webhook", server.url, "hook", url, "key/", "still0", cwd=room.path))
    for _ in range(10):
        put(server, 10, keys=30)
        time.sleep(0.2)
        hook.kill()
        hook.start()
    wanted = rows_at(server, server.closed(), *SPAN)
    wait_for(lambda: rows_told(receiver.bodies) == wanted, "all changes")
    assert max(len(body["changes"]) for body in receiver.bodies) == 1000, "a batch comes in parts"
    receiver.status = 409
    put(server, 10)
    wait_for(hook.has_ended, "the consumer to end")
    assert hook.child.returncode == 5, hook.tail()
    receiver.shutdown()


def rows_told(bodies):
    """The rows of a receiver that takes the newest of each key."""
    rows = {}
    for body in list(bodies):
        rows = {} if body["reset"] else rows
        for change in body["changes"]:
            value, at = change["value"], int(change["timestamp"])
            if at >= rows.get(change["key"], (0, None))[0]:
                rows[change["key"]] = at, value
    return {key.encode(): value.encode() for key, (_, value) in rows.items() if value is not None}


TESTS = [one for name, one in list(globals().items()) if name.startswith("test_")]
