#!/usr/bin/python3
"""A consumer by the README alone: correct_consumer.py PORT NAME FILE LO HI [events] follows into a file of SQLite.

It shares no code with clients/consumer. With `events` it asks for server-sent events. Beside rows and place it
keeps a digest of all rows for each timestamp at which it stored, and each value that it was told.
"""

import base64
import hashlib
import http.client
import json
import sqlite3
import sys
import time
from collections.abc import Iterator, Mapping

TABLES = """
    PRAGMA journal_mode = WAL;
    CREATE TABLE IF NOT EXISTS place (one INTEGER PRIMARY KEY, identity TEXT, generation INTEGER, complete INTEGER);
    CREATE TABLE IF NOT EXISTS row (key BLOB PRIMARY KEY, value BLOB);
    CREATE TABLE IF NOT EXISTS stored
        (at INTEGER PRIMARY KEY, identity TEXT, generation INTEGER, complete INTEGER, digest TEXT);
    CREATE TABLE IF NOT EXISTS told (value BLOB);
"""
PAUSE = 0.1
OUTRUN = 5  # the status of a consumer that has ended because another has its name, as of those of examples/
SILENCE = 60
Row = tuple[int, bytes, bytes | None]


def digest_of(key: bytes, value: bytes) -> int:
    """Of one row. Those of several are put together by `^`, in any order."""
    return int.from_bytes(hashlib.blake2b(key + b"\0" + value, digest_size=8).digest(), "big")


class Outrun(Exception):
    """A later consumer has the name, or the place."""


class Again(Exception):
    """The stream has ended. It can be opened anew."""


class Consumer:
    def __init__(self, port: int, name: str, file: str, span: dict[str, str], wants_events: bool):
        self.port, self.name, self.span, self.wants_events = port, name, span, wants_events
        self.db = sqlite3.connect(file, isolation_level=None, timeout=30)
        self.db.executescript(TABLES)

    # ---- one stream

    def run(self) -> None:
        place = self.place()
        status, head, lines = self.ask_feed(place[0], place[2]) if place else (409, {}, iter(()))
        anew = status == 409
        if anew:
            if place:
                print("%s begins anew" % self.name, file=sys.stderr, flush=True)
            status, head, lines = self.ask_feed()
        if status != 200:
            raise Again(str(status))
        try:
            identity, generation = head["Ripsawbean-Identity"], int(head["Ripsawbean-Generation"])
            began = int(head["Ripsawbean-From"])
        except (KeyError, ValueError):
            raise Again("cut in its headers") from None
        self.take_over(identity, generation, began, anew)
        self.follow(lines, identity, generation, began)

    def follow(self, lines: Iterator[bytes], identity: str, generation: int, began: int) -> None:
        rows: list[Row] = []
        for line in lines:
            message = json.loads(line)
            if "end" in message:
                raise Outrun if message["end"] == "fenced" else Again(message["end"])
            if "resolved" in message:
                self.store(rows, identity, generation, int(message["resolved"]))
                rows = []
                continue
            updated = int(message["updated"])
            if len(rows) > 50 and updated > max(rows[-1][0], began):
                # The first row of a later timestamp: all before it was told.
                self.store(rows, identity, generation, updated - 1)
                rows = []
            after = message["after"]
            rows.append((updated, base64.b64decode(message["key"]), None if after is None else base64.b64decode(after)))
        raise Again("cut")

    def ask_feed(self, identity: str = "", place: int = 0) -> tuple[int, Mapping[str, str], Iterator[bytes]]:
        connection = http.client.HTTPConnection("127.0.0.1", self.port, timeout=SILENCE)
        query = "&".join("%s=%s" % item for item in self.span.items())
        if identity:
            query += "&identity=%s&from=%d" % (identity, place)
        headers = {"Accept": "text/event-stream"} if self.wants_events else {}
        connection.request("GET", "/feed?consumer=%s&%s" % (self.name, query), headers=headers)
        response = connection.getresponse()
        return response.status, response.headers, self.messages(response)

    def messages(self, response: http.client.HTTPResponse) -> Iterator[bytes]:
        name = b""
        for line in response:
            if not line.endswith(b"\n"):
                return  # cut in the middle of a line
            if not self.wants_events:
                if line != b"\n":
                    yield line
            elif line.startswith(b"event: "):
                name = line[7:-1]
            elif line.startswith(b"data: "):
                if name != b"opened":
                    yield line[6:]
                name = b""

    # ---- the place, in transactions of its own

    def place(self) -> tuple[str, int, int] | None:
        found: tuple[str, int, int] | None = self.db.execute(
            "SELECT identity, generation, complete FROM place WHERE complete IS NOT NULL").fetchone()
        return found

    def take_over(self, identity: str, generation: int, began: int, anew: bool) -> None:
        """On the condition that the identity there is another, or the generation lower."""
        with self.db:
            self.db.execute("BEGIN IMMEDIATE")
            there = self.db.execute("SELECT identity, generation, complete FROM place").fetchone()
            if there and there[0] == identity and there[1] >= generation:
                raise Outrun
            complete = None
            if anew:
                self.db.execute("DELETE FROM row")
            else:
                complete = there[2]
                if complete != began:
                    raise Again("another consumer has stored meanwhile")
            self.db.execute("INSERT OR REPLACE INTO place VALUES (1, ?, ?, ?)", (identity, generation, complete))

    def store(self, rows: list[Row], identity: str, generation: int, complete: int) -> None:
        """Rows and timestamp, on the condition that identity and generation are its own."""
        with self.db:
            self.db.execute("BEGIN IMMEDIATE")
            there = self.db.execute("SELECT identity, generation FROM place").fetchone()
            if there != (identity, generation):
                raise Outrun
            for _, key, value in rows:
                if value is None:
                    self.db.execute("DELETE FROM row WHERE key = ?", (key,))
                else:
                    self.db.execute("INSERT OR REPLACE INTO row VALUES (?, ?)", (key, value))
                    self.db.execute("INSERT INTO told VALUES (?)", (value,))
            digest = 0
            for key, value in self.db.execute("SELECT key, value FROM row"):
                digest ^= digest_of(key, value)
            self.db.execute("UPDATE place SET complete = ?", (complete,))
            self.db.execute("INSERT INTO stored (identity, generation, complete, digest) VALUES (?, ?, ?, ?)",
                            (identity, generation, complete, "%016x" % digest))
        self.acknowledge(identity, generation, complete)

    def acknowledge(self, identity: str, generation: int, complete: int) -> None:
        connection = http.client.HTTPConnection("127.0.0.1", self.port, timeout=SILENCE)
        query = "identity=%s&generation=%d&stored=%d" % (identity, generation, complete)
        connection.request("POST", "/consumer/%s?%s" % (self.name, query))
        response = connection.getresponse()
        told = response.read()
        connection.close()
        if response.status != 200:
            raise Outrun if b'"fenced"' in told else Again(told.decode())


def main(port: str, name: str, file: str, lo: str, hi: str, form: str = "") -> None:
    span = {bound: word for bound, word in (("lo", lo), ("hi", hi)) if word != "-"}
    said = ""
    while True:
        try:
            Consumer(int(port), name, file, span, form == "events").run()
        except Outrun:
            sys.exit(OUTRUN)
        except (OSError, http.client.HTTPException, Again, sqlite3.OperationalError) as why:
            if repr(why) != said:
                print("%s: %r" % (name, why), file=sys.stderr, flush=True)
            said = repr(why)
            time.sleep(PAUSE)


if __name__ == "__main__":
    main(*sys.argv[1:])
