"""The journal in PostgreSQL: part of `server/test durable`.

Rows are damaged behind the server's back, and a server that was cut off is heard late: what it has asked for before
reaches PostgreSQL when its successor writes a checkpoint.
"""

import contextlib
import http.client
import os
import random
import select
import socket
import threading
import time

import psycopg2
from durable_damage import loaded
from durable_servers import DurableServer, refused
from machine import Postgres, Program, Room, free_port, wait_for

Row = tuple[str, int, int, bytes]  # kind, series, piece, bytes


class Rows:
    """The rows of a journal in PostgreSQL, behind the server's back."""

    def __init__(self, dsn: str):
        self.database = psycopg2.connect(dsn)
        self.database.autocommit = True

    def all(self) -> list[Row]:
        with self.database.cursor() as cursor:
            cursor.execute("SELECT kind, series, piece, bytes FROM ripsawbean_journal ORDER BY kind, series, piece")
            return [(kind, series, piece, bytes(data)) for kind, series, piece, data in cursor.fetchall()]

    def set(self, rows: list[Row]) -> None:
        with self.database.cursor() as cursor:
            cursor.execute("DELETE FROM ripsawbean_journal")
            cursor.executemany("INSERT INTO ripsawbean_journal VALUES (%s, %s, %s, %s)", rows)


def damaged_rows(rows: list[Row], dice: random.Random) -> tuple[str, list[Row], str]:
    """What is done to a row, all rows behind it, and a part of what has to be said."""
    full = [at for at, row in enumerate(rows) if row[3]]
    at = dice.choice(full)
    kind, series, piece, data = rows[at]
    name = "%s-%06d in PostgreSQL" % (kind, series)
    is_last = kind == "journal" and (series, piece) == max(row[1:3] for row in rows if row[0] == "journal")
    what = dice.choice(["flipped", "cut", "gone", "swapped"])
    if what == "flipped":
        place = dice.randrange(len(data))
        data = data[:place] + bytes([data[place] ^ 1 << dice.randrange(8)]) + data[place + 1 :]
        return what, rows[:at] + [(kind, series, piece, data)] + rows[at + 1 :], name + " is damaged at byte"
    if what == "cut":
        return what, rows[:at] + [(kind, series, piece, data[: dice.randrange(1, len(data))])] + rows[at + 1 :], name
    if what == "swapped" and at + 1 in full and rows[at + 1][:2] == (kind, series):
        other = rows[at + 1]
        return what, rows[:at] + [(kind, series, piece, other[3]), (*other[:3], data)] + rows[at + 2 :], name
    if is_last:
        return damaged_rows(rows, dice)  # a beginning, which is right
    return "gone", rows[:at] + rows[at + 1 :], "%s-%06d" % (kind, series)


def test_damaged_rows(room: Room, dice: random.Random) -> list[str]:
    """A row that is changed, cut, gone or in another's place is refused by its series, and nothing is changed."""
    postgres = room.start(Postgres(room.path))
    server = room.start(DurableServer(room, place_at(postgres.port), "--checkpoint-bytes", "3000", "--history", "0.1"))
    loaded(room, server, 60)
    rows = Rows(postgres.dsn)
    wait_for(lambda: any(row[0] == "finished" for row in rows.all()), "a checkpoint")
    time.sleep(1)
    loaded(room, server, 12)
    server.kill()
    whole, faults = rows.all(), []
    for _ in range(60):
        what, damaged, wanted = damaged_rows(whole, dice)
        rows.set(damaged)
        said = refused(server)
        if wanted not in said or "Nothing was changed" not in said:
            faults.append("a row was %s: %s, and not %s" % (what, said[-300:], wanted))
        if rows.all() != damaged:
            faults.append("a row was %s, and rows were changed" % what)
    rows.set(whole)
    server.start()
    if "=> value 11\n" not in server.call("begin\nget . key4\n"):
        faults.append("the row that was written last isn't there")
    with contextlib.closing(rows.database):
        return faults


def test_a_later_owner(room: Room, dice: random.Random) -> list[str]:
    """A server behind which another one has begun writes nothing more, acknowledges nothing, and ends."""
    postgres = room.start(Postgres(room.path))
    server = room.start(DurableServer(room, place_at(postgres.port)))
    loaded(room, server, 5)
    rows, faults = Rows(postgres.dsn), []
    before = rows.all()
    with contextlib.closing(rows.database), rows.database.cursor() as cursor:
        cursor.execute("UPDATE ripsawbean_owner SET epoch = epoch + 1")
        with contextlib.suppress(OSError, http.client.HTTPException):
            faults.append("it answers: " + server.call("begin\nput . late 1\ncommit .\n"))
        wait_for(server.has_ended, "the server's end")
        if "another server has taken over" not in server.words():
            faults.append(server.tail())
        if rows.all() != before:
            faults.append("it has written")
    return faults


# ---- checkpoints

class Late(threading.Thread):
    """A way to PostgreSQL on which all but the first connection is slow: what it is to execute is held back."""

    def __init__(self, port: int):
        super().__init__(daemon=True)
        self.to, self.listening = port, socket.create_server(("127.0.0.1", 0))
        self.port = self.listening.getsockname()[1]
        self.is_held, self.is_free, self.is_told = threading.Event(), threading.Event(), threading.Event()
        self.start()

    def run(self) -> None:
        for count in range(100):
            client, _ = self.listening.accept()
            server = socket.create_connection(("127.0.0.1", self.to))
            threading.Thread(target=self.carry, args=(client, server, count > 0), daemon=True).start()

    def carry(self, client: socket.socket, server: socket.socket, is_late: bool) -> None:
        while True:
            for one in select.select([client, server], [], [])[0]:
                data = self.read(one)
                # Of a query, or of a statement that was prepared.
                if is_late and one is client and data[:1] in (b"Q", b"B"):
                    return self.hold(client, server, data)
                if not data:
                    client.close()
                    server.close()
                    return None
                (server if one is client else client).sendall(data)

    @staticmethod
    def read(one: socket.socket) -> bytes:
        try:
            return one.recv(65536)
        except OSError:
            return b""

    def hold(self, client: socket.socket, server: socket.socket, data: bytes) -> None:
        self.is_held.set()
        while more := self.read(client):
            data += more
        self.is_free.wait()
        server.sendall(data)
        server.shutdown(socket.SHUT_WR)
        while self.read(server):
            pass
        self.is_told.set()


def place_at(port: int) -> str:
    return "postgresql://test@127.0.0.1:%d/postgres" % port


def on_rows(rows: Rows, when: str, what: str) -> None:
    """Something else that happens to rows as they are written."""
    with rows.database.cursor() as cursor:
        cursor.execute("CREATE FUNCTION meddle() RETURNS trigger LANGUAGE plpgsql AS $$ BEGIN %s; RETURN NEW; END $$" % what)
        cursor.execute("CREATE TRIGGER meddles %s FOR EACH ROW EXECUTE FUNCTION meddle()" % when)


def unfinished(rows: Rows) -> list[Row]:
    all_rows = rows.all()
    finished = {series for kind, series, _, _ in all_rows if kind == "finished"}
    return [row for row in all_rows if row[0] == "checkpoint" and row[1] not in finished]


def test_a_late_statement(room: Room, dice: random.Random) -> list[str]:
    """What a server has sent that was cut off changes nothing of its successor's checkpoint."""
    postgres = room.start(Postgres(room.path))
    late = Late(postgres.port)
    first = room.start(DurableServer(room, place_at(late.port), "--checkpoint-bytes", "9000"))
    second = DurableServer(room, place_at(postgres.port), "--checkpoint-bytes", "9000")
    room.programs.append(second)
    Program.start(second)
    rows, number = Rows(postgres.dsn), 0
    with contextlib.closing(rows.database):
        while not late.is_held.is_set():
            loaded(room, first, 10)
        on_rows(rows, "BEFORE INSERT ON ripsawbean_journal", "IF NEW.kind = 'finished' THEN PERFORM pg_sleep(4); END IF")
        with rows.database.cursor() as cursor:
            cursor.execute("SELECT pg_terminate_backend(pid) FROM pg_locks WHERE locktype = 'advisory' AND granted")
        wait_for(first.has_ended, "the first server's end")
        second.identity = wait_for(second.told_identity, "the second server")
        while not number or not unfinished(rows):
            second.call("begin\nput . number %d\ncommit .\n" % number)
            number += 1
        late.is_free.set()
        late.is_told.wait()
        wait_for(lambda: not unfinished(rows), "the second server's checkpoint")
        time.sleep(1)
        second.kill()
        second.start()
        told = second.call("begin\nget . number\n")
        return [] if "=> value %d\n" % (number - 1) in told else ["%d was acknowledged: %s" % (number - 1, told)]


def test_a_checkpoint_that_lacks_a_piece(room: Room, dice: random.Random) -> list[str]:
    """It isn't finished, what is older stays, and what was written of it goes."""
    faults = []
    gone = "DELETE FROM ripsawbean_journal WHERE kind = 'checkpoint'"
    for when, what, wanted in (
        ("AFTER INSERT ON ripsawbean_journal", "IF NEW.kind = 'checkpoint' THEN %s; END IF" % gone, "has 0 of its 1 pieces"),
        ("BEFORE INSERT ON ripsawbean_journal", "IF NEW.kind = 'finished' THEN RAISE 'not now'; END IF", "not now"),
    ):
        postgres = room.start(Postgres(room.path))
        server = room.start(DurableServer(room, place_at(postgres.port), "--checkpoint-bytes", "9000"))
        rows = Rows(postgres.dsn)
        on_rows(rows, when, what)
        with contextlib.closing(rows.database):
            while wanted not in server.words():
                loaded(room, server, 10)
            server.call("begin\nput . last 1\ncommit .\n")
            wait_for(lambda: not unfinished(rows), "the end of what was written")
            server.kill()
            server.start()
            if "=> value 1\n" not in server.call("begin\nget . last\n"):
                faults.append("%s: the row that was written last isn't there" % wanted)
        server.kill()
        postgres.kill()
        os.rename(postgres.data, postgres.data + wanted[:1])
    return faults


TESTS = (test_damaged_rows, test_a_later_owner, test_a_late_statement, test_a_checkpoint_that_lacks_a_piece)
