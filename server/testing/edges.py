"""Readers that are slow, connections that are cut, lines that are half or huge, more sessions than seats, a full disk.

Each function is a test. It gets a server that has just started, and the room where it may start more.
"""

import asyncio
import contextlib
import json
import random
import re
import resource
import signal
import socket
import struct
import threading
import time

import aiohttp

from ledger import Ledger
from machine import LONGEST, Postgres, Redis, Server, wait_for
from ripsawbean import Event
from ripsawbean_consumers.postgres_replica import Table
from ripsawbean_consumers.redis_cache import Cache
from ripsawbean_consumers.search_index import Index

OPTIONS = ("--max-age", "2", "--history", "0.2", "--max-lag", "20000")
SEATS = 49  # of 64: what one client has that may operate
LAST = re.compile(rb'\{"end":.*\}\n')  # the message with which a stream ends


def put(server, count, size=100, keys=50):
    """Transactions of ten rows each, over few keys."""
    for at in range(0, count, 50):
        lines = []
        for number in range(at, min(at + 50, count)):
            lines.append("begin\n")
            lines += ["put . key/%d %d.%s\n" % ((number * 10 + row) % keys, number, "x" * size) for row in range(10)]
            lines.append("commit .\n")
        answers = server.call("".join(lines))
        assert answers.count("=> committed 10\n") == min(50, count - at), answers[-300:]


def rows_at(server, timestamp, lo="-", hi="-"):
    return dict(Event(server.call("scanat %d %s %s\n" % (timestamp, lo, hi))).rows)


def settled(server, make):
    """Waits until a target has all that is closed, and compares it with the scan at its own place."""
    def has_all():
        with contextlib.closing(make()) as target:
            return dict(target.rows()) == rows_at(server, server.closed()) and target.load()

    wait_for(has_all, "the consumer to have all")
    with contextlib.closing(make()) as target:
        place, rows = target.load(), dict(target.rows())
    assert rows_at(server, place.timestamp) == rows


def talk(work):
    """Runs work(client) with an HTTP client that opens as many connections as it is asked for."""
    async def run():
        timeout = aiohttp.ClientTimeout(total=LONGEST)
        async with aiohttp.ClientSession(connector=aiohttp.TCPConnector(limit=0), timeout=timeout) as client:
            return await work(client)
    return asyncio.run(run())


async def asked(socket, lines):
    await socket.send_str(lines)
    return await socket.receive()


def test_sessions_of_one_client_and_one_more(room, server):
    async def work(client):
        sockets = [await client.ws_connect(server.url + "/session") for _ in range(SEATS)]
        answers = [await asked(one, "begin\nput . seat/%d x\ncommit .\n" % at) for at, one in enumerate(sockets)]
        assert all("=> committed 1\n" in one.data for one in answers)
        try:
            await client.ws_connect(server.url + "/session")
            raise AssertionError("a client has more than its share")
        except aiohttp.WSServerHandshakeError as refused:
            assert refused.status == 503
        async with client.post(server.url + "/call", data="stats\n") as response:
            assert response.status == 503 and json.loads(await response.text())["error"] == "seats"
        await sockets[7].close()
        async with client.ws_connect(server.url + "/session") as one:
            assert "=> stats" in (await asked(one, "stats\n")).data
        for one in sockets:
            await one.close()
    talk(work)
    assert len(rows_at(server, server.closed(), "seat/", "seat0")) == SEATS


def test_connections_that_are_cut(room, server):
    """Nothing of a session outlives its connection, however that ends: closed, or reset in the middle of a line."""
    async def work(client):
        for is_reset in (False, True):
            await asyncio.to_thread(wait_for, lambda: is_closed(server), "closing")
            closed = server.closed()  # the horizon may stand there by now
            sockets = [await client.ws_connect(server.url + "/session") for _ in range(20)]
            for at, one in enumerate(sockets):
                told = (await asked(one, "begin\nput . cut/%d x\nopen - - %d\nprotect %d\n" % (at, closed, closed))).data
                assert "=> started" in told and "=> opened" in told and "=> protected" in told, told
            for one in sockets:
                if is_reset:
                    reset(one._response.connection.transport)
                else:
                    await one.close()
            await asyncio.to_thread(wait_for, lambda: not left(server), "sessions that are cut to leave nothing")
    talk(work)
    assert rows_at(server, server.closed(), "cut/", "cut0") == {}
    put(server, 10)


def reset(transport):
    """Half a frame, and then no good-bye."""
    transport.write(b"\x81\xfe")
    transport.get_extra_info("socket").setsockopt(socket.SOL_SOCKET, socket.SO_LINGER, struct.pack("ii", 1, 0))
    transport.abort()


def is_closed(server):
    (one,) = server.holders("server")
    return one["closed"] == one["greatest"]


def left(server):
    return [one for kind in ("transaction", "feed", "protection") for one in server.holders(kind)]


def test_half_lines(room, server):
    """A line without its end makes no call, and isn't glued to what comes next."""
    async def work(client):
        async with client.ws_connect(server.url + "/session") as one:
            told = (await asked(one, "begin\nput . half 12")).data.split("\n")
            assert told[0].endswith("=> started") and told[1].startswith("fault 2 7 nonewline "), told
            assert (await asked(one, "34\n")).data.startswith("fault 3 2 unknowncommand ")
            assert (await asked(one, "get . half\ncommit .\n")).data.count("=> none\n") == 1
            assert (await asked(one, "stats\r\n")).data.startswith("fault 6 9 badbyte ")
    talk(work)


def test_huge_lines(room, server):
    """A line that is too long is a fault, and a message that is too long ends its connection alone."""
    async def work(client):
        session = server.url + "/session"
        async with client.ws_connect(session) as other, client.ws_connect(session) as one:
            script = "".join("begin\nput . huge %s\ncommit .\n" % value for value in ("x" * 250000, "y" * 65536))
            lines = (await asked(one, script)).data.split("\n")
            assert lines[1].startswith("fault 2 8 linetoolong ") and lines[2].endswith("=> aborted"), lines[1][:200]
            assert lines[4].endswith("=> written") and lines[5].endswith("=> committed 1")
            with contextlib.suppress(OSError):  # the connection may end while it is still sent to
                assert (await asked(one, "x" * 3_000_000)).type is not aiohttp.WSMsgType.TEXT
            assert "=> stats" in (await asked(other, "stats\n")).data
            async with client.post(server.url + "/call", data="x" * 3_000_000) as response:
                assert response.status == 413
    talk(work)


def test_slow_readers(room, server):
    """A reader that stops is polled for no more, and told `lag` at last. It keeps back no others, and no horizon."""
    slow = socket.create_connection(("127.0.0.1", server.port))
    slow.setsockopt(socket.SOL_SOCKET, socket.SO_RCVBUF, 4096)
    slow.sendall(b"GET /feed HTTP/1.1\r\nHost: 127.0.0.1:%d\r\n\r\n" % server.port)
    fast = room.script("fast", "ledger.py", server.url, "fast", room.file("fast.db"))
    room.start(fast)
    before = memory_of(server)
    put(server, 4000)
    settled(server, lambda: Ledger(room.file("fast.db")))
    wait_for(lambda: len(server.holders("feed")) == 1, "the slow reader's feed to be cancelled")
    wait_for(lambda: int(server.holders("server")[0]["horizon"]) > 3000, "the horizon to move")
    taken = memory_of(server) - before >> 20
    assert taken < 100, "the server took %d MB for a slow reader" % taken
    told = all_of(slow)
    assert b'{"end":"lag"' in told[-200:], told[-200:]
    fast.kill()


def memory_of(server):
    with open("/proc/%d/statm" % server.child.pid) as file:
        return int(file.read().split()[1]) * resource.getpagesize()


def all_of(one):
    one.settimeout(10)
    told = bytearray()
    with contextlib.suppress(TimeoutError, ConnectionError):
        while data := one.recv(1 << 16):
            told += data
            if LAST.search(told[-200:]):
                break
    one.close()
    return bytes(told)


class Cutter(threading.Thread):
    """A proxy that ends each connection after a drawn number of bytes: in its headers, or in the middle of a line."""

    def __init__(self, port, seed):
        super().__init__(daemon=True)
        self.port, self.dice, self.cuts, self.is_over = port, random.Random(seed), 0, False
        self.listener = socket.create_server(("127.0.0.1", 0))
        self.host = b"127.0.0.1:%d" % self.listener.getsockname()[1]
        self.url = "http://" + self.host.decode()

    def run(self):
        with contextlib.suppress(OSError):
            while True:
                reader, room = self.listener.accept()[0], int(10 ** self.dice.uniform(1, 4.8))
                threading.Thread(target=self.carry, args=(reader, room), daemon=True).start()

    def carry(self, reader, room):
        with reader, socket.create_connection(("127.0.0.1", self.port)) as server, contextlib.suppress(OSError):
            server.sendall(reader.recv(1 << 16).replace(self.host, b"127.0.0.1:%d" % self.port))
            while data := server.recv(min(room, 1 << 14) if not self.is_over else 1 << 14):
                reader.sendall(data)
                room -= len(data)
                if room <= 0 and not self.is_over:
                    self.cuts += 1
                    break


def test_streams_that_are_cut(room, server):
    """A consumer whose connections end again and again, wherever they are, has each row once."""
    cutter = Cutter(server.port, 1)
    cutter.start()
    consumer = room.start(room.script("cut", "ledger.py", cutter.url, "cut", room.file("cut.db")))
    for _ in range(10):
        put(server, 100)
        time.sleep(0.3)
    cutter.is_over = True
    settled(server, lambda: Ledger(room.file("cut.db")))
    consumer.kill()
    cutter.listener.close()
    assert cutter.cuts >= 20, "only %d cuts" % cutter.cuts
    with contextlib.closing(Ledger(room.file("cut.db"))) as ledger:
        told = [(updated, key) for updated, key, _ in ledger.told()]
    assert told == sorted(set(told)), "a row came twice, or not in its order"


def test_full_disk(room, server):
    """A consumer whose disk is full stands still at a place that is right, and goes on once there is room."""
    for script, make in (("ledger.py", Ledger), ("sqlite", Index)):
        name = make.__name__.lower()
        file = room.file("full-%s.db" % name)
        consumer = room.start(room.script("full-" + name, script, server.url, name, file))
        put(server, 10)
        settled(server, lambda: make(file))
        with open(consumer.log) as log:
            said = len(log.read())
        resource.prlimit(consumer.child.pid, resource.RLIMIT_FSIZE, (300_000, resource.RLIM_INFINITY))
        put(server, 1000, size=300)
        wait_for(lambda: "Error" in consumer.words()[said:], "the disk of %s to be full" % name)
        with contextlib.closing(make(file)) as target:
            place, rows = target.load(), dict(target.rows())
        assert rows_at(server, place.timestamp) == rows and place.timestamp < server.closed()
        assert not consumer.has_ended()
        resource.prlimit(consumer.child.pid, resource.RLIMIT_FSIZE, (resource.RLIM_INFINITY, resource.RLIM_INFINITY))
        settled(server, lambda: make(file))
        consumer.kill()


def test_consumer_that_was_replaced(room, server):
    """Of two consumers of one name the older ends, also where it slept meanwhile, and it changes nothing."""
    file = room.file("two.db")
    older = room.start(room.script("older", "ledger.py", server.url, "two", file))
    put(server, 50)
    settled(server, lambda: Ledger(file))
    older.child.send_signal(signal.SIGSTOP)
    put(server, 50)
    newer = room.start(room.script("newer", "ledger.py", server.url, "two", file))
    settled(server, lambda: Ledger(file))
    older.child.send_signal(signal.SIGCONT)
    wait_for(older.has_ended, "the older consumer to end")
    assert older.child.returncode == 5 and "another consumer has the name two" in older.words(), older.words()
    put(server, 50)
    settled(server, lambda: Ledger(file))
    assert not newer.has_ended()
    newer.kill()


def test_many_consumers_of_one_name(room, server):
    """Of several that begin at once, with nothing stored and again with a place, exactly one is left and right."""
    file = room.file("many.db")
    put(server, 50)
    for turn in range(3):
        many = [room.script("many%d-%d" % (turn, at), "ledger.py", server.url, "many", file) for at in range(4)]
        for one in many:
            room.start(one)
        wait_for(lambda: sum(one.has_ended() for one in many) == 3, "three of four to end")
        put(server, 50)
        settled(server, lambda: Ledger(file))
        (left,) = [one for one in many if not one.has_ended()]
        left.kill()


def test_places_of_quiet_spans(room, server):
    """Cache, index and replica store what is closed elsewhere within some second, though no row of theirs comes."""
    redis, postgres, file = room.start(Redis(room.path)), room.start(Postgres(room.path)), room.file("quiet.db")
    targets = {
        "cache": ("redis", redis.url, lambda: Cache(redis.url, "cache")),
        "index": ("sqlite", file, lambda: Index(file)),
        "replica": ("postgresql", postgres.dsn, lambda: Table(postgres.dsn)),
    }
    for name, (script, target, _) in targets.items():
        room.start(room.script(name, script, server.url, name, target, "key/", "key0"))
    put(server, 10)
    for _, _, make in targets.values():
        settled(server, make)
    put(server, 1)
    time.sleep(0.5)
    server.call("begin\nput . other 1\ncommit .\n")
    last, began = server.closed(), time.monotonic()
    for name, (_, _, make) in targets.items():
        with contextlib.closing(make()) as target:
            wait_for(lambda: target.load().timestamp >= last, "the place of the %s" % name)
    assert time.monotonic() - began < 5, "it took %.1f seconds" % (time.monotonic() - began)


def test_horizon_waits_for_a_consumer_that_is_down(room, server):
    """It comes back where it was. Beyond --max-lag rows it is let go, and begins anew."""
    file = room.file("down.db")
    consumer = room.start(room.script("down", "ledger.py", server.url, "down", file))
    put(server, 10)
    settled(server, lambda: Ledger(file))
    consumer.kill()
    stored = int(server.holders("consumer")[-1]["stored"])
    put(server, 1000)
    time.sleep(2)
    assert int(server.holders("server")[0]["horizon"]) <= stored
    consumer.start()
    settled(server, lambda: Ledger(file))
    assert "begins anew" not in consumer.words()
    consumer.kill()
    put(server, 2100)
    wait_for(lambda: int(server.holders("server")[0]["horizon"]) > 3000, "the consumer to be let go")
    consumer.start()
    settled(server, lambda: Ledger(file))
    assert "begins anew" in consumer.words() and "belowhorizon" in consumer.words()
    consumer.kill()


def test_old_transactions_are_aborted(room, server):
    """An undecided transaction holds closing back until it is --max-age old."""
    async def work(client):
        async with client.ws_connect(server.url + "/session") as one:
            began = (await asked(one, "begin\nput . old x\n")).data
            timestamp = int(began.split(" ")[3])
            await asyncio.to_thread(put, server, 10)
            assert server.closed() == timestamp - 1
            await asyncio.to_thread(wait_for, lambda: server.closed() > timestamp, "closing to go on")
            assert "=> ended\n" in (await asked(one, "commit .\n")).data
    talk(work)
    assert b"old" not in rows_at(server, server.closed())


def test_transactions_of_a_silent_session_are_aborted(room, server):
    """With `idle` closing waits for a session that goes on, and no longer for one that is silent."""
    async def work(client):
        for query in ("idle=0", "idle=1.5", "idle=", "idle=1&idle=2", "max-idle=1"):
            try:
                await client.ws_connect(server.url + "/session?" + query)
                raise AssertionError("a session with %s" % query)
            except aiohttp.WSServerHandshakeError as refused:
                assert refused.status == 400, query
        server.kill()
        patient = room.start(Server(room.path, "--max-age", "600"))
        async with client.ws_connect(patient.url + "/session?idle=3") as silent, \
                client.ws_connect(patient.url + "/session?idle=3") as one, client.ws_connect(patient.url + "/session") as other:
            first, second, third = [(await asked(each, "begin\n")).data.split(" ")[3] for each in (silent, one, other)]
            for at in range(10):
                assert "=> written\n" in (await asked(one, "put . idle/%d x\n" % at)).data
                await asyncio.sleep(0.5)
            assert [each["timestamp"] for each in patient.holders("transaction")] == [second, third]
            assert patient.closed() == int(first)
            assert "=> ended\n" in (await asked(silent, "commit .\n")).data
            assert "=> committed 10\n" in (await asked(one, "commit .\n")).data
            assert "=> committed 0\n" in (await asked(other, "commit .\n")).data
    talk(work)


def test_places_that_lead_nowhere(room, server):
    """A place of another database, above closed, or without its identity is refused by name, not served in silence."""
    put(server, 10)
    other = "0" * len(server.identity)
    for query, status, error in (
        ("identity=%s&from=1" % other, 409, "identity"),
        ("from=1", 400, "identity"),
        ("identity=%s&from=99999" % server.identity, 409, "notclosed"),
        ("identity=%s&from=x" % server.identity, 400, "number"),
    ):
        answer = server.ask("GET", "/feed?" + query)
        assert (answer[0], json.loads(answer[1])["error"]) == (status, error), (query, answer)
    for query, status, error in (
        ("identity=%s&generation=0&stored=1" % other, 409, "identity"),
        ("identity=%s&generation=0&stored=99999" % server.identity, 409, "notclosed"),
        ("identity=%s&generation=7&stored=1" % server.identity, 409, "fenced"),
    ):
        answer = server.ask("POST", "/consumer/somebody?" + query)
        assert (answer[0], json.loads(answer[1])["error"]) == (status, error), (query, answer)


def test_strangers_are_kept_out(room, server):
    """A page of another site reaches nothing, and another address needs a token."""
    for headers in ({"Host": "evil.example"}, {"Origin": "http://evil.example"}, {"Origin": "null"}):
        assert server.ask("POST", "/call", b"stats\n", headers)[0] == 403, headers
    assert server.ask("POST", "/call", b"stats\n", {"Origin": server.url})[0] == 200
    open_to_all = Server(room.path, "--address", "0.0.0.0")
    try:
        open_to_all.start()
        raise AssertionError("it serves others without a token")
    except RuntimeError:
        assert open_to_all.child.returncode == 2


TESTS = [one for name, one in list(globals().items()) if name.startswith("test_")]
