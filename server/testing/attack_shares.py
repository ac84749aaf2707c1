"""One client takes whatever it gets, with a token that may read alone where that is enough. Another one's requests are
all served meanwhile, and so are an operator's.

Each function is a test. It gets a room, and how heavy the load is to be.
"""

import contextlib
import json
import threading
import time
from collections.abc import Callable, Iterator

from attack_beside import Scale
from attack_tokens import CONSUME, OPERATE, PART, READ, WRITE, shown, with_tokens
from beside import others_wait_little
from handmade import Refused, Session, Wire, bearer
from machine import Room, Server, wait_for

SECONDS = 3.0  # how long the other one asks beside the taker
SOON = 5.0  # seconds within which a feed is told, on a machine that is busy with much else
KILOBYTE = 1 << 10


def started_of(answer: str) -> int:
    """The timestamp of the first transaction that began."""
    return int(answer.split(" => started")[0].rpartition(" ")[2])


def fill(server: Server, rows: int, size: int) -> None:
    """Rows of so many bytes, written by the other one."""
    some = min(1000, 800_000 // size)
    for first in range(0, rows, some):
        puts = "".join("put . k%06d %s\n" % (row, "x" * size) for row in range(first, min(first + some, rows)))
        assert "=> committed" in server.ask("POST", "/call", ("begin\n%scommit .\n" % puts).encode(), shown(WRITE))[1]


def asked(port: int, count: int, path: str, token: str, more: str = "", method: str = "GET", body: bytes = b"") -> list[Wire]:
    """So many connections that have asked, and of which none reads."""
    wires = [Wire(port) for _ in range(count)]
    for one in wires:
        with contextlib.suppress(OSError):
            one.ask(method, path, bearer(token) + more, body)
    return wires


def told_of_feed(server: Server, token: str) -> float:
    """How long it takes from a commit to its row in a feed that begins before it."""
    with contextlib.closing(Wire(server.port)) as wire:
        wire.ask("GET", "/feed?lo=told&hi=tole", bearer(token))
        status, _ = wire.head()
        assert status == 200, status
        began = time.monotonic()
        assert server.ask("PUT", "/key/told", b"%f" % began, shown(token))[0] == 200
        wire.until(b'"updated"')
        return time.monotonic() - began


def others_are_served(server: Server, seconds: float = SECONDS) -> str:
    """Whatever another client and an operator ask is served, and a feed is told soon."""
    times, end, number = [], time.monotonic() + seconds, 0
    transaction = json.dumps({"then": [{"scan": ["k", "l"], "limit": 10}, {"put": "mine", "value": "1"}]}).encode()
    while time.monotonic() < end or not number:
        number += 1
        for method, path, body in (
            ("PUT", "/key/mine", b"1"), ("GET", "/key/mine", None), ("GET", "/rows?lo=k&limit=3000", None),
            ("POST", "/transact", transaction), ("POST", "/call", b"begin\nput . mine 1\ncommit .\n"),
            ("GET", "/holders", None),
        ):
            began = time.monotonic()
            headers = {**shown(WRITE), "Idempotency-Key": "other-%d-%s" % (number, method + path[:5].replace("/", "-"))}
            status, told = server.ask(method, path, body, headers)
            times.append(time.monotonic() - began)
            assert status == 200, (method, path, status, told)
        with contextlib.closing(Session(server.port, WRITE)) as session:
            assert "=> stats" in session.call("stats\n")
        assert server.ask("GET", "/healthz", None, {"Authorization": ""})[0] == 200
        for path in ("/", "/state", "/metrics"):
            assert server.ask("GET", path, None, shown(OPERATE))[0] == 200, path
        assert "=> stats" in server.ask("POST", "/call", b"stats\n", shown(OPERATE))[1]
    waited = told_of_feed(server, WRITE)
    assert waited < SOON, "a feed was told behind %.1f s" % waited
    times.sort()
    return "%d requests, p99 %.0f ms, a feed %.0f ms" % (len(times), 1000 * times[len(times) * 99 // 100], 1000 * waited)


@contextlib.contextmanager
def all_closed(wires: list[Wire]) -> Iterator[None]:
    try:
        yield
    finally:
        for one in wires:
            one.reset()


def test_connections_of_reads_that_wait(room: Room, scale: Scale) -> str:
    """Each waits for a transaction of the taker's own, so none is silent."""
    with with_tokens(room) as (server, _), contextlib.closing(Session(server.port, READ)) as session:
        path = "/key/k?at=%d&wait=30" % started_of(session.call("begin\n"))
        with all_closed(asked(server.port, 560, path, READ)):
            time.sleep(1)
            for _ in range(20):
                assert server.ask("PUT", "/key/mine", b"1", shown(WRITE))[0] == 200
                assert server.ask("GET", "/key/mine", None, shown(WRITE))[0] == 200
                assert server.ask("GET", "/healthz", None, {"Authorization": ""})[0] == 200
            session.call("abort .\n")
            return others_are_served(server)


def test_sessions(room: Room, scale: Scale) -> str:
    with with_tokens(room) as (server, _):
        taken: list[Wire] = []
        with contextlib.suppress(Refused):
            while len(taken) < 64:
                taken.append(Session(server.port, READ))
        with all_closed(taken):
            return "%d sessions, %s" % (len(taken), others_are_served(server))


def test_feeds(room: Room, scale: Scale) -> str:
    with with_tokens(room) as (server, _):
        wires = asked(server.port, 256, "/feed", READ)
        with all_closed(wires):
            count = [one.head()[0] for one in wires].count(200)
            return "%d feeds, %s" % (count, others_are_served(server))


def test_names(room: Room, scale: Scale) -> str:
    """Here the taker is a consumer, and others come with a name."""
    with with_tokens(room) as (server, _):
        said = "?identity=%s&generation=0&stored=0" % server.identity
        statuses = [server.ask("POST", "/consumer/c%d%s" % (number, said), None, shown(CONSUME))[0] for number in range(1024)]
        for name, token in (("mine", OPERATE), ("part", PART)):
            assert server.ask("POST", "/consumer/%s%s" % (name, said), None, shown(token))[0] == 200, name
        return "%d names, %s" % (statuses.count(200), others_are_served(server))


def test_answers_that_are_not_read(room: Room, scale: Scale) -> str:
    with with_tokens(room) as (server, _):
        fill(server, 1000, KILOBYTE)
        with all_closed(asked(server.port, 70, "/rows?limit=560", READ)):
            time.sleep(1)
            return others_are_served(server)


def test_answers_that_are_remembered(room: Room, scale: Scale) -> str:
    """Long reads with keys, and as many keys of a writer as it gets: others' payments are done, and done once."""
    with with_tokens(room) as (server, _):
        fill(server, 1000, 6 * KILOBYTE)
        read = json.dumps({"then": [{"scan": ["k", "l"], "limit": 1000}]}).encode()
        for number in range(12):
            status, _ = server.ask("POST", "/transact", read, {**shown(READ), "Idempotency-Key": "read-%d" % number})
            assert status == 200, status
        write = json.dumps({"then": [{"put": "paid", "value": "1"}, {"scan": ["k", "l"], "limit": 600}]}).encode()
        key = {**shown(WRITE), "Idempotency-Key": "paid"}
        first, again = (json.loads(server.ask("POST", "/transact", write, key)[1]) for _ in range(2))
        assert first["timestamp"] == again["timestamp"] and len(first["results"][1]["rows"]) == 600, again
        assert again["results"] is None and len(again["digest"]) == 64, again
        return others_are_served(server)


def test_long_reads(room: Room, scale: Scale) -> str:
    """Each waits for the lane. Others' long reads wait for one of them, and closing and ages for none."""
    with with_tokens(room, "--max-age", "3") as (server, _):
        fill(server, 30_000, 10)
        read = json.dumps({"then": [{"scan": ["k", "l"], "limit": 10000}] * 3}).encode()
        over = threading.Event()

        def reads() -> None:
            while not over.is_set():
                server.ask("POST", "/transact", read, shown(READ))

        threads = [threading.Thread(target=reads) for _ in range(62)]
        for one in threads:
            one.start()
        try:
            told, waited = others_are_served(server), max(told_of_feed(server, WRITE) for _ in range(3))
            assert waited < SOON, "a feed was told behind %.1f s" % waited
            with contextlib.closing(Session(server.port, WRITE)) as session:
                session.call("begin\n")
                began = time.monotonic()
                wait_for(lambda: all(one["seat"] == 63 for one in server.holders("transaction")), "its age")
                age = time.monotonic() - began
            assert age < 3 + SOON, "a transaction was aborted behind %.1f s" % age
            return "%s, then %.0f ms, an abort behind %.1f s" % (told, 1000 * waited, age)
        finally:
            over.set()
            for one in threads:
                one.join()


def beside_reader(room: Room, kind: str, count: int) -> str:
    with with_tokens(room) as (server, _):
        fill(server, 1000, KILOBYTE)
        return others_wait_little(room, server, kind, str(count), READ, ask="put", token=WRITE)


def test_many_short_transactions(room: Room, scale: Scale) -> str:
    """Each has the lock for 2 milliseconds. Others wait for a few of them, and not for all that are ready."""
    return beside_reader(room, "short_plans", 380)


def test_many_short_pages(room: Room, scale: Scale) -> str:
    return beside_reader(room, "short_pages", 47)


def test_transactions_that_only_read(room: Room, scale: Scale) -> str:
    """Two sessions, of which one has always begun: others' rows are told all the same."""
    with with_tokens(room, "--max-age", "60") as (server, _):
        over = threading.Event()

        def begins_in_turn() -> None:
            with contextlib.closing(Session(server.port, READ)) as one, contextlib.closing(Session(server.port, READ)) as other:
                while not over.is_set():
                    one.call("begin\n")
                    other.call("abort .\n")
                    over.wait(2 * SOON)
                    one, other = other, one

        holds = threading.Thread(target=begins_in_turn)
        holds.start()
        try:
            time.sleep(1)
            waited = max(told_of_feed(server, WRITE) for _ in range(3))
            assert waited < SOON, "a feed was told behind %.1f s" % waited
            return "a feed %.0f ms" % (1000 * waited)
        finally:
            over.set()
            holds.join()


def test_names_behind_restarts(room: Room, scale: Scale) -> str:
    """A client has its share of names behind each restart."""
    with with_tokens(room, "--max-consumers", "8", "--data", room.file("data")) as (server, path):
        for life in range(3):
            said = "?identity=%s&generation=0&stored=0" % server.identity
            statuses = [server.ask("POST", "/consumer/c%d%s" % (number, said), None, shown(WRITE))[0] for number in range(8)]
            assert statuses == [200] * 6 + [429] * 2, (life, statuses)
            server.kill()
            server.start()
        assert server.ask("POST", "/consumer/mine" + said, None, shown(OPERATE))[0] == 200
        return "6 names of 8, behind 3 restarts"


TESTS: list[Callable[[Room, Scale], str]] = [one for name, one in list(globals().items()) if name.startswith("test_")]
