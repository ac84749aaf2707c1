"""Clients that make the server keep much: bounds of its resident set, and limits that are told by name.

Each function is a test. It gets a room, and how heavy the load is to be.
"""

import contextlib
import itertools
import json
import threading
import time
from collections.abc import Callable, Iterator

from attack_beside import Scale
from beside import measure, running
from handmade import Cut, Session, Wire, fill
from machine import LONGEST, Room, Server, wait_for

MEGABYTE = 1 << 20
MOST = 512 * MEGABYTE  # of the resident set, beside values of 64 MB
LARGEST = "x" * 65_000  # a value nearly as long as one may be


def peak(server: Server) -> int:
    """The greatest resident set that the server has had, in bytes."""
    with open("/proc/%d/status" % server.child.pid) as lines:
        return next(int(line.split()[1]) for line in lines if line.startswith("VmHWM")) << 10


def resident(server: Server) -> int:
    with open("/proc/%d/status" % server.child.pid) as lines:
        return next(int(line.split()[1]) for line in lines if line.startswith("VmRSS")) << 10


def started(room: Room, *options: str, **more: object) -> Server:
    return room.start(Server(room.path, *options, **more))


@contextlib.contextmanager
def stopped_feeds(server: Server, count: int, path: str = "/feed") -> Iterator[list[Wire]]:
    """Feeds whose readers take nothing."""
    feeds = [Wire(server.port, little=True) for _ in range(count)]
    for one in feeds:
        one.ask("GET", path)
    wait_for(lambda: sum(one["streamed"] for one in server.holders("feed")) >= count, "the feeds to be open")
    try:
        yield feeds
    finally:
        for one in feeds:
            one.reset()


def commit_large(session: Session, rows: int, prefix: str) -> None:
    """One transaction of so many rows of 65 KB."""
    session.call("begin\n")
    messages = []
    for at in range(0, rows, 15):
        messages.append("".join("put . %s%05d %s\n" % (prefix, one, LARGEST) for one in range(at, min(at + 15, rows))))
    for answer in session.call_all(messages, 0):
        assert answer.count("=> written\n") == answer.count("\n"), answer[-300:]
    assert "=> committed %d\n" % rows in session.call("commit .\n")


def test_a_large_transaction_and_sixty_readers(room: Room, scale: Scale) -> str:
    """Thirty readers that stop and thirty that read on cost no buffers, and a small call doesn't wait for them."""
    server = started(room, "--max-age", "3600")  # a busy machine may take longer for the transaction than it may be old
    with stopped_feeds(server, 30), running(room, server, "readers", "30") as fast, Session(server.port).socket:
        session = Session(server.port)
        for at in range(40):  # small changes, after which a server may believe that it can ask for many messages
            session.call("begin\nput . small x\ncommit .\n")
            time.sleep(0.02)
        quiet = measure(server, 1.0)
        told: list[object] = []
        watch = threading.Thread(target=lambda: told.append(measure(server, 6.0)))
        watch.start()
        commit_large(session, 1000, "large/")
        began = time.monotonic()
        session.call("begin\nput . end/ x\ncommit .\n")
        wait_for(lambda: fast.is_ready() and fast.pieces() == 30, "thirty readers to be told all")
        took = time.monotonic() - began
        watch.join()
        found = peak(server)
    figures = "peak %d MB, told after %.1f s, small call: %s, quiet %s" % (found >> 20, took, told[0], quiet)
    assert found < MOST, figures
    return figures


def test_long_rows_behind_short_ones(room: Room, scale: Scale) -> str:
    """Two hundred readers that stop, of rows that are short at first: what waits for each is bounded in bytes."""
    server = started(room, "--keep-bytes", "1000000")
    session = Session(server.port)
    fill(session, "a", 2000)
    fill(session, "b", 300, LARGEST)
    before = peak(server)
    with stopped_feeds(server, 200):
        wait_for(lambda: all(one["waits"] for one in server.holders("feed")), "each reader to have no room")
        found = peak(server) - before
    assert found < 128 * MEGABYTE, "%d MB more" % (found >> 20)
    return "%d MB more" % (found >> 20)


def test_reports_that_nobody_reads(room: Room, scale: Scale) -> str:
    """Those of thousands of holders are refused by name once they take as much memory as they may."""
    server = started(room, "--heartbeat", "600")
    holders, bound = [Session(server.port) for _ in range(10)], "b" * 250
    for one in holders:
        told = one.call("begin\n" * 1000 + "protect 0\n" * 1000 + ("open %s - 0\n" % bound) * 1000)
        assert told.count("=> opened ") == 1000 and not faults(told), told[-300:]
    before, wires = peak(server), []
    for at in range(400):
        wires.append(Wire(server.port, little=True, timeout=20))
        wires[-1].ask("GET", ("/state", "/holders", "/metrics", "/consumer")[at % 4])
    latency = measure(server, 2.0, "get")
    statuses = [wire.head()[0] for wire in wires]
    found = peak(server) - before
    assert set(statuses) == {200, 503} and set(statuses[2::4] + statuses[3::4]) == {200}, statuses
    refused = next(wire for wire, status in zip(wires, statuses) if status == 503)
    assert b'"error":"reports"' in refused.until(b"\n"), bytes(refused.held)
    for wire in wires:
        wire.reset()
    wait_for(lambda: server.ask("GET", "/state")[0] == 200, "room for a report")
    figures = "%d MB more, %d of 400 told, others: %s" % (found >> 20, statuses.count(200), latency)
    assert found < 192 * MEGABYTE, figures
    return figures


def test_dumps_that_nobody_reads(room: Room, scale: Scale) -> str:
    """Two hundred of 64 MB each: those that there are have a bound together, and the others are refused by name."""
    server = started(room)
    fill(Session(server.port), "dumped/", 1000, LARGEST)
    wait_for(lambda: server.closed() > 0, "closing")
    before, wires = peak(server), []
    for _ in range(200):
        wires.append(Wire(server.port, little=True, timeout=20))
        wires[-1].ask("GET", "/dump")
    latency = measure(server, 2.0, "get")
    statuses = [wire.head()[0] for wire in wires]
    found = peak(server) - before
    for wire in wires:
        wire.reset()
    wait_for(lambda: not server.holders("protection"), "the dumps to end")
    figures = "%d MB more, %d of 200 told, others: %s" % (found >> 20, statuses.count(200), latency)
    assert set(statuses) == {200, 503} and found < 96 * MEGABYTE, figures
    return figures


def ask_without_reading(server: Server, line: str, count: int) -> list[Session]:
    """Sessions that have asked, and read no answer."""
    sessions = [Session(server.port, little=True) for _ in range(count)]
    for one in sessions:
        one.tell("begin\n" + line)
    return sessions


def test_answers_that_nobody_reads(room: Room, scale: Scale) -> str:
    """A scan of 130 MB that five sessions ask for is no 650 MB: --max-answer bounds each answer."""
    server = started(room)
    fill(Session(server.port), "large/", 2000, LARGEST)
    before = resident(server)
    sessions = ask_without_reading(server, "scan . large/ large0\n" * 3, 5)
    latency = measure(server, 3.0, "get")
    found = peak(server) - before
    for one in sessions:
        one.reset()
    figures = "%d MB more, others: %s" % (found >> 20, latency)
    assert found < 256 * MEGABYTE, figures
    return figures


def test_a_poll_of_all(room: Room, scale: Scale) -> str:
    """A poll of a session's own feed has the same bound, and tells the rest to the next polls."""
    server = started(room)
    session = Session(server.port)
    opened = session.call("open - - 0\n").split(" ")[-1].strip()
    fill(session, "large/", 2000, LARGEST)
    wait_for(lambda: server.closed() > 0, "closing")
    before, told = resident(server), 0
    for _ in itertools.repeat(None, 4000):
        answer = session.call("poll %s 9999999\n" % opened)
        told += answer.count('"key"')
        assert len(answer) < 40 * MEGABYTE, "an answer of %d MB" % (len(answer) >> 20)
        if '{"resolved"' in answer or "=> messages 0\n" in answer:
            break
    found = peak(server) - before
    assert told == 2000, "%d of 2000 rows were told" % told
    assert found < 256 * MEGABYTE, "%d MB more" % (found >> 20)
    return "%d MB more" % (found >> 20)


def test_bytes_behind_an_upgrade_are_not_kept(room: Room, scale: Scale) -> str:
    server = started(room)
    before = resident(server)
    with running(room, server, "behind_upgrade", "4"):
        time.sleep(5)
    found = peak(server) - before
    assert found < 64 * MEGABYTE, "%d MB more" % (found >> 20)
    return "%d MB more" % (found >> 20)


def test_frames_without_an_end_are_not_kept(room: Room, scale: Scale) -> str:
    server = started(room)
    before = resident(server)
    with running(room, server, "half_frames", "20"):
        time.sleep(4)
    found = peak(server) - before
    assert found < 96 * MEGABYTE, "%d MB more" % (found >> 20)
    return "%d MB more" % (found >> 20)


# ---- limits with a name

def faults(answer: str) -> list[list[str]]:
    return [line.split(" ")[2:4] for line in answer.split("\n") if line.startswith("fault ")]


def test_a_session_holds_no_more_than_it_may(room: Room, scale: Scale) -> str:
    """Beyond --max-held it is answered `toomany`, and takes new ones once it has ended old ones."""
    server = started(room, "--max-held", "5")
    for take, done, give in (
        ("begin\n", "=> started", "abort 1\n"), ("protect 0\n", "=> protected", "release 1\n"),
        ("open - - 0\n", "=> opened", "cancel 1\n"),
    ):
        session = Session(server.port)
        answer = session.call(take * 8)
        assert answer.count(done) == 5 and faults(answer) == [["68", "toomany"]] * 3, answer
        assert answer.split("\n")[5].startswith("fault 6 "), answer
        given = session.call(give)
        assert "=> aborted" in given or "=> released" in given or "=> cancelled" in given, given
        assert done in session.call(take), "there is room again"
        session.say_goodbye()
        wait_for(lambda: not any(server.holders(kind) for kind in ("transaction", "protection", "feed")), "its end")
    return "of transactions, protections and feeds"


def test_streams_have_a_limit(room: Room, scale: Scale) -> str:
    """Beyond --max-feeds one more is 503 `feeds`, and there is room again once one has ended."""
    server = started(room, "--max-feeds", "5")
    with stopped_feeds(server, 5) as feeds:
        status, told = server.ask("GET", "/feed")
        assert status == 503 and json.loads(told)["error"] == "feeds", (status, told)
        feeds.pop().reset()

        def is_told() -> bool:
            with contextlib.closing(Wire(server.port)) as one:
                one.ask("GET", "/feed")
                return one.head()[0] == 200
        wait_for(is_told, "room for a stream")
    return "five"


def test_memory_has_a_limit(room: Room, scale: Scale) -> str:
    """Above --max-memory a put is answered `full`. Deletes and reads are made, and make room for puts again."""
    most = 200 * MEGABYTE
    server = started(room, "--max-memory", str(most), "--history", "0.1", "--keep-bytes", "1000000")
    session, rows, answer = Session(server.port), 0, ""
    while "fault " not in answer:
        answer = session.call("begin\n%scommit .\n" % "".join("put . full/%07d %s\n" % (rows + at, "x" * 4000)
                                                             for at in range(100)))
        rows += 100
        assert rows < 200_000, "it takes all that it is given"
    assert {tuple(one) for one in faults(answer)} <= {("67", "full"), ("71", "skipped")}, answer[-300:]
    held = peak(server)
    told = session.call("begin\nget . full/0000000\ndel . full/0000001\ncommit .\nput . full/x y\n")
    assert "=> value " in told and "=> written\n" in told and "=> committed 1\n" in told, told[-300:]
    assert held < most + 128 * MEGABYTE, "%d MB" % (held >> 20)

    def has_room() -> bool:
        for at in range(0, rows, 500):  # more than may wait to be collected are asked for again
            lines = "".join("del . full/%07d\n" % row for row in range(at, at + 500))
            wait_for(lambda: " 67 full " not in session.call("begin\n%scommit .\n" % lines), "deletes to be made")
        time.sleep(1.5)
        return "fault " not in session.call("begin\nput . full/again x\ncommit .\n")
    end = time.monotonic() + LONGEST
    while not has_room():
        assert time.monotonic() < end, "there is no room again"
    return "%d rows of 4000 bytes, peak %d MB" % (rows, held >> 20)


def test_a_feed_lags_no_more_bytes_than_it_may(room: Room, scale: Scale) -> str:
    """A reader that stops is told `lag` once so many bytes are closed above its floor, and a name is let go."""
    server = started(room, "--max-lag-bytes", "5000000", "--history", "0.1")
    name = "GET", "/feed?consumer=stopped"
    with stopped_feeds(server, 1) as feeds:
        named = Wire(server.port)
        named.ask(*name)
        named.until(b"\r\n\r\n")
        named.close()
        session = Session(server.port)
        fill(session, "lag/", 100, "x" * 10_000)
        time.sleep(2.5)
        assert len(server.holders("feed")) >= 1, "one megabyte is no lag"
        fill(session, "lag/", 2000, "x" * 10_000)
        wait_for(lambda: not server.holders("feed"), "the feed to be ended")
        wait_for(lambda: not server.holders("consumer")[0]["held"], "the name to be let go")
        with contextlib.suppress(Cut, OSError):
            feeds[0].until(b'{"end":"lag"')
            return "5 MB"
        raise AssertionError("the reader isn't told why: %r" % bytes(feeds[0].held[-200:]))


TESTS: list[Callable[[Room, Scale], str]] = [one for name, one in list(globals().items()) if name.startswith("test_")]
