"""Clients that are half there, gone, or say what no good one says; names and tokens that are odd; and the end.

Each function is a test. It gets a room, and how heavy the load is to be.
"""

import contextlib
import json
import os
import queue
import random
import signal
import subprocess
import threading
import time
from collections.abc import Callable

from attack_beside import Scale
from attack_memory import started
from attack_slow import head
from handmade import CLOSE, HANDSHAKE, PING, PONG, TEXT, Cut, Ended, Refused, Session, Wire, fill, framed
from machine import LONGEST, SERVER, Room, wait_for

SEATS = 49  # of 64: what one client has that may operate
STARTS_SECONDS = 15  # after which a server that should have ended counts as one that serves


def test_half_frames(room: Room, scale: Scale) -> str:
    """Who stops in the middle of a frame, and answers no ping, has no seat any more after two heartbeats."""
    server = started(room, "--heartbeat", "1")
    half = [Session(server.port) for _ in range(20)]
    for at, one in enumerate(half):
        one.call("begin\n")
        one.send(framed(b"put . half x\n" * 500)[: 3 + at * 100])
    wait_for(lambda: not server.holders("transaction"), "sessions with half a frame to be ended")
    for one in half:
        with contextlib.suppress(Ended, Cut):
            one.told()
        assert one.ends_within(10)
    assert "=> none\n" in server.call("begin\nget . half\n")
    return "20 ended"


def test_who_answers_no_ping_is_told_why(room: Room, scale: Scale) -> str:
    """It is let go with 1008 `heartbeat`, which is in the log. Who answers pings stays, however long it is silent."""
    server = started(room, "--heartbeat", "1")
    stays, silent = Session(server.port), Session(server.port)
    told: queue.Queue[str] = queue.Queue()
    thread = threading.Thread(target=lambda: told.put(stays.told()))
    thread.start()
    silent.call("begin\n")
    opcode, data = silent.frame()
    assert opcode == PING, (opcode, data)
    while opcode == PING:
        opcode, data = silent.frame()
    assert (opcode, data) == (CLOSE, (1008).to_bytes(2, "big") + b"heartbeat"), (opcode, data)
    wait_for(lambda: not server.holders("transaction"), "its transaction to be aborted")
    time.sleep(4)
    stays.tell("stats\n")
    assert "=> stats" in told.get(timeout=LONGEST)
    thread.join()
    lines = [line for line in server.words().splitlines() if " session_let_go " in line]
    assert len(lines) == 1 and "why=heartbeat" in lines[0], server.words()
    return "and who answers stays"


def test_who_takes_no_answers_is_let_go(room: Room, scale: Scale) -> str:
    """After --patience its seat is free, and the log says why: a close frame would stand within its answer."""
    server = started(room, "--patience", "1")
    fill(Session(server.port), "much/", 2000, "x" * 900)
    stuck = Session(server.port, little=True)
    stuck.tell("begin\n" + "scan . - -\n" * 8)
    wait_for(lambda: " session_let_go " in server.words(), "the session to be let go")
    assert 'why="the client takes nothing"' in server.words(), server.words()
    wait_for(lambda: not server.holders("transaction"), "its transaction to be aborted")
    assert stuck.ends_within(10)
    return "after a second"


def test_a_session_that_is_silent_for_too_long(room: Room, scale: Scale) -> str:
    """With --seat-age it ends with 1008 `silent`, also where its client answers pings."""
    server = started(room, "--seat-age", "2", "--heartbeat", "0.5")
    silent = Session(server.port)
    silent.call("begin\n")
    try:
        raise AssertionError("it is told " + silent.told())
    except Ended as end:
        assert str(end) == "1008 silent", end
    assert not server.holders("session")
    return "after two seconds"


def test_requests_behind_a_feed(room: Room, scale: Scale) -> str:
    """An Upgrade on another path is refused or left aside, and what stands behind it is never taken for a request."""
    server = started(room)
    marker = head(server, "POST", "/call", "Content-Length: 37\r\n\r\n") + b"begin\nput . smuggled x\ncommit .\nstats\n"
    for path in ("/feed", "/holders", "/transcript"):
        one = Wire(server.port)
        one.send(head(server, "GET", path, HANDSHAKE + "\r\n") + framed(b"stats\n") + b"x" * 50_000 + marker)
        time.sleep(0.2)
        one.reset()
    one = Wire(server.port)
    one.send(head(server, "POST", "/call", HANDSHAKE + "Content-Length: 6\r\n\r\n") + b"stats\n")
    with contextlib.suppress(Cut, ConnectionError):
        status, body = one.answer()
        assert status != 101, "a WebSocket of another path"
    assert "=> none\n" in server.call("begin\nget . smuggled\n")
    return "of four paths"


def test_a_session_that_is_asked_for_with_a_body(room: Room, scale: Scale) -> str:
    """Or in HTTP/1.0: it is refused, takes no seat, and no byte of the body is taken for a frame."""
    server, frame = started(room), framed(b"begin\nput . smuggled x\ncommit .\n")
    for version, lines, body, wanted in (
        ("1.1", "Content-Length: %d\r\n" % len(frame), frame, 400), ("1.1", "Content-Length: 1\r\n", b"x" + frame, 400),
        ("1.1", "Transfer-Encoding: chunked\r\n", b"%x\r\n%s\r\n0\r\n\r\n" % (len(frame), frame), 400),
        ("1.1", "Transfer-Encoding: chunked\r\n", b"0\r\n\r\n" + frame, 400), ("1.0", "", frame, 400),
        ("1.1", "Content-Length: 0\r\n", b"", 101),
    ):
        with contextlib.closing(Wire(server.port)) as wire:
            asked = head(server, "GET", "/session", HANDSHAKE + lines + "\r\n").replace(b"HTTP/1.1", b"HTTP/" + version.encode(), 1)
            wire.send(asked + body)
            status, headers = wire.head()
            assert status == wanted, (version, lines, status)
            if status == 400:
                assert b'"error":"websocket"' in wire.exactly(int(headers["content-length"])), (version, lines)
                assert not server.holders("session"), (version, lines)
    assert "=> none\n" in server.call("begin\nget . smuggled\n")
    return "five ways"


def test_a_client_that_takes_all_seats(room: Room, scale: Scale) -> str:
    """An operator ends a session by its seat, and so makes room."""
    server = started(room)
    taken = [Session(server.port) for _ in range(SEATS - 1)]
    with contextlib.suppress(Refused):
        taken.append(Session(server.port))
    taken[3].call("begin\n")
    (seat,) = [one["seat"] for one in server.holders("transaction")]
    status, told = server.ask("DELETE", "/session/%d" % seat)
    assert status in (200, 204), (status, told)
    try:
        told = taken[3].told()
        raise AssertionError("the session goes on: " + told)
    except (Ended, Cut):
        pass
    assert server.holders("transaction") == []
    wait_for(lambda: server.ask("POST", "/call", b"stats\n")[0] == 200, "a seat")
    assert "=> stats" in taken[4].call("stats\n"), "the others stand"
    status, told = server.ask("DELETE", "/session/%d" % seat)
    assert status == 404 and json.loads(told)["error"], (status, told)
    for wrong in ("64", "x", "-1", "03", "99999999999999999999"):
        assert server.ask("DELETE", "/session/" + wrong)[0] in (400, 404), wrong
    for one in taken:
        one.reset()
    wait_for(lambda: server.holders("server")[0]["sessions"] == 0, "all to end")
    return "seat %d" % seat


def test_names_that_no_client_can_ask_for(room: Room, scale: Scale) -> str:
    """`.` and `..` are no names: a client's own path has no place for them, so they'd stand for ever."""
    server = started(room)
    for name in (".", "..", "%2e", "%2E%2e", "", "a/b", "a%00b", "x" * 65, "%C3%A4", "a%0D%0AX:%20y", "%F0%9F%98%80"):
        with contextlib.closing(Wire(server.port)) as wire:
            wire.ask("GET", "/feed?consumer=" + name)
            assert wire.head()[0] == 400, name
        path = "/consumer/%s?identity=%s&generation=0&stored=0" % (name, server.identity)
        assert server.ask("POST", path)[0] in (400, 404, 405), name
    assert server.ask("GET", "/consumer")[1] == ""
    with contextlib.closing(Wire(server.port)) as one:
        one.ask("GET", "/feed?consumer=a.b")
        assert one.head()[0] == 200, "dots are letters of a name"
    return "eleven of them"


def refused_start(room: Room, *options: str) -> str:
    """What a server says that doesn't start, with status 2."""
    done = subprocess.run([SERVER, "--port", "0", *options], capture_output=True, text=True, errors="replace",
                          timeout=STARTS_SECONDS, stdin=subprocess.DEVNULL)
    assert done.returncode == 2, (options, done.returncode, done.stderr[-300:])
    assert done.stderr.strip() and "Traceback" not in done.stderr and "panicked" not in done.stderr, done.stderr
    return done.stderr


def test_tokens_with_odd_bytes(room: Room, scale: Scale) -> str:
    """A token that no client could show is refused at the start, with a sentence."""
    path = room.file("token")
    for token in (b"short", b"", b"k\xc3\xa4sekuchen-mit-sahne", b"0123456789\x00abcdef-more", b"0123456789\x07abcdef-more",
                  b"x" * 100_000, b"0123456789 abcdef with spaces"[:0] + b"\xff" * 32):
        with open(path, "wb") as file:
            file.write(token + b"\n")
        os.chmod(path, 0o600)
        try:
            refused_start(room, "--token", path)
        except subprocess.TimeoutExpired:
            raise AssertionError("it starts with the token %r" % token[:40]) from None
    refused_start(room, "--token", room.file("nothing"))
    return "seven of them"


def test_a_token_that_others_can_read(room: Room, scale: Scale) -> str:
    """It starts, and says so."""
    path = room.file("token")
    with open(path, "w") as file:
        file.write("0123456789abcdef-mine\n")
    os.chmod(path, 0o644)
    server = started(room, "--token", path, token="0123456789abcdef-mine")
    assert path in server.words() and "others" in server.words(), server.words()
    assert "0123456789abcdef-mine" not in server.words(), "the log shows the token"
    return "warned"


def long_message(session: Session, rows: int = 20_000, times: int = 400) -> str:
    """A message that takes seconds: scans of rows that are deleted, and at last a row that shows how far it went."""
    session.call("protect 0\n")
    fill(session, "long/", rows)
    fill(session, "long/", rows, delete=True)
    return "begin\n%sput . long_message_ended x\ncommit .\n" % ("scan . long/ long0\n" * times)


def test_pings_during_a_long_message(room: Room, scale: Scale) -> str:
    """A client that answers pings keeps its connection, and has its answer, however long its message takes."""
    server = started(room, "--heartbeat", "0.3", "--history", "1000")
    session, pings, began = Session(server.port), 0, time.monotonic()
    session.tell(long_message(session))
    while True:
        opcode, data = session.frame()
        if opcode == PING:
            pings += 1
            session.send(framed(data, PONG))
        else:
            break
    took = time.monotonic() - began
    assert opcode == TEXT and data.endswith(b"=> committed 1\n"), (opcode, data[-200:])
    assert data.count(b"=> rows 0\n") == 400, data[-200:]
    return "%.1f s, %d pings" % (took, pings)


def test_a_message_whose_client_is_gone(room: Room, scale: Scale) -> str:
    """It doesn't go on: not its lines, and its transaction is aborted."""
    server = started(room, "--history", "1000")
    for is_reset in (True, False):
        session = Session(server.port)
        message = long_message(session, times=1500)
        session.tell(message)
        time.sleep(0.3)
        if is_reset:
            session.reset()
        else:
            session.close()
        wait_for(lambda: server.holders("server")[0]["sessions"] == 0, "the session to end")
        assert "=> none\n" in server.call("begin\nget . long_message_ended\n"), "a message without its client went on"
    return "reset, and closed"


# ---- the end

WRITERS = 30


def test_an_end_while_thirty_write(room: Room, scale: Scale) -> str:
    """SIGTERM ends the server in some seconds with status 0, each session with 1001, each feed with `shutdown`."""
    server = started(room)
    feeds = [Wire(server.port) for _ in range(10)]
    for one in feeds:
        one.ask("GET", "/feed")
        one.until(b"\r\n\r\n")
    writers = [Session(server.port) for _ in range(WRITERS)]
    dice = random.Random(1)
    for turn in range(20):
        for at, one in enumerate(writers):
            one.tell("begin\nput . end/%d/%d x\ncommit .\n" % (at, turn))
            if dice.random() < 0.5:
                assert "=> committed 1\n" in one.told()
            else:
                one.tell("stats\n")
                one.told(), one.told()
    for at, one in enumerate(writers):
        one.tell("begin\nput . last/%d x\ncommit .\n" % at)
    began = time.monotonic()
    server.child.send_signal(signal.SIGTERM)
    codes = [code_of(one) for one in writers]
    told = [rest_of(one) for one in feeds]
    status = server.child.wait(LONGEST)
    took = time.monotonic() - began
    server.child = None
    assert status == 0, "status %d" % status
    assert took < 8, "it took %.1f s" % took
    assert codes == [1001] * WRITERS, codes
    assert all(b'{"end":"shutdown"' in one for one in told), [one[-100:] for one in told]
    return "%.1f s" % took


def test_ends_by_other_signals(room: Room, scale: Scale) -> str:
    """SIGINT ends it in the same way, and a second signal changes nothing."""
    for signals in ((signal.SIGINT,), (signal.SIGTERM, signal.SIGTERM), (signal.SIGTERM, signal.SIGINT)):
        server = started(room)
        sessions, feed = [Session(server.port) for _ in range(10)], Wire(server.port)
        feed.ask("GET", "/feed")
        feed.until(b"\r\n\r\n")
        for one in signals:
            server.child.send_signal(one)
        codes, told = [code_of(one) for one in sessions], rest_of(feed)
        status = server.child.wait(LONGEST)
        server.child = None
        assert (status, codes) == (0, [1001] * 10) and b'{"end":"shutdown"' in told, (signals, status, codes, told[-100:])
    return "three ways"


def code_of(session: Session) -> int | str:
    """The code with which a session ends. What it is told before has to be whole."""
    try:
        while True:
            text = session.told()
            is_refused = all(line.startswith("fault ") for line in text.splitlines())  # it takes no more
            assert text.count("\n") == 3 and (is_refused or text.endswith("=> committed 1\n")), text
    except Ended as end:
        return end.code
    except OSError as cut:
        return repr(cut)


def rest_of(wire: Wire) -> bytes:
    with contextlib.suppress(Cut, OSError):
        while True:
            wire.read()
    return bytes(wire.held)


TESTS: list[Callable[[Room, Scale], str]] = [one for name, one in list(globals().items()) if name.startswith("test_")]
