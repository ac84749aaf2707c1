"""What no good client sends: odd requests, bombs, drawn bytes; clients that vanish; and a server that was stopped.

Each function is a test. It gets a room, and how heavy the load is to be.
"""

import base64
import contextlib
import gzip
import json
import os
import queue
import random
import re
import signal
import socket
import subprocess
import threading
import time
from collections.abc import Callable

from attack_beside import Scale
from attack_limits import compare_reports
from attack_memory import peak, started
from attack_slow import head, honest
from attack_wire import refused_start
from handmade import HANDSHAKE, PING, TEXT, Cut, Ended, Session, Wire, fill, framed
from machine import LONGEST, SERVER, Room, Server, wait_for

WRITE = b"begin\nput . smuggled x\ncommit .\n"
SIZE = b"%x\r\n" % len(WRITE)
# Heads with the body that they have, which are refused or cut: two servers could take each for another request.
ODD = (
    (b"Content-Length: 5\r\nContent-Length: 32\r\n\r\n", WRITE),
    (b"Content-Length: +32\r\n\r\n", WRITE),
    (b"Content-Length: 32 32\r\n\r\n", WRITE),
    (b"Content-Length: 0x20\r\n\r\n", WRITE),
    (b"Content-Length: -1\r\n\r\n", WRITE),
    (b"Content-Length: 99999999999999999999\r\n\r\n", WRITE),
    (b"Transfer-Encoding: xchunked\r\n\r\n", SIZE + WRITE + b"\r\n0\r\n\r\n"),
    (b"Transfer-Encoding: chunked, identity\r\n\r\n", SIZE + WRITE + b"\r\n0\r\n\r\n"),
    (b"Transfer-Encoding: chunked\r\n\r\n", b"1" * 20 + b"\r\n" + WRITE + b"\r\n0\r\n\r\n"),
    (b"Transfer-Encoding: chunked\r\n\r\n", SIZE + WRITE + b"XX0\r\n\r\n"),
    (b"Transfer-Encoding: chunked\r\n\r\n", b"-20\r\n" + WRITE + b"\r\n0\r\n\r\n"),
    (b"Content-Length : 32\r\n\r\n", WRITE),
    (b"X: a\r\n b\r\nContent-Length: 32\r\n\r\n", WRITE),
    (b"X: a\0b\r\nContent-Length: 32\r\n\r\n", WRITE),
    (b"X: a\rb\r\nContent-Length: 32\r\n\r\n", WRITE),
    (b"X\x07: a\r\nContent-Length: 32\r\n\r\n", WRITE),
    (b"Host: evil.example\r\nContent-Length: 32\r\n\r\n", WRITE),
)
# What is taken, as RFC 9112 allows: lines that end in LF alone, and chunks where a length is given too.
LENIENT = (
    b"GET /healthz HTTP/1.1\nHost: a\n\n",
    b"GET /healthz HTTP/1.1\r\nHost: a\r\nContent-Length: 99\r\nTransfer-Encoding: chunked\r\n\r\n4 ;a=b\r\nXXXX\r\n0\r\n\r\n",
    b"GET /healthz HTTP/1.1\r\nHost: a\r\nTransfer-Encoding: chunked\r\nContent-Length: 99\r\n\r\n4\r\nXXXX\r\n0\r\n\r\n",
    b"\r\nGET /healthz HTTP/1.1\r\nHost: a\r\nContent-Length: 4\r\nContent-Length: 4\r\n\r\nXXXX",
)
# Codings of which the last one is chunked, and not the only one.
CODED = (b"Transfer-Encoding: gzip, chunked\r\n", b"Transfer-Encoding: gzip\r\nTransfer-Encoding: chunked\r\n",
         b"Transfer-Encoding: chunked, chunked\r\n", b"Transfer-Encoding: x;a=\"b\", chunked\r\n")
# What stands in place of the first line.
ODD_LINES = (b"POST /call HTTP/1.0\r\n\r\n", b"POST /call HTTP/3.0\r\n", b"PRI * HTTP/2.0\r\n\r\nSM\r\n\r\n", b"POST  /call HTTP/1.1\r\n",
             b"POST /call\r\n", b"POST /c\0all HTTP/1.1\r\n", b"\x16\x03\x01\x02\0\x01\0\x01\xfc\x03\x03", b"CONNECT evil:1 HTTP/1.1\r\n")


def statuses(wire: Wire) -> list[int]:
    """Of all that comes until the other side ends the connection, or is silent for a while."""
    wire.socket.settimeout(3)
    with contextlib.suppress(OSError):
        while True:
            wire.read()
    return [int(one[2:5]) for one in bytes(wire.held).split(b"HTTP/1.")[1:]]


def test_requests_that_are_odd(room: Room, scale: Scale) -> str:
    """Each is refused or cut, and no line of its body is taken, whatever it may be taken for elsewhere."""
    server = started(room)
    own = b"Host: 127.0.0.1:%d\r\n" % server.port
    asked = [b"POST /call HTTP/1.1\r\n" + own + lines + body for lines, body in ODD]
    asked += [line + own + b"Content-Length: 32\r\n\r\n" + WRITE for line in ODD_LINES]
    for request in asked:
        with contextlib.closing(Wire(server.port)) as wire:
            wire.send(request)
            found = statuses(wire)
            assert all(400 <= status < 500 for status in found), (request, found)
        assert "=> none\n" in server.call("begin\nget . smuggled\n"), request
    for request in LENIENT:
        with contextlib.closing(Wire(server.port)) as wire:
            wire.send(2 * request)
            assert statuses(wire) == [200, 200], (request, bytes(wire.held))
    return "%d, and %d that are taken" % (len(asked), len(LENIENT))


def test_bodies_in_other_codings(room: Room, scale: Scale) -> str:
    """Each is refused by name, no line of it is taken, and what follows it is no request."""
    server = started(room)
    for lines in CODED:
        with contextlib.closing(Wire(server.port)) as wire:
            wire.send(head(server, "POST", "/call", lines.decode() + "\r\n") + SIZE + WRITE + b"\r\n0\r\n\r\n" + head(server, "GET", "/healthz", "\r\n"))
            status, headers = wire.head()
            told = json.loads(wire.exactly(int(headers["content-length"])))
            assert (status, told["error"], headers["connection"]) == (501, "encoding", "close"), (lines, status, told, headers)
            assert statuses(wire) == [] and wire.ends_within(10), (lines, bytes(wire.held))
        assert "=> none\n" in server.call("begin\nget . smuggled\n"), lines
    return "%d of them" % len(CODED)


def test_hosts_that_are_not_its_own(room: Room, scale: Scale) -> str:
    """A name that leads here by another one's will is refused, however near it comes to its own."""
    server = started(room)
    own = "127.0.0.1:%d" % server.port
    wrong = ("evil.example", "evil.example:%d" % server.port, "127.0.0.1", "127.0.0.1:1", own + ".evil.example", "127.0.0.1.evil.example:%d" % (
        server.port), "", "0.0.0.0:%d" % server.port, "[::ffff:127.0.0.1]:%d" % server.port, own + ":80", "user@" + own, own + "/")
    for host in wrong:
        assert server.ask("GET", "/holders", None, {"Host": host})[0] in (400, 403), host
    for lines in (b"GET /holders HTTP/1.0\r\n", b"GET /holders HTTP/1.1\r\n", b"GET /holders HTTP/1.1\r\n" + 2 * (b"Host: %s\r\n" % own.encode())):
        with contextlib.closing(Wire(server.port)) as wire:
            wire.send(lines + b"\r\n")
            assert statuses(wire)[0] in (400, 403), lines
    for host in wrong[:-1]:
        with contextlib.closing(Wire(server.port)) as wire:
            wire.send(b"GET http://%s/holders HTTP/1.1\r\nHost: %s\r\nConnection: close\r\n\r\n" % (host.encode(), own.encode()))
            assert statuses(wire)[0] in (400, 403), (host, bytes(wire.held))
    assert server.ask("GET", "/holders")[0] == 200
    assert server.ask("GET", "http://%s/holders" % own, None, {"Host": "evil.example"})[0] == 200, "a target counts in place of Host"
    return "%d, each also in a target, and none, and two" % len(wrong)


def test_addresses_that_others_reach(room: Room, scale: Scale) -> str:
    """They need a token. Without one there is no start, and neither with a file that has none."""
    for address in ("0.0.0.0", "::", "192.0.2.1", "::ffff:192.0.2.1", "::ffff:0.0.0.0", "localhost"):
        refused_start(room, "--address", address)
    refused_start(room, "--address", "0.0.0.0", "--token", "/dev/null")
    server = started(room, "--address", "127.0.0.1")
    with contextlib.suppress(OSError):
        socket.create_connection(("127.0.0.2", server.port)).close()
        raise AssertionError("it listens at another address too")
    return "six"


def test_methods_and_paths_that_are_not_there(room: Room, scale: Scale) -> str:
    """No path leads out of the table, and nothing is granted to pages of other sites."""
    server = started(room)
    for method in ("OPTIONS", "TRACE", "PUT", "PATCH", "PROPFIND"):
        for path in ("/call", "/feed", "/", "/consumer/a"):
            with contextlib.closing(Wire(server.port)) as wire:
                wire.ask(method, path, "Origin: http://127.0.0.1:%d\r\n" % server.port)
                status, headers = wire.head()
                assert status == 405 and not any(name.startswith("access-control") for name in headers), (method, headers)
                assert "server" not in headers, headers
    for path in ("/../etc/passwd", "/page/../call", "/page/..%2fcall", "/page/%2e%2e/call", "//call", "/call/", "/./call", "/page//",
                 "/picture/../page/page.mjs", "/page/page.mjs/", "/page/page.mjs%00", "/page/PAGE.mjs", "/page/.", "\\call", "/call;a"):
        with contextlib.closing(Wire(server.port)) as wire:
            wire.ask("GET", path)
            assert wire.head()[0] in (400, 404), path
    for path in ("/rows?lo=%zz", "/rows?hi=%", "/feed?lo=%4", "/key/%zz", "/key/a%", "/consumer/%4g", "/feed?consumer=a%2"):
        status, told = server.ask("GET", path)
        assert (status, json.loads(told)["error"]) == (400, "argument"), (path, status, told)
    return "five methods, fifteen paths, seven that are half escaped"


def endless(server: Server, begin: bytes, more: bytes) -> int:
    """Sends a beginning, and then the same again and again, up to 64 MB. How much was taken."""
    sent, block = 0, more * (1 << 16)
    with contextlib.closing(Wire(server.port, timeout=15)) as wire, contextlib.suppress(OSError):
        wire.send(begin)
        while sent < 64 << 20:
            wire.send(block)
            sent += len(block)
    return sent


def test_bombs(room: Room, scale: Scale) -> str:
    """Heads, trailers and bodies without an end, bodies that would unpack to much, frames that are impossible."""
    server = started(room)
    before = peak(server)
    post = head(server, "POST", "/call", "Transfer-Encoding: chunked\r\n\r\n")
    endless(server, head(server, "GET", "/state"), b"X: y\r\n")
    endless(server, head(server, "GET", "/state", "X: "), b"x")
    endless(server, post + b"0\r\n", b"X: y\r\n")
    endless(server, post, b"4\r\nxxxx\r\n")
    endless(server, b"GET /" + b"x", b"x")
    packed = gzip.compress(b"stats\n" * 1_000_000)
    status, told = server.ask("POST", "/call", packed, {"Content-Encoding": "gzip"})
    assert status != 200 or "=> stats" not in told, "a body was unpacked"
    for frame, code in (
        (b"\x81\xff\x40\0\0\0\0\0\0\0\0\0\0\0", 1009), (b"\xc1\x80\0\0\0\0", 1002), (b"\x81\x01x", 1002), (b"\x83\x80\0\0\0\0", 1002),
        (framed(b"x" * 126, PING), 1002), (framed(b"x", PING, False), 1002), (framed(b"x", 0), 1002), (framed(b"\xff", TEXT), 1007),
        (framed(b"x", 2), 1003), (b"\x81\xfe\0\x01\0\0\0\0x", 1002),
    ):
        session = Session(server.port)
        session.send(frame)
        try:
            raise AssertionError("a frame is answered: %r %s" % (frame[:20], session.told()))
        except Ended as end:
            assert end.code == code, (frame[:20], end)
        session.close()
    found = peak(server) - before
    assert found < 64 << 20, "%d MB more" % (found >> 20)
    return "%d MB more, honest %.0f ms" % (found >> 20, honest(server) * 1e3)


def test_clients_that_vanish(room: Room, scale: Scale) -> str:
    """Twenty times a hundred and eighty clients that go without a word, in the middle of whatever they do."""
    server, dice = started(room), random.Random(3)
    fill(Session(server.port), "there/", 2000, "x" * 200)
    files = len(os.listdir("/proc/%d/fd" % server.child.pid))
    beginnings = (
        head(server, "GET", "/feed", "\r\n"), head(server, "GET", "/feed?consumer=gone", "\r\n"), head(server, "GET", "/transcript", "\r\n"),
        head(server, "GET", "/session", HANDSHAKE + "\r\n") + framed(b"begin\nput . gone x\nopen - - 0\nprotect 0\n"),
        head(server, "GET", "/session", HANDSHAKE + "\r\n") + framed(b"scan 1 - -\n" * 50)[:-7],
        head(server, "POST", "/call", "Content-Length: 500\r\n\r\n") + b"begin\n", b"GET / HT", b"",
    )
    for _ in range(20):
        wires = [Wire(server.port, little=True) for _ in range(180)]
        for one in wires:
            with contextlib.suppress(OSError):
                one.send(dice.choice(beginnings))
        time.sleep(dice.random() / 10)
        for one in wires:
            one.reset()
    wait_for(lambda: server.holders("server")[0]["sessions"] == 0, "all sessions to end")
    wait_for(lambda: not any(server.holders(kind) for kind in ("transaction", "feed")), "all feeds to end")
    wait_for(lambda: len(os.listdir("/proc/%d/fd" % server.child.pid)) <= files + 2, "all files to be closed")
    assert "=> none\n" in server.call("begin\nget . gone\n") and "shout" not in server.words()
    return "3600 of them"


def drawn_request(dice: random.Random, server: Server) -> bytes:
    """A request of good parts in a drawn order, of which some bytes are changed."""
    method, path = dice.choice(("GET", "POST", "DELETE", "HEAD")), dice.choice((
        "/feed?lo=%%00&hi=%d", "/call", "/session", "/consumer/a?stored=%d&generation=0", "/state", "/transcript?since=%d", "/holders",
        "/metrics", "/session/%d", "/feed?from=%d&gap=3", "/page/page.mjs", "/healthz", "/consumer/%d")).replace("%d", str(dice.randrange(99)))
    body = "".join(dice.choice(("begin\n", "put . a 1\n", "commit .\n", "scan . - -\n", "\n", "é\n")) for _ in range(dice.randrange(9)))
    lines = dice.sample(("Accept: text/event-stream\r\n", HANDSHAKE, "Expect: 100-continue\r\n", "Last-Event-ID: a:%d\r\n" % dice.randrange(9),
                         "Connection: close\r\n", "Content-Length: %d\r\n" % len(body.encode())), dice.randrange(5))
    whole = bytearray(head(server, method, path, "".join(lines) + "\r\n") + body.encode())
    for _ in range(dice.choice((0, 0, 1, 4))):
        whole[dice.randrange(len(whole))] = dice.randrange(256)
    return bytes(whole)


def drawn_message(dice: random.Random) -> str:
    words = ("begin", "put", "get", "scan", "del", "commit", "abort", "open", "openinitial", "poll", "cancel", "protect", "release", "close",
             "closehard", "collect", "stats", ".", "-", "a", "b%20", "%zz", "0", "1", "2", "7", "99999999999999999999", "", "\0", "é")
    return "".join(" ".join(dice.choices(words, k=dice.randrange(1, 5))) + "\n" for _ in range(dice.randrange(1, 20)))


def test_drawn_requests_and_messages(room: Room, scale: Scale) -> str:
    """Whatever comes, no answer is a fault of the server, each line has one answer, and the reports agree."""
    server, dice = started(room, "--ahead", "1000"), random.Random(5)
    requests, found = int(scale.of(1500, 6000)), set()
    for _ in range(requests):
        with contextlib.closing(Wire(server.port)) as wire, contextlib.suppress(OSError):
            wire.send(drawn_request(dice, server))
            wire.socket.settimeout(0.2)
            with contextlib.suppress(Cut, ConnectionError):
                found.add(wire.head()[0])
    assert not found & {500, 502, 505}, found
    session, count = Session(server.port), int(scale.of(3000, 40_000))
    for _ in range(count):
        text = drawn_message(dice)
        told = session.call(text).splitlines()
        answers = sum(1 for line in told if line.startswith("fault ") or " => " in line and line.split(" ", 1)[0].isdigit())
        assert answers == text.count("\n"), (text, told)
    session.say_goodbye()
    wait_for(lambda: server.holders("server")[0]["sessions"] == 0, "the session to end")
    faults = compare_reports(server)
    assert not faults, faults
    assert server.holders("server")[0]["shouts"] == 0 and "panicked" not in server.words(), server.tail()
    return "%d requests, %d messages: %s" % (requests, count, sorted(found))


def test_a_server_that_was_stopped(room: Room, scale: Scale) -> str:
    """Sessions stand whose clients answered nothing because the server slept, and what is old by then is aborted."""
    server = started(room, "--heartbeat", "2", "--max-age", "3")
    session, feed = Session(server.port), Wire(server.port)
    session.call("begin\n")
    feed.ask("GET", "/feed")
    feed.until(b"\r\n\r\n")
    server.child.send_signal(signal.SIGSTOP)
    time.sleep(6)
    server.child.send_signal(signal.SIGCONT)
    assert "=> stats" in session.call("stats\n")
    wait_for(lambda: not server.holders("transaction"), "the old transaction to be aborted")
    assert "=> ended\n" in session.call("commit .\n") and "=> committed 1\n" in session.call("begin\nput . awake x\ncommit .\n")
    feed.until(b'"updated":')
    return "6 s"


def test_sessions_beside_a_server_that_was_stopped(room: Room, scale: Scale) -> str:
    """Forty that are idle, and answer pings, all stand after a sleep that is longer than two heartbeats."""
    server = started(room, "--heartbeat", "4")
    sessions = [Session(server.port) for _ in range(40)]
    told: queue.Queue[str] = queue.Queue()

    def stay(session: Session) -> None:
        try:
            told.put(session.told())
        except OSError as why:
            told.put(repr(why))
    threads = [threading.Thread(target=stay, args=(one,)) for one in sessions]
    for thread in threads:
        thread.start()
    for seconds in (3, 9):
        time.sleep(seconds / 2)
        server.child.send_signal(signal.SIGSTOP)
        time.sleep(seconds)
        server.child.send_signal(signal.SIGCONT)
    time.sleep(7)
    for one in sessions:
        with contextlib.suppress(OSError):
            one.tell("stats\n")
    found = [told.get(timeout=LONGEST) for _ in sessions]
    for thread in threads:
        thread.join()
    lost = [one for one in found if "=> stats" not in one]
    assert not lost, "%d of 40 are lost: %s" % (len(lost), lost[:3])
    return "40"


def cut_events(server: Server, last: str, most: int) -> tuple[list[bytes], str]:
    """Rows of a stream of events that is cut after so many bytes, up to its last id, and that id."""
    with contextlib.closing(Wire(server.port)) as wire:
        wire.ask("GET", "/feed", "Accept: text/event-stream\r\n" + ("Last-Event-ID: %s\r\n" % last if last else ""))
        with contextlib.suppress(TimeoutError):
            wire.socket.settimeout(0.3)
            while len(wire.held) < most:
                wire.read()
        data = bytes(wire.held)[:most]
    rows: list[bytes] = []
    whole: list[bytes] = []
    for event in re.sub(rb"\r\n[0-9A-F]+\r\n", b"", data.partition(b"\r\n\r\n")[2]).split(b"\n\n")[:-1]:
        lines = event.split(b"\n")
        rows += [line[6:] for line in lines if line.startswith(b'data: {"after"')]
        for line in lines:
            if line.startswith(b"id: "):
                whole, rows, last = whole + rows, [], line[4:].decode()
    return whole, last


def test_events_that_are_cut(room: Room, scale: Scale) -> str:
    """Three hundred cuts, each at a drawn byte: by its last id a reader goes on, and is told each row once."""
    server, dice, written = started(room, "--history", "600"), random.Random(11), threading.Event()
    session = Session(server.port)
    session.call("begin\nput . first x\ncommit .\n")
    wait_for(lambda: server.closed() == 1, "closing")
    rows, last = cut_events(server, "", 2000)
    while not last:
        rows, last = cut_events(server, "", 2000)

    def write() -> None:
        with contextlib.ExitStack() as stack:
            stack.callback(written.set)
            for at in range(1500):
                told = session.call("begin\nput . k%d %s\nput . l%d x\ncommit .\n" % (at % 50, "v" * dice.randrange(1, 200), at % 7))
                assert "=> committed 2\n" in told, told
                time.sleep(0.002)
    writer = threading.Thread(target=write)
    writer.start()
    cuts, drawn = 0, random.Random(12)
    while cuts < 300 or not written.is_set():
        more, last = cut_events(server, last, int(10 ** drawn.uniform(2.2, 4.5)))
        rows, cuts = rows + more, cuts + 1
    writer.join()
    wait_for(lambda: server.closed() == 1501, "closing")
    while int(last.rpartition(":")[2]) < 1501:
        more, last = cut_events(server, last, 10_000_000)
        rows += more
    found = [(int(one["updated"]), base64.b64decode(one["key"]).decode()) for one in map(json.loads, rows)]
    wanted = [(1, "first")] + [row for at in range(1500) for row in ((at + 2, "k%d" % (at % 50)), (at + 2, "l%d" % (at % 7)))]
    assert found == wanted, "%d rows, and not %d: %s" % (len(found), len(wanted), [one for one in zip(found, wanted) if one[0] != one[1]][:2])
    return "%d cuts, %d rows" % (cuts, len(found))


def test_a_second_server_of_a_port(room: Room, scale: Scale) -> str:
    """It ends with a sentence, and the first one goes on."""
    server = started(room)
    done = subprocess.run([SERVER, "--port", str(server.port)], capture_output=True, text=True, timeout=20, stdin=subprocess.DEVNULL)
    assert done.returncode == 1 and str(server.port) in done.stderr and done.stderr.count("\n") == 1, done
    assert json.loads(server.ask("GET", "/consumer/nobody")[1])["identity"] == server.identity
    return done.stderr.strip()


TESTS: list[Callable[[Room, Scale], str]] = [one for name, one in list(globals().items()) if name.startswith("test_")]
