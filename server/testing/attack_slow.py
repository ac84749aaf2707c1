"""Clients that are slow or many: each is ended in time, and an honest one is served meanwhile.

Each function is a test. It gets a room, and how heavy the load is to be.
"""

import contextlib
import json
import os
import signal
import socket
import time
from collections.abc import Callable

from attack_beside import Scale
from attack_memory import peak, started
from handmade import Session, Wire, fill
from machine import Room, Server, wait_for

HEAD_SECONDS = 10  # in which a connection has to have sent a head, as the page promises


def honest(server: Server, most: float = 1.0) -> float:
    """The longest of ten requests on new connections. The best of three rounds has to stay below a limit."""
    rounds = []
    for _ in range(3):
        took = []
        for _ in range(10):
            began = time.monotonic()
            assert server.ask("GET", "/consumer/nobody")[0] == 200
            took.append(time.monotonic() - began)
        rounds.append(max(took))
        if rounds[-1] <= most:
            return rounds[-1]
    raise AssertionError("an honest request takes %s s" % rounds)


def head(server: Server, method: str, path: str, more: str = "") -> bytes:
    return ("%s %s HTTP/1.1\r\nHost: 127.0.0.1:%d\r\n%s" % (method, path, server.port, more)).encode()


def ended_within(wires: list[Wire], seconds: float) -> int:
    """How many of them the server has ended, after so many seconds for all."""
    end = time.monotonic() + seconds
    return sum(one.ends_within(max(end - time.monotonic(), 0.01)) for one in wires)


def test_slow_heads(room: Room, scale: Scale) -> str:
    """A head that comes a byte a second is cut after ten seconds, and costs no others anything."""
    server = started(room)
    slow = [Wire(server.port) for _ in range(200)]
    began, whole = time.monotonic(), head(server, "GET", "/state", "X: %s\r\n\r\n" % ("x" * 100))
    left = list(slow)
    for at in range(HEAD_SECONDS + 6):
        for one in list(left):
            try:
                one.send(whole[at : at + 1])
            except OSError:
                left.remove(one)
        took = honest(server)
        time.sleep(1)
    cut = ended_within(slow, 5)
    assert cut == len(slow), "%d of %d slow connections were ended" % (cut, len(slow))
    return "%d cut after %.0f s; an honest request took %.0f ms" % (cut, time.monotonic() - began, took * 1e3)


def test_slow_bodies(room: Room, scale: Scale) -> str:
    """A body has ten seconds. Those who wait for theirs take no seats."""
    server = started(room)
    slow = [Wire(server.port) for _ in range(100)]
    for one in slow:
        one.send(head(server, "POST", "/call", "Content-Length: 1000\r\n\r\n") + b"begin\n")
    time.sleep(0.5)
    assert "=> stats" in server.call("stats\n"), "a seat is free"
    took = honest(server)
    for one in slow[:10]:
        one.socket.settimeout(HEAD_SECONDS + 5)
        with contextlib.suppress(OSError):
            status, body = one.answer()
            assert status in (400, 408), (status, body)
    ended = ended_within(slow, 15)
    assert ended == len(slow), "%d of %d were ended" % (ended, len(slow))
    assert server.holders("transaction") == []
    return "honest %.0f ms" % (took * 1e3)


def test_more_slow_bodies_than_connections(room: Room, scale: Scale) -> str:
    """Who waits for its client makes room, so an honest request, with a body too, doesn't wait for any of them."""
    server = started(room)
    slow = []
    for at in range(2000):
        with contextlib.suppress(OSError):
            slow.append(Wire(server.port, timeout=5))
            slow[-1].send(head(server, "POST", "/call", "Content-Length: 1000\r\n\r\n") + b"begin\n")
        if at % 100 == 99:
            assert "=> stats" in server.call("stats\n")
    took = honest(server)
    for one in slow:
        one.close()
    assert len(slow) >= 1900, "only %d could connect" % len(slow)
    return "honest %.0f ms" % (took * 1e3)


def test_more_slow_readers_than_connections(room: Room, scale: Scale) -> str:
    """The same where nobody takes an answer that is longer than what the kernel keeps for a connection."""
    server = started(room)
    fill(Session(server.port), "kept/", 4000, "x" * 900)
    before = peak(server)
    slow = []
    for at in range(1500):
        with contextlib.suppress(OSError):
            slow.append(Wire(server.port, little=True, timeout=5))
            slow[-1].ask("GET", "/transcript")
        if at % 100 == 99:
            assert "=> stats" in server.call("stats\n")
    took = honest(server)
    for one in slow:
        one.close()
    assert len(slow) >= 1400, "only %d could connect" % len(slow)
    found = peak(server) - before
    assert found < 384 << 20, "%d MB more" % (found >> 20)
    return "%d MB more, honest %.0f ms" % (found >> 20, took * 1e3)


def crowd(server: Server) -> list[socket.socket]:
    """400 connections of another address, each with a body that is never whole."""
    many = []
    for _ in range(400):
        many.append(socket.create_connection(("127.0.0.1", server.port), source_address=("127.0.0.2", 0)))
        many[-1].sendall(head(server, "POST", "/call", "Content-Length: 1000\r\n\r\n") + b"begin\n")
    return many


def answers(wire: Wire) -> None:
    wire.ask("GET", "/consumer/nobody")
    assert wire.answer()[0] == 200


def test_another_address_pushes_nobody_out(room: Room, scale: Scale) -> str:
    """Connections that rest keep their places while another address opens more than there are."""
    server = started(room, "--max-connections", "100")
    resting = [Wire(server.port) for _ in range(20)]
    for one in resting:
        answers(one)
    many = crowd(server)
    took = honest(server)
    for one in resting:
        answers(one)
    for one in many:
        one.close()
    return "20 beside 400, honest %.0f ms" % (took * 1e3)


def test_another_address_at_once_pushes_nobody_out(room: Room, scale: Scale) -> str:
    """The same where all come at once, and an honest one behind them, because the server was stopped meanwhile."""
    server = started(room, "--max-connections", "100")
    resting = [Wire(server.port) for _ in range(20)]
    for one in resting:
        answers(one)
    for _ in range(20):
        server.child.send_signal(signal.SIGSTOP)
        many, comes = crowd(server), Wire(server.port)
        comes.send(head(server, "GET", "/consumer/nobody", "Connection: close\r\n\r\n"))
        server.child.send_signal(signal.SIGCONT)
        assert comes.answer()[0] == 200
        comes.close()
        for one in resting:
            answers(one)
        for one in many:
            one.close()
    return "20 beside 400, 20 times"


def test_long_bodies_that_are_never_whole(room: Room, scale: Scale) -> str:
    """Together they take no more than 64 whole ones, and those of one address half of that. Small ones are taken."""
    server = started(room)
    before, whole = peak(server), 1 << 20
    wires = [Wire(server.port, timeout=10) for _ in range(300)]
    for one in wires:
        with contextlib.suppress(OSError):
            one.send(head(server, "POST", "/call", "Content-Length: %d\r\n\r\n" % whole) + b"x" * (whole - 1))
    assert "=> stats" in server.call("stats\n")
    status, told = server.ask("POST", "/call", b"x" * (whole - 1))
    assert status == 503 and json.loads(told)["error"] == "bodies", (status, told[:200])
    found = peak(server) - before
    for one in wires:
        one.close()
    wait_for(lambda: server.ask("POST", "/call", b"x" * (whole - 1))[0] == 200, "room for a long body")
    assert found < 128 << 20, "%d MB more" % (found >> 20)
    return "%d MB more" % (found >> 20)


def test_three_thousand_connections(room: Room, scale: Scale) -> str:
    """The silent ones make room, and an honest request takes no second."""
    server = started(room)
    silent = []
    for _ in range(3000):
        with contextlib.suppress(OSError):
            silent.append(Wire(server.port, timeout=5))
    took = honest(server)
    files = len(os.listdir("/proc/%d/fd" % server.child.pid))
    for one in silent:
        one.close()
    assert len(silent) >= 2900, "only %d could connect" % len(silent)
    assert files < 1200, "%d files are open" % files
    return "honest %.0f ms, %d files" % (took * 1e3, files)


def test_fewer_files_than_connections(room: Room, scale: Scale) -> str:
    """With 120 files and 300 connections the log stays short, and an honest request is served."""
    limit = ("sh", "-c", 'ulimit -n 120; exec "$@"', "sh")
    server = started(room, before=limit)
    silent = []
    for _ in range(300):
        with contextlib.suppress(OSError):
            silent.append(Wire(server.port, timeout=2))
    began = time.monotonic()
    took = honest(server, 2.0)
    time.sleep(3)
    size = os.path.getsize(server.log)
    for one in silent:
        one.close()
    took = max(took, honest(server, 2.0))
    assert size < 1 << 20, "the log has %d MB after %.0f s" % (size >> 20, time.monotonic() - began)
    return "honest %.0f ms, %d bytes of log" % (took * 1e3, size)


TESTS: list[Callable[[Room, Scale], str]] = [one for name, one in list(globals().items()) if name.startswith("test_")]
