#!/usr/bin/python3
"""Clients that ask for much: heavy.py KIND PORT [N [TOKEN]] works until it is killed.

It writes `ready` once it has prepared what it needs, and `done` after each piece of work. N is how much: rows, lines,
names. Each KIND is a function here. What a server may refuse of it, it may refuse: then the client goes on asking.
"""

import contextlib
import itertools
import json
import os
import selectors
import sys
import threading
import time
import traceback
from collections.abc import Callable

from handmade import HANDSHAKE, Cut, Session, Wire, bearer, fill, framed

TOKEN = ""
PAUSE = 0.05  # seconds before a client that was thrown out comes again
CROWDED = 503
MOST_ROWS = 32768  # of a scan that the library lets through
HOLDERS: list[Session] = []  # of snapshots, as long as threads ask


def say(word: str) -> None:
    print(word + "\n", end="", flush=True)  # as one, as several threads may say something


def again_and_again(work: Callable[[], object]) -> None:
    """Works for ever. A server may end the connection, and then the work begins anew."""
    say("ready")
    while True:
        try:
            work()
            say("done")
        except OSError:
            time.sleep(PAUSE)


def session(port: int) -> Session:
    return Session(port, TOKEN)


def asking(port: int, message: str) -> Callable[[], object]:
    """Work that sends the message over a session, which is opened anew where it was ended."""
    held: list[Session] = []

    def work() -> None:
        if not held:
            held.append(session(port))
        try:
            held[0].call(message)
        except OSError:
            held.clear()
            raise
    return work


def closed_at(mine: Session) -> str:
    return mine.call("stats\n").split(" ")[-2]


# ---- lines

def long_lines(port: int, word: str = "x" * 10_000) -> None:
    """Messages of a hundred lines of ten thousand bytes."""
    rows = "".join("put . long/%d %s\n" % (at, word) for at in range(100))
    again_and_again(asking(port, "begin\n%scommit .\n" % rows))


def spelled_lines(port: int) -> None:
    """The same, where each byte is spelled."""
    long_lines(port, "%00" * 3_300)


def begins(port: int, count: int = 170_000) -> None:
    """Begins as many transactions as a message holds, and leaves: all of them end with the session."""
    def work() -> None:
        mine = session(port)
        answer = mine.call("begin\n" * count)
        mine.close()
        if answer.count("\n") != count or answer.count("=> started\n") + answer.count("fault ") != count:
            raise ValueError("other answers than one for each line: " + answer[-200:])
    again_and_again(work)


def opens(port: int, count: int = 50_000) -> None:
    """Opens as many feeds as a message holds, and leaves: all of them end with the session."""
    def work() -> None:
        mine = session(port)
        answer = mine.call("open - - 0\n" * count)
        mine.close()
        if answer.count("\n") != count or sum(map(answer.count, ("=> opened ", "=> belowhorizon ", "fault "))) != count:
            raise ValueError("other answers than one for each line: " + answer[-200:])
    again_and_again(work)


def protections(port: int, count: int = 1_000_000) -> None:
    """Protects the same again and again, and keeps what it gets. Then it asks who holds what."""
    mine = session(port)
    line = "protect %s\n" % closed_at(mine)
    say("ready")
    for _ in range(0, count, 50_000):
        mine.call(line * 50_000)
        say("done")
    again_and_again(lambda: (time.sleep(0.2), fetch(port, "/holders")))


def longest_scans(port: int, count: int) -> Callable[[], object]:
    """Scans of as many of these rows as a scan may have: one call each, which nothing interrupts."""
    fill(session(port), "scanned/", count)
    scan, end = "begin\nscan . scanned/ %s\nabort .\n", "scanned/%07d" % MOST_ROWS
    if count < MOST_ROWS or "=> rows %d\n" % MOST_ROWS not in session(port).call(scan % end):
        raise ValueError("a scan of as many rows as are let through is refused")
    return asking(port, scan % end)


def scans(port: int, count: int = 100_000) -> None:
    """Each behind a while."""
    ask = longest_scans(port, count)
    again_and_again(lambda: (ask(), time.sleep(0.2)))


def scans_on_and_on(port: int, count: int = 100_000) -> None:
    """The same without a pause."""
    again_and_again(longest_scans(port, count))


def refused_scans(port: int, count: int = 100_000) -> None:
    """Scans of more rows than a scan may have, on and on: each is refused before it has begun."""
    fill(session(port), "scanned/", count)
    scan = "begin\nscan . scanned/ scanned0\nabort .\n"
    if " 25 answertoolong " not in session(port).call(scan):
        raise ValueError("a scan of so many rows is let through")
    again_and_again(asking(port, scan))


def delete_and_hold(port: int, count: int) -> Session:
    """Rows that are deleted, and aren't collected as long as the session stands."""
    holder = session(port)
    if "=> protected" not in (told := holder.call("protect %s\n" % closed_at(holder))):
        raise ValueError(told)
    fill(session(port), "gone/", count)
    fill(session(port), "gone/", count, delete=True)
    return holder


def deleted_pages(port: int, count: int = 100_000) -> None:
    """Pages over rows that are deleted and not collected: none has a row."""
    holder = delete_and_hold(port, count)
    again_and_again(lambda: (holder, fetch(port, "/rows?lo=gone/&hi=gone0")))


def deleted_feeds(port: int, count: int = 100_000) -> None:
    """Feeds that begin where rows are deleted and not collected: none is told but the first resolved message."""
    holder = delete_and_hold(port, count)

    def work() -> None:
        wire = Wire(port)
        wire.ask("GET", "/feed?lo=gone/&hi=gone0", bearer(TOKEN))
        wire.until(b'{"resolved":"')
        wire.close()
    again_and_again(lambda: (holder, work()))


def deleted_scans(port: int, count: int = 100_000, times: int = 500) -> None:
    """Scans of as many rows that are deleted and not collected as are let through: each answers `rows 0`, so no answer
    gets long. How many those are is known by a sample."""
    holder, mine = delete_and_hold(port, count), session(port)
    scan = "scan . gone/ gone/%07d\n"
    made, refused = 0, count
    while refused > made + 1:
        middle = (made + refused) // 2
        is_refused = " 25 answertoolong " in mine.call("begin\n%sabort .\n" % scan % middle)
        made, refused = (made, middle) if is_refused else (middle, refused)
    if not 10_000 < made < 90_000:
        raise ValueError("scans of %d deleted rows are let through" % made)
    ask = asking(port, "begin\n%sabort .\n" % (scan % made * times))
    again_and_again(lambda: (holder, ask()))


# ---- requests

def fetch(port: int, path: str) -> int:
    """Reads the whole answer of a GET, and returns its bytes."""
    wire = Wire(port)
    wire.ask("GET", path, bearer(TOKEN) + "Connection: close\r\n")
    count, room = 0, bytearray(1 << 20)
    while got := wire.socket.recv_into(room):
        count += got
    wire.close()
    return count


def transcripts(port: int, count: int = 64 << 20) -> None:
    fill(session(port), "kept/", count // 6_600, "x" * 6_500)
    again_and_again(lambda: fetch(port, "/transcript"))


def reports(port: int, count: int = 100_000) -> None:
    """The two reports of a database of so many rows, again and again."""
    fill(session(port), "reported/", count)
    again_and_again(lambda: (fetch(port, "/state"), fetch(port, "/holders"), fetch(port, "/metrics")))


def names(port: int, count: int = 10_000) -> None:
    """As many names of consumers, and who asks for the list of them."""
    wire = Wire(port)
    wire.ask("GET", "/consumer/nobody", bearer(TOKEN))
    known = json.loads(wire.answer()[1])
    place = "identity=%s&generation=0&stored=%s" % (known["identity"], known["closed"])
    for at in range(count):
        wire.ask("POST", "/consumer/n%d?%s" % (at, place), bearer(TOKEN))
        status, body = wire.answer()
        if status != 200:
            raise ValueError("a name was refused: %r" % body)
    again_and_again(lambda: fetch(port, "/holders"))


def first_feeds(port: int, count: int = 1_000_000, more: str = "") -> None:
    """Feeds from their beginning, read as fast as they come, one after the other."""
    fill(session(port), "", count)

    def work() -> None:
        wire = Wire(port)
        wire.ask("GET", "/feed", bearer(TOKEN) + more)
        room, tail = bytearray(1 << 20), b""
        while b'{"resolved":"' not in tail:
            got = wire.socket.recv_into(room)
            if not got:
                raise Cut
            tail = (tail + room[max(got - 200, 0) : got])[-200:]
        wire.close()
    again_and_again(work)


def first_events(port: int, count: int = 1_000_000) -> None:
    """The same as server-sent events."""
    first_feeds(port, count, "Accept: text/event-stream\r\n")


def readers(port: int, count: int = 30) -> None:
    """So many feeds at once, read as fast as they come. `done` for each that was told what comes after `end/`."""
    choose = selectors.DefaultSelector()
    for _ in range(count):
        wire = Wire(port)
        wire.ask("GET", "/feed", bearer(TOKEN))
        choose.register(wire.socket, selectors.EVENT_READ, bytearray(b"-" * 64))
    room, mark = bytearray(1 << 20), b'"key":"ZW5kL'  # `end/` in base64
    say("ready")
    while choose.get_map():
        for key, _ in choose.select():
            got = key.fileobj.recv_into(room)  # type: ignore[union-attr]
            if mark in key.data + room[:got]:
                say("done")
            if not got or mark in key.data + room[:got]:
                choose.unregister(key.fileobj)
            key.data[:] = (key.data + room[max(got - 64, 0) : got])[-64:]
    time.sleep(3600)


def told_commits(port: int, count: int = 100) -> None:
    """Commits one row after another, while so many feeds of its own are told of each. `done` after a hundred."""
    choose = selectors.DefaultSelector()
    for _ in range(count):
        wire = Wire(port)
        wire.ask("GET", "/feed", bearer(TOKEN))
        wire.socket.setblocking(False)
        choose.register(wire.socket, selectors.EVENT_READ)
    mine, room = session(port), bytearray(1 << 16)
    say("ready")
    while True:
        for _ in range(100):
            mine.call("begin\nput . told x\ncommit .\n")
            for key, _ in choose.select(0):
                with contextlib.suppress(BlockingIOError):
                    key.fileobj.recv_into(room)  # type: ignore[union-attr]
        say("done")


# ---- several at once

def all_ask(port: int, count: int, status: int, method: str, path: str, body: str = "", anew: bool = False) -> None:
    """So many clients, each of which asks the same again and again, over one connection or each time over a new one."""
    def client() -> None:
        wire = Wire(port)
        while True:
            wire.ask(method, path, bearer(TOKEN), body.encode())
            told, answer = wire.answer()
            if told not in (status, CROWDED):
                raise ValueError("%d %r" % (told, answer[:200]))
            say("done")
            if anew:
                wire.close()
                wire = Wire(port)

    def to_its_end() -> None:
        try:
            client()
        except Exception:
            traceback.print_exc()
            os._exit(1)
    clients = [threading.Thread(target=to_its_end) for _ in range(count)]
    say("ready")
    for one in clients:
        one.start()


def fill_pages(port: int) -> None:
    """More rows than a page of 4 MB has."""
    fill(session(port), "paged/", 10_000, "y" * 900)


def large_pages(port: int, count: int = 8) -> None:
    """So many clients that read pages of 4 MB."""
    fill_pages(port)
    all_ask(port, count, 200, "GET", "/rows?lo=paged/&hi=paged0&limit=10000&hold=0")


def large_plans(port: int, count: int = 8) -> None:
    """So many clients that scan 4 MB in a transaction."""
    fill_pages(port)
    all_ask(port, count, 200, "POST", "/transact", '{"then":[{"scan":["paged/","paged0"],"limit":10000}]}')


def compared_plans(port: int, count: int = 8) -> None:
    """So many clients that compare 9 MB with a snapshot, in a transaction."""
    fill_pages(port)
    HOLDERS.append(session(port))
    closed = closed_at(HOLDERS[0])
    if "=> protected" not in (told := HOLDERS[0].call("protect %s\n" % closed)):
        raise ValueError(told)
    plan = '{"if":[{"span":["paged/","paged0"],"unchanged":"%s"}],"then":[{"get":"paged/"}]}' % closed
    all_ask(port, count, 200, "POST", "/transact", plan)


def long_plans(port: int, count: int = 8) -> None:
    """So many clients with transactions of 10,000 conditions, none of which holds."""
    fill(session(port), "asked/", 10_000)
    conditions = [{"key": "asked/%07d" % at, "absent": True} for at in range(10_000)]
    all_ask(port, count, 409, "POST", "/transact", json.dumps({"if": conditions, "then": []}))


def short_plans(port: int, count: int = 380) -> None:
    """So many clients with transactions of 700 reads, each of which has the lock for a short turn."""
    gets = [{"get": "k%06d" % at} for at in range(700)]
    all_ask(port, count, 200, "POST", "/transact", json.dumps({"then": gets}))


def short_pages(port: int, count: int = 47) -> None:
    """So many that read pages of a thousand rows."""
    all_ask(port, count, 200, "GET", "/rows?lo=k&limit=1000")


def scan_calls(port: int, count: int = 8, anew: bool = False) -> None:
    """So many clients that scan 30,000 rows."""
    fill(session(port), "scanned/", 30_000)
    all_ask(port, count, 200, "POST", "/call", "begin\nscan . scanned/ scanned0\ncommit .\n", anew)


def new_scan_calls(port: int, count: int = 8) -> None:
    """The same, each over a new connection."""
    scan_calls(port, count, True)


# ---- bytes

def tiny_chunks(port: int, count: int = 10) -> None:
    """Bodies in chunks of one byte, on so many connections, without looking at the answers."""
    head = "POST /call HTTP/1.1\r\nHost: 127.0.0.1:%d\r\n%sTransfer-Encoding: chunked\r\n\r\n" % (port, bearer(TOKEN))
    flood(port, count, head.encode(), b"1\r\nx\r\n" * 43_000)


def behind_upgrade(port: int, count: int = 4) -> None:
    """Bytes behind a feed that asks to be a WebSocket."""
    head = "GET /feed HTTP/1.1\r\nHost: 127.0.0.1:%d\r\n%s%s\r\n" % (port, bearer(TOKEN), HANDSHAKE)
    flood(port, count, head.encode(), b"x" * (1 << 18))


def half_frames(port: int, count: int = 10) -> None:
    """Frames of a message without an end, each as small as can be."""
    head = "GET /session HTTP/1.1\r\nHost: 127.0.0.1:%d\r\n%s%s\r\n" % (port, bearer(TOKEN), HANDSHAKE)
    flood(port, count, head.encode(), framed(b"x", 0, False) * 30_000, framed(b"x", 1, False))


def flood(port: int, count: int, head: bytes, blob: bytes, first: bytes = b"") -> None:
    """Sends a head, and then as much of the blob as is taken, on so many connections, each anew where it is cut."""
    choose = selectors.DefaultSelector()

    def open_one() -> None:
        wire = Wire(port)
        wire.send(head)
        if first:
            wire.until(b"\r\n\r\n")
            wire.send(first)
        wire.socket.setblocking(False)
        choose.register(wire.socket, selectors.EVENT_WRITE, [0])
    say("ready")
    for turn in itertools.count():
        with contextlib.suppress(OSError):
            while len(choose.get_map()) < count:
                open_one()
        for key, _ in choose.select(PAUSE):
            try:
                at = key.data[0]
                key.data[0] = (at + key.fileobj.send(blob[at:])) % len(blob)  # type: ignore[union-attr]
            except OSError:
                choose.unregister(key.fileobj)
                key.fileobj.close()  # type: ignore[union-attr]
        if turn % 100 == 0:
            say("done")


if __name__ == "__main__":
    if len(sys.argv) > 4:
        TOKEN = sys.argv[4]
    globals()[sys.argv[1]](int(sys.argv[2]), *map(int, sys.argv[3:4]))
