"""A disk that stands still, and a log that nobody reads: part of `server/test durable`.

What waits for them waits outside of the database's lock, so everything else is answered, and says what is wrong.
"""

import contextlib
import fcntl
import http.client
import os
import random
import subprocess
import threading
import time

from durable_servers import DurableServer
from machine import Program, Room, Server, wait_for

SOON = 5  # seconds, on a machine that is busy


def asked(server: Server, method: str, path: str, body: str = "", seconds: float = SOON) -> tuple[int, str]:
    """Status and text, or 0 where no answer comes in time."""
    connection = http.client.HTTPConnection("127.0.0.1", server.port, timeout=seconds)
    with contextlib.closing(connection):
        try:
            connection.request(method, path, body.encode() or None)
            response = connection.getresponse()
            return response.status, response.read().decode()
        except OSError:
            return 0, ""


class Later(threading.Thread):
    """A request that waits."""

    def __init__(self, server: Server, method: str, path: str, body: str = ""):
        super().__init__(daemon=True)
        self.told: tuple[int, str] | None = None
        self.words = server, method, path, body
        self.start()

    def run(self) -> None:
        self.told = asked(*self.words, seconds=60)


def test_a_disk_that_stands_still(room: Room, dice: random.Random) -> list[str]:
    """No answer rests on what isn't durable, all else is answered, and it goes on once the disk does."""
    server, still = DurableServer(room, room.file("data")), room.file("still")
    server.loses_power(room, POWERLESS_STANDS=still)
    room.start(server)
    server.call("begin\nput . quiet 1\ncommit .\n")
    faults = []
    with open(still, "w"):
        # The mark that is durable is used up: no transaction begins any more.
        begins = [Later(server, "POST", "/call", "begin %d\n" % at) for at in (60000, 65536, 100000)]
        puts = [Later(server, "PUT", "/key/k%d" % at, "1") for at in range(8)]
        time.sleep(1)
        for path, wanted in (("/healthz", 200), ("/", 200), ("/page/page.css", 200), ("/nothing", 404), ("/key/quiet?at=1", 200)):
            status, _ = asked(server, "GET", path)
            if status != wanted:
                faults.append("%s is answered %d" % (path, status))
        if not any(put.told is None for put in puts):
            faults.append("a commit was told that isn't durable")
        if begins[-1].told or any(put.told for put in puts):
            faults.append("a call above the mark was told")
        time.sleep(10)
        status, text = asked(server, "GET", "/healthz")
        if status != 503 or "disk" not in text:
            faults.append("/healthz: %d %s" % (status, text))
    os.remove(still)
    for put in puts:
        put.join()
    if any(put.told is None or put.told[0] != 200 for put in puts):
        faults.append("behind it puts are told %s" % [put.told for put in puts])
    if asked(server, "GET", "/healthz") != (200, "ok\n"):
        faults.append("it isn't well again")
    return faults


def test_a_log_that_nobody_reads(room: Room, dice: random.Random) -> list[str]:
    """Everyone is served, healthz says it, and the lines come later."""
    server, (reader, writer) = Server(room.path, "--log-level", "debug"), os.pipe()
    fcntl.fcntl(writer, fcntl.F_SETPIPE_SZ, 4096)
    with open(server.log, "ab") as log:
        server.child = subprocess.Popen(server.command, stdout=log, stderr=writer, stdin=subprocess.DEVNULL)
    os.close(writer)
    room.programs.append(server)
    wait_for(lambda: asked(server, "GET", "/healthz")[0] == 200, "the server")
    faults = []
    for _ in range(70):  # each is a line, up to sixty
        foreign(server)
    status, text = asked(server, "PUT", "/key/k", "1")
    if status != 200:
        faults.append("a put is told %d %s" % (status, text))
    time.sleep(11)
    status, text = asked(server, "GET", "/healthz")
    if status != 200 or "standard error" not in text:
        faults.append("/healthz: %d %s" % (status, text))
    words, end = b"", time.monotonic() + 20
    os.set_blocking(reader, False)
    while words.count(b" refused ") < 60 and time.monotonic() < end:
        with contextlib.suppress(BlockingIOError):
            words += os.read(reader, 65536)
        time.sleep(0.05)
    if words.count(b" refused ") != 60 or b"log_lost" in words:
        faults.append("it says: %s" % words[-300:].decode())
    if asked(server, "GET", "/healthz") != (200, "ok\n"):
        faults.append("it isn't well again")
    os.close(reader)
    return faults


def foreign(server: Server) -> None:
    """A request of another site, which is refused."""
    connection = http.client.HTTPConnection("127.0.0.1", server.port, timeout=1)
    with contextlib.closing(connection), contextlib.suppress(OSError):
        connection.request("GET", "/state", headers={"Origin": "http://elsewhere.example"})
        connection.getresponse().read()


TESTS = (test_a_disk_that_stands_still, test_a_log_that_nobody_reads)
