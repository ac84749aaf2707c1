"""What one client that takes whatever it gets leaves to others: `server/bench shares`.

For each kind of it (`taker`) another client puts a row each 10 milliseconds, by a process of its own, and a third follows
them by a feed. A PUT is counted from when it was due. Then `POST /transact` of 64 clients with `--data` beside the same
without, by turns.
"""

import base64
import contextlib
import dataclasses
import json
import multiprocessing
import os
import pathlib
import subprocess
import sys
import tempfile
import time
from collections.abc import Iterator

from .durable import Kept
from .figures import quantile
from .loaded import LONGEST, SERVER, Loaded, Ours, build_load, free_port
from .taker import HOLDER, KINDS

sys.path.append(str(SERVER / "testing"))
from handmade import Wire, bearer  # noqa: E402

NAMES = ("reader read", "writer read,write", "follower read")
READ, WRITE, FOLLOW = ("%s-0123456789abcdef" % name.split(" ")[0] for name in NAMES)
EVERY = 0.010  # seconds from one PUT to the next
WARM = 1.0  # seconds before PUTs count
SECONDS = 6.0
SILENCE = 1.0  # seconds without a row behind which none comes any more
ROWS = 30_000
ROUNDS, TRANSACTIONS = 3, 120_000
HEAD = """
| Beside one client's | a PUT: median, 99th percentile, most (ms) | refused | a feed: median, 99th percentile, most (ms) |
|---|---|---|---|"""


@dataclasses.dataclass(frozen=True)
class Waited:
    """Seconds, rising, and how many were refused."""

    seconds: list[float]
    refused: int = 0

    def told(self) -> str:
        if not self.seconds:
            return "none came"
        return "%.1f, %.1f, %.0f" % (*(1e3 * quantile(self.seconds, share) for share in (0.5, 0.99)), 1e3 * self.seconds[-1])


class Tokened(Loaded):
    name = "Ripsawbean"

    def __init__(self) -> None:
        tokens = pathlib.Path(tempfile.mkdtemp()) / "tokens"
        lines = ("%s - - %s\n" % pair for pair in zip(NAMES, (READ, WRITE, FOLLOW)))
        tokens.write_text("".join(lines))
        port = free_port()
        command = [os.environ.get("SERVER") or str(SERVER / "run"), "--port", str(port), "--tokens", str(tokens)]
        super().__init__(command, port)
        with contextlib.closing(Wire(port)) as wire:
            for first in range(0, ROWS, 1000):
                puts = "".join("put . k%06d %s\n" % (row, "x" * 1000) for row in range(first, first + 1000))
                wire.ask("POST", "/call", bearer(WRITE), ("begin\n%scommit .\n" % puts).encode())
                assert b"=> committed" in wire.answer()[1]


def puts(port: int, until: float) -> Waited:
    """The row's value is when it was sent."""
    wire, due, found, refused = Wire(port), time.monotonic(), [], 0
    while due < until:
        time.sleep(max(0.0, due - time.monotonic()))
        try:
            wire.ask("PUT", "/key/told", bearer(WRITE), b"%.6f" % time.monotonic())
            refused += wire.answer()[0] != 200
        except OSError:  # it was cut
            refused, wire = refused + 1, Wire(port)
        found.append(time.monotonic() - due)
        due += EVERY
    return Waited(sorted(found), refused)


def follows(port: int, until: float) -> Waited:
    """How long each row took from when it was sent. It reads on until nothing comes any more."""
    found, wire = [], Wire(port, timeout=SILENCE)
    wire.ask("GET", "/feed?lo=told&hi=tole", bearer(FOLLOW))
    assert wire.head()[0] == 200
    last = until
    while time.monotonic() < max(last, until) + SILENCE:
        with contextlib.suppress(TimeoutError):
            line = wire.until(b"\n")
            if line.startswith(b'{"after"'):
                last = time.monotonic()
                found.append(last - float(base64.b64decode(json.loads(line)["after"])))
    return Waited(sorted(found))


@contextlib.contextmanager
def taking(kind: str, port: int) -> Iterator[None]:
    if not kind:
        yield
        return
    command = [sys.executable, "-B", "-m", "ripsawbean_bench.taker", kind, str(port), READ]
    with subprocess.Popen(command, stdout=subprocess.PIPE, cwd=SERVER) as taker:
        try:
            assert taker.stdout and taker.stdout.readline() == b"ready\n"
            time.sleep(WARM)
            yield
        finally:
            taker.kill()


def beside(kind: str) -> str:
    server = Tokened()
    try:
        with taking(kind, server.port), multiprocessing.Pool(2) as pool:
            until = time.monotonic() + SECONDS
            asked = [pool.apply_async(one, (server.port, until)) for one in (follows, puts)]
            told, put = (one.get(LONGEST) for one in asked)
        return "| %s | %s | %d of %d | %s |" % (kind or "nothing", put.told(), put.refused, len(put.seconds), told.told())
    finally:
        server.end()


def main(scale: float) -> None:
    build_load()
    print("load at the start: %.1f, %d processors" % (os.getloadavg()[0], os.cpu_count() or 0), flush=True)
    print(HEAD, flush=True)
    for kind in ("", *KINDS, HOLDER):
        print(beside(kind), flush=True)
    durable(scale)
    print("load at the end: %.1f" % os.getloadavg()[0], flush=True)


def durable(scale: float) -> None:
    """Rates by turns, so that both have the same machine."""
    peers = Ours(), Kept()
    try:
        rates = [[], []]
        for _ in range(ROUNDS):
            for peer, found in zip(peers, rates):
                found.append(peer.transactions("transactions", 64, max(int(TRANSACTIONS * scale), 640), 1, 1).rate or 0.0)
        plain, kept = (quantile(found, 0.5) for found in rates)
        print("\n64 clients by POST /transact: %s a second without --data, %s with it: %.0f %%" % (
            "{:,.0f}".format(plain), "{:,.0f}".format(kept), 100 * kept / plain), flush=True)
    finally:
        for peer in peers:
            peer.end()
