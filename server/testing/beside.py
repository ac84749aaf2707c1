"""How long others wait beside a heavy client.

The heavy client and the one that measures are processes of their own, so that neither slows the other by Python's lock.
The machine may be busy with other things. So the same is measured without the heavy client in the same minute, and the
bound is laid on what lies above that. And the kernel tells how long the server's threads waited for a processor: where
they got one for a third of the time that they could have used, all takes three times as long, and so the bound is three
times as large. A test tries up to three times, and the best counts: a server that stands still does so each time.
"""

import contextlib
import dataclasses
import glob
import json
import os
import subprocess
import sys
from collections.abc import Iterator

from machine import HERE, LONGEST, Program, Room, Server, wait_for

BOUND = 0.050  # seconds: what a heavy client may add to the 99th percentile of others
TRIES = 3
QUIET_SECONDS = 1.5


@dataclasses.dataclass(frozen=True)
class Latency:
    p50: float
    p99: float
    most: float
    count: int

    def __str__(self) -> str:
        return "p50 %.1f, p99 %.1f, max %.0f ms" % (self.p50 * 1e3, self.p99 * 1e3, self.most * 1e3)


def measure(server: Server, seconds: float, kind: str = "session", token: str = "") -> Latency:
    """Latencies of a small call, asked for so many seconds by a process of its own."""
    words = [sys.executable, "-B", os.path.join(HERE, "probe.py"), str(server.port), kind, str(seconds)]
    done = subprocess.run(words + [token] * bool(token), capture_output=True, text=True, timeout=seconds + LONGEST)
    if done.returncode:
        raise AssertionError("the small call has failed: " + done.stderr[-500:])
    return Latency(**json.loads(done.stdout))


class Heavy(Program):
    """A heavy client of heavy.py. It writes `ready` once it has what it needs, and `done` after each piece of work."""

    def __init__(self, room: Room, server: Server, kind: str, *words: str):
        command = [sys.executable, "-B", os.path.join(HERE, "heavy.py"), kind, str(server.port), *words]
        super().__init__(room.path, "heavy-" + kind, command)

    def pieces(self) -> int:
        return self.words().count("done\n")

    def is_ready(self) -> bool:
        if self.has_ended():
            raise AssertionError("the heavy client has ended: " + self.tail())
        return "ready\n" in self.words()


def processor_times(server: Server) -> tuple[int, int]:
    """How long the server's threads have run, and have waited for a processor, in nanoseconds."""
    run = waited = 0
    for task in glob.glob("/proc/%d/task/*/schedstat" % server.child.pid):
        with contextlib.suppress(OSError), open(task) as words:
            found = words.read().split()
            run, waited = run + int(found[0]), waited + int(found[1])
    return run, waited


@contextlib.contextmanager
def running(room: Room, server: Server, kind: str, *words: str) -> Iterator[Heavy]:
    heavy = room.start(Heavy(room, server, kind, *words))
    try:
        wait_for(heavy.is_ready, "the heavy client to be ready")
        yield heavy
    finally:
        heavy.kill()


def others_wait_little(room: Room, server: Server, kind: str, *words: str, seconds: float = 4.0, ask: str = "session",
                       token: str = "", bound: float = BOUND) -> str:
    """Fails where the heavy client makes others wait, each of three times. Gives the figures of the best."""
    figures = []
    for _ in range(TRIES):
        quiet = measure(server, QUIET_SECONDS, ask, token)
        with running(room, server, kind, *words) as heavy:
            before, times = heavy.pieces(), processor_times(server)
            loud = measure(server, seconds, ask, token)
            run, waited = (after - first for after, first in zip(processor_times(server), times))
            with contextlib.suppress(TimeoutError):
                wait_for(lambda: heavy.is_ready() and heavy.pieces() > before, "the heavy client to do anything")
            pieces = heavy.pieces() - before
        assert pieces, "the heavy client did nothing: " + heavy.tail()
        stretch = 1 + max(waited, 0) / max(run, 1)
        figures.append("%s beside %d pieces of work, and %s without; all took %.1f times as long" % (
            loud, pieces, quiet, stretch))
        if loud.p99 <= bound * stretch + 2 * quiet.p99:
            return figures[-1]
    raise AssertionError("others wait, each of %d times: %s" % (TRIES, "; ".join(figures)))
