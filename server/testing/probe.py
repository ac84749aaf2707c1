#!/usr/bin/python3
"""Asks small things at a steady pace: probe.py PORT KIND SECONDS [TOKEN] writes a line of JSON with its latencies.

KIND `session` sends a transaction of one row over a WebSocket, `get` asks GET /consumer/nobody, `call` POST /call and
`put` PUT of a key. A latency is counted from when the question was due, not from when it was sent: so a server that
stands still for a second is seen in all that was due in that second.
"""

import json
import sys
import time
from collections.abc import Callable

from handmade import Session, Wire, bearer

EVERY = 0.010  # seconds from one question to the next: more than one takes, so that none waits for the one before it
SMALL = "begin\nput . probe x\ncommit .\n"


def asker(port: int, kind: str, token: str) -> Callable[[], None]:
    if kind == "session":
        session = Session(port, token)

        def ask() -> None:
            if "=> committed 1\n" not in (told := session.call(SMALL)):
                raise ValueError("the small transaction: " + told)
        return ask
    wire = Wire(port)

    def ask_plain() -> None:
        if kind == "call":
            wire.ask("POST", "/call", bearer(token), SMALL.encode())
        elif kind == "put":
            wire.ask("PUT", "/key/probe", bearer(token), b"x")
        else:
            wire.ask("GET", "/consumer/nobody", bearer(token))
        status, body = wire.answer()
        if status != 200:
            raise ValueError("the small request: %d %r" % (status, body[:200]))
    return ask_plain


def latencies(ask: Callable[[], None], seconds: float) -> list[float]:
    due = time.perf_counter()
    end, found = due + seconds, []
    while due < end:
        if (early := due - time.perf_counter()) > 0:
            time.sleep(early)
        ask()
        found.append(time.perf_counter() - due)
        due += EVERY
    return sorted(found)


def main(port: str, kind: str, seconds: str, token: str = "") -> None:
    found = latencies(asker(int(port), kind, token), float(seconds))
    at = {name: found[min(int(len(found) * share), len(found) - 1)] for name, share in (("p50", 0.5), ("p99", 0.99))}
    print(json.dumps({**at, "most": found[-1], "count": len(found)}))


if __name__ == "__main__":
    main(*sys.argv[1:])
