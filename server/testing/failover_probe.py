#!/usr/bin/python3
"""Asks both of two servers all the time: failover_probe.py LOG TOKEN HOST.. until it is killed.

Of each server one thread writes a count of its own, each number until it is acknowledged, and two read both counts by
turns: one waits half a second for an answer, and one for long, so it hears what a server says that slept. LOG gets a
line of JSON for each answer, with the times by CLOCK_MONOTONIC at which it was asked and told.

    {"is": "wrote", "at": HOST, "asked": T, "told": T, "count": HOST, "number": N}
    {"is": "read", "at": HOST, "asked": T, "told": T, "count": HOST, "number": N}
"""

import http.client
import itertools
import json
import os
import sys
import threading
import time
from urllib.parse import quote

SOON, LATE = 0.5, 90.0  # seconds that an answer may take
PAUSE = 0.1
COUNTS = "real/"


class Asker(threading.Thread):
    def __init__(self, log: int, token: str, host: str, hosts: tuple[str, ...], limit: float):
        super().__init__(daemon=True)
        self.log, self.host, self.hosts, self.limit = log, host, hosts, limit
        self.shown = {"Authorization": "Bearer " + token}
        self.link: http.client.HTTPConnection | None = None

    def ask(self, method: str, count: str, body: str | None = None, key: str = "") -> tuple[float, int, str] | None:
        """When it was asked, and what was told, if it was."""
        asked = time.monotonic()
        try:
            if self.link is None:
                self.link = http.client.HTTPConnection(self.host, timeout=self.limit)
            headers = {**self.shown, **({"Idempotency-Key": key} if key else {})}
            self.link.request(method, "/key/" + quote(COUNTS + count, safe=""), body, headers)
            answer = self.link.getresponse()
            return asked, answer.status, answer.read().decode()
        except (OSError, http.client.HTTPException):
            if self.link:
                self.link.close()
            self.link = None
        return None

    def note(self, what: str, asked: float, count: str, number: int) -> None:
        line = {"is": what, "at": self.host, "asked": asked, "told": time.monotonic(), "count": count, "number": number}
        os.write(self.log, (json.dumps(line) + "\n").encode())


class Writer(Asker):
    def run(self) -> None:
        number, drawn = 1, os.urandom(8).hex()
        while True:
            found = self.ask("PUT", self.host, str(number), "%s.%d" % (drawn, number))
            if found and found[1] == 200:
                self.note("wrote", found[0], self.host, number)
                number += 1
            time.sleep(PAUSE)


class Reader(Asker):
    def run(self) -> None:
        for count in itertools.cycle(self.hosts):
            found = self.ask("GET", count)
            if found and found[1] in (200, 404):
                self.note("read", found[0], count, int(found[2]) if found[1] == 200 else 0)
            time.sleep(PAUSE)


def main(log: str, token: str, *hosts: str) -> None:
    out = os.open(log, os.O_APPEND | os.O_WRONLY | os.O_CREAT, 0o644)
    askers = [make(out, token, host, hosts, limit) for host in hosts
              for make, limit in ((Writer, SOON), (Reader, SOON), (Reader, LATE))]
    for one in askers:
        one.start()
    for one in askers:
        one.join()


if __name__ == "__main__":
    main(*sys.argv[1:])
