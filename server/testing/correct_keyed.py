#!/usr/bin/python3
"""A writer with keys for the load: correct_keyed.py PORT NAME SEED LOG makes transactions until it is killed.

Each is one `POST /transact` with an `Idempotency-Key`, which is sent again and again, over kills of the server and of
this writer, until it is answered. So each has committed once, and it is always known when. LOG gets a line of JSON
before a transaction is sent first, and one with its answer. Values are as in `correct_writer`.

    {"is": "asked", "key": K, "identity": I, "body": TEXT}
    {"is": "committed", "key": K, "identity": I, "at": TS, "rows": N, "reads": [..], "writes": [..], "again": true}
"""

import http.client
import json
import os
import sys
import time
from typing import Any

from correct_writer import Writer, identity_at

PAUSE = 0.05
ASKED_AGAIN = (502, 503, 504)  # of the server, or of a proxy that finds none


class Keyed(Writer):
    def __init__(self, port: int, name: str, seed: str, log: str):
        super().__init__(port, name, seed, log)
        self.log_file = log

    def drawn_body(self) -> str:
        """Reads, which come first, and then writes of keys that are each written once."""
        reads = [{"get": self.drawn_key()} for _ in range(self.dice.randrange(4))]
        writes = dict(self.drawn_writes())
        steps = [{"del": key} if value is None else {"put": key, "value": value} for key, value in writes.items()]
        return json.dumps({"then": [*reads, *steps]})

    def ask(self, key: str, identity: str, body: str) -> tuple[dict[str, Any], bool]:
        """The answer, and whether it was given before."""
        headers = {"Idempotency-Key": key, "Ripsawbean-Identity": identity}
        while True:
            try:
                connection = http.client.HTTPConnection("127.0.0.1", self.port, timeout=60)
                connection.request("POST", "/transact", body, headers)
                response = connection.getresponse()
                told = response.read()
                connection.close()
            except (OSError, http.client.HTTPException):
                time.sleep(PAUSE)
                continue
            if response.status == 200:
                return json.loads(told), response.getheader("Idempotent-Replayed") == "true"
            if response.status not in ASKED_AGAIN:
                raise ValueError("%s was answered %d %s" % (key, response.status, told.decode()))
            time.sleep(PAUSE)

    def finish(self, key: str, identity: str, body: str) -> None:
        answer, again = self.ask(key, identity, body)
        steps = json.loads(body)["then"]
        if len(answer["results"]) != len(steps):
            raise ValueError("%s: %d steps, and %s" % (key, len(steps), answer))
        reads = [[one["key"], one["value"]] for one in answer["results"] if one]
        writes = [[one.get("put") or one["del"], one.get("value")] for one in steps if "get" not in one]
        self.note(**{"is": "committed"}, key=key, identity=identity, at=int(answer["timestamp"]),
                  rows=answer["written"], reads=reads, writes=writes, again=again)

    def run(self, identity: str) -> None:
        for one in asked_in(self.log_file):
            self.finish(one["key"], one["identity"], one["body"])
        while True:
            key, body = "%s.%d" % (self.name, next(self.serial)), self.drawn_body()
            self.note(**{"is": "asked"}, key=key, identity=identity, body=body)
            self.finish(key, identity, body)
            time.sleep(self.dice.random() * 0.02)


def asked_in(log: str) -> list[dict[str, Any]]:
    """What was asked and has no answer."""
    asked: dict[str, dict[str, Any]] = {}
    if os.path.exists(log):
        with open(log) as lines:
            for one in map(json.loads, (line for line in lines if line.endswith("\n"))):
                if one["is"] == "asked":
                    asked[one["key"]] = one
                else:
                    asked.pop(one["key"])
    return list(asked.values())


def finish_all(port: int, log: str) -> None:
    """What a writer that was killed has left is asked for once more."""
    writer = Keyed(port, "", "", log)
    for one in asked_in(log):
        writer.finish(one["key"], one["identity"], one["body"])


def main(port: str, name: str, seed: str, log: str) -> None:
    writer = Keyed(int(port), name, seed, log)
    while True:
        try:
            identity = identity_at(int(port))
            break
        except OSError:
            time.sleep(PAUSE)
    writer.run(identity)


if __name__ == "__main__":
    main(*sys.argv[1:])
