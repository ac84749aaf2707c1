#!/usr/bin/python3
"""Who watches in the correctness load: correct_watcher.py PORT LOG feed|snapshot SEED LO HI [GAP] until it is killed.

`feed` follows a span and writes each line as it came, behind a line `{"opened": {..}}` for each stream. After a cut it
begins anew, or goes on from the last resolved timestamp. `snapshot` protects a closed timestamp, scans the span's rows
there, and writes their digest.
"""

import http.client
import json
import random
import sys
import time

from correct_consumer import digest_of
from correct_writer import identity_at
from handmade import Session


def feed(port: int, log: str, dice: random.Random, lo: str, hi: str, gap: str) -> None:
    place: tuple[str, str] | None = None
    span = "".join("&%s=%s" % item for item in (("lo", lo), ("hi", hi)) if item[1] != "-")
    with open(log, "ab", 0) as out:
        while True:
            goes_on = place is not None and (gap != "0" or dice.random() < 0.5)
            query = "&identity=%s&from=%s" % place if place and goes_on else ""
            query += "&gap=" + gap if gap != "0" and goes_on else ""
            try:
                connection = http.client.HTTPConnection("127.0.0.1", port, timeout=60)
                connection.request("GET", "/feed?" + (span + query)[1:])
                response = connection.getresponse()
                if response.status != 200:
                    place = None
                    time.sleep(0.1)
                    continue
                identity, began = response.headers["Ripsawbean-Identity"], response.headers["Ripsawbean-From"]
                out.write(json.dumps({"opened": {"identity": identity, "from": began, "is_initial": not goes_on,
                                                 "gap": gap if goes_on else "0", "lo": lo, "hi": hi}}).encode() + b"\n")
                for line in response:
                    if line.endswith(b"\n") and line != b"\n":
                        out.write(line)
                    if line.startswith(b'{"resolved"'):
                        place = identity, json.loads(line)["resolved"]
                        if gap != "0" and not goes_on:
                            break  # the first stream only finds a place: from there on it has its gap
                    if dice.random() < 0.0005:
                        break
                connection.close()
            except (OSError, http.client.HTTPException, KeyError):
                time.sleep(0.1)


def snapshot(port: int, log: str, dice: random.Random, lo: str, hi: str) -> None:
    with open(log, "ab", 0) as out:
        while True:
            try:
                identity, session = identity_at(port), Session(port, timeout=60)
                if identity == identity_at(port):
                    look(session, identity, dice, (lo, hi), out)
            except OSError:
                time.sleep(0.1)


def look(session: Session, identity: str, dice: random.Random, span: tuple[str, str], out: object) -> None:
    while True:
        closed = int(session.call("stats\n").split(" ")[-2])
        at = max(closed - dice.choice((0, 0, 3, 20)), 0)
        told = session.call("protect %d\n" % at)
        if "=> protected " in told:
            time.sleep(dice.random() * 0.5)
            lines = session.call("scanat %d %s %s\nrelease %s" % (at, *span, told.split(" ")[-1])).split("\n")
            digest = 0
            for line in lines[1:-2]:
                _, key, value = line.split(" ")
                digest ^= digest_of(key.encode(), value.encode())
            rows = int(lines[0].rpartition(" ")[2])
            what = {"identity": identity, "at": at, "digest": "%016x" % digest, "rows": rows}
            out.write(json.dumps(what).encode() + b"\n")  # type: ignore[attr-defined]
        time.sleep(dice.random() * 0.3)


if __name__ == "__main__":
    work = {"feed": feed, "snapshot": snapshot}[sys.argv[3]]
    work(int(sys.argv[1]), sys.argv[2], random.Random(sys.argv[4]), *sys.argv[5:])
