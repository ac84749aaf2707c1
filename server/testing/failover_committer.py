#!/usr/bin/python3
"""Commits on whichever of two PostgreSQL takes it: failover_committer.py LOG ADDRESS.. until it is killed.

So it is known from when on Patroni has done its work, beside what the servers make of it. LOG is as failover_probe's.
"""

import contextlib
import json
import os
import sys
import threading
import time
from typing import Any

import psycopg2
from failover_cluster import DATABASE

PAUSE = 0.1
COMMIT = "INSERT INTO trial VALUES (%s, 1) ON CONFLICT (at) DO UPDATE SET number = trial.number + 1"


def is_replica(cursor: Any) -> bool:
    cursor.execute("SELECT pg_is_in_recovery()")
    return bool(cursor.fetchone()[0])


def commit(log: int, address: str) -> None:
    """A row of its own, again and again. A commit with a warning wasn't waited for."""
    link = psycopg2.connect("host=%s %s" % (address, DATABASE))
    with contextlib.closing(link), link.cursor() as cursor:
        link.autocommit = True
        while is_replica(cursor):
            time.sleep(PAUSE)
        cursor.execute("CREATE TABLE IF NOT EXISTS trial (at text PRIMARY KEY, number int)")
        while True:
            asked = time.monotonic()
            cursor.execute(COMMIT, [address])
            if any("WARNING" in it for it in link.notices):
                link.notices.clear()
                continue
            line = {"is": "wrote", "at": address, "asked": asked, "told": time.monotonic()}
            os.write(log, (json.dumps(line) + "\n").encode())
            time.sleep(PAUSE)


def keep_on(log: int, address: str) -> None:
    while True:
        with contextlib.suppress(psycopg2.Error):
            commit(log, address)
        time.sleep(PAUSE)


def main(log: str, *addresses: str) -> None:
    out = os.open(log, os.O_APPEND | os.O_WRONLY | os.O_CREAT, 0o644)
    threads = [threading.Thread(target=keep_on, args=(out, it)) for it in addresses]
    for one in threads:
        one.start()
    for one in threads:
        one.join()


if __name__ == "__main__":
    main(*sys.argv[1:])
