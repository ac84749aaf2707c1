#!/usr/bin/env python3
"""Holds a client, or the server, to the records of `recorded/`. The last line says how many cases passed.

    run.py client COMMAND..      plays the server to a client, which COMMAND drives; README.md says how a driver talks
    run.py server                asks the server what clients ask
    run.py live COMMAND..        has a client use the server, through a proxy that cuts connections

    --only WORDS                 cases with these words in their name

SERVER names the program that serves, and server/run does where it doesn't.
"""

from __future__ import annotations

import argparse
import json
import os
import sys
from typing import Iterator, List

sys.dont_write_bytecode = True
import records  # noqa: E402
from driver import Driver  # noqa: E402
from fake import Fake  # noqa: E402
from live import live  # noqa: E402
from real import check  # noqa: E402

TOP = os.path.join(records.HERE, "..", "..")
SERVER = os.environ.get("SERVER") or os.path.join(TOP, "server", "run")


def faults_of_client(fake: Fake, driver: Driver, case: records.Case) -> Iterator[str]:
    fake.play(case)
    options = {"timeout": 20, **case.options}
    driver.tell({"connect": ",".join([fake.url] * options.pop("addresses", 1)), **options})
    for line in case.lines:
        if "call" in line:
            wanted = {name: line[name] for name in ("gives", "raises", "error", "found") if name in line}
            found = driver.ask({name: part for name, part in line.items() if name not in wanted})
            if {name: found.get(name, "nothing") for name in wanted} != wanted:
                yield "%s: %s, and not %s" % (line["call"], json.dumps(found), json.dumps(wanted))
    yield from fake.faults
    yield from ("never asks %s" % record["ask"] for record in fake.left)


def play(command: List[str], only: str) -> Iterator[bool]:
    fake, driver = Fake(), Driver(command)
    for case in records.load(only):
        yield told(case.name, list(faults_of_client(fake, driver, case)))
    driver.close()


def told(name: str, faults: List[str]) -> bool:
    """Tells how a case went: whether it passed."""
    print("%s: %s" % (name, "FAILED" if faults else "passed"), flush=True)
    for fault in faults:
        print("    " + fault[:2000])
    return not faults


def main() -> None:
    words = argparse.ArgumentParser(description=__doc__, formatter_class=argparse.RawDescriptionHelpFormatter)
    words.add_argument("side", choices=("client", "server", "live"))
    words.add_argument("--only", default="", metavar="WORDS")
    given, command = words.parse_known_args()
    if given.side == "client":
        went = list(play(command, given.only))
    elif given.side == "live":
        went = [told(name, faults) for name, faults in live(SERVER, command, given.only)]
    else:
        cases = [case for case in records.load(given.only) if case.is_real]
        went = [told(case.name, faults) for case, faults in check(SERVER, cases)]
    print("kit: %d passed, %d failed" % (went.count(True), went.count(False)))
    sys.exit(0 if went and all(went) else 1)


if __name__ == "__main__":
    main()
