"""The whole test: server/test hands over its options. The last line says how many passed.

Where the first word is `attacks`, `correct`, `durable` or `failover`, those tests are run, and no others.
"""

import argparse
import os
import signal
import subprocess
import sys
import time
import traceback
import unittest

import attacks
import copies
import correct
import durable
import edges
import failover
from kills import kill_and_compare
from machine import TOP, Room, Server
from mixed import run_mixed
from page import run_page
from tally import Tally

SERVED = ("test_served", "test_api", "test_plans", "test_openapi", "test_reference", "test_refusals", "test_costs")
OTHERS = {"attacks": attacks.main, "correct": correct.main, "durable": durable.main, "failover": failover.main}


def try_edges(tally, only):
    for test in edges.TESTS + copies.TESTS:
        name = test.__name__[len("test_") :].replace("_", " ")
        if only not in name:
            continue
        faults = []
        with Room() as room:
            try:
                test(room, room.start(Server(room.path, *edges.OPTIONS)))
            except Exception:
                faults = traceback.format_exc().strip().split("\n")[-12:] + [one.tail() for one in room.programs]
        tally.told(name, faults)


def try_units(tally):
    """The server's modules, each by itself."""
    done = subprocess.run([os.path.join(TOP, "server", "unit")], text=True, capture_output=True)
    tally.told("the server's modules", (done.stdout + done.stderr).strip().split("\n")[-20:] if done.returncode else [])


def tests_of(module):
    return unittest.defaultTestLoader.loadTestsFromName(module)


def try_served(tally, only):
    """Each test of these modules, with a server of its own."""
    suite = unittest.TestSuite(case for name in SERVED for case in tests_of(name))
    for test in (test for case in suite for test in case):
        name = test.id().split(".test_")[1].replace("_", " ")
        if only in name:
            result = unittest.TestResult()
            test.run(result)
            faults = [fault for _, text in result.failures + result.errors for fault in text.strip().split("\n")[-12:]]
            tally.told(name, faults)


def try_mixed(tally, given):
    figures, faults = "", []
    with Room() as room:
        try:
            figures, faults = run_mixed(room, given.program, given.seed, 12)
        except Exception:
            faults = traceback.format_exc().strip().split("\n")[-12:] + [one.tail() for one in room.programs]
    tally.told("a mixed load of all ways to write, seed %d" % given.seed, faults, figures)


def main():
    signal.signal(signal.SIGTERM, lambda *_: sys.exit(143))
    other = OTHERS.get(sys.argv[1])
    sys.exit((other(sys.argv[2:]) if other else whole()).end())


def whole():
    words = argparse.ArgumentParser(prog="server/test", description="Tests the server and its consumers on loopback.")
    for name, kind, default, letter, meaning in (
        ("--kills", int, 150, "N", "how many processes are killed (150)"),
        ("--seed", int, int(time.time()), "N", "draws what is killed when, and what is written"),
        ("--seconds", float, 0, "S", "the longest that the kills may take (4 each, and 120)"),
        ("--only", str, "", "WORDS", "of the other tests, those with these words in their name"),
    ):
        words.add_argument(name, type=kind, default=default, metavar=letter, help=meaning)
    words.add_argument("program", metavar="MVFEED", help="the built program, which checks transcripts")
    given, tally = words.parse_args(), Tally("server")
    if given.only in "modules":
        try_units(tally)
    try_served(tally, given.only)
    try_edges(tally, given.only)
    if given.only in "mixed load":
        try_mixed(tally, given)
    if given.only in "page":
        with Room() as room:
            pieces, faults = run_page(room.path, given.program)
        tally.told("the %d pieces of the page" % pieces, faults)
    if given.kills:
        tally.say("kills: seed %d" % given.seed)
        seconds = given.seconds or 120 + 4 * given.kills
        faults = kill_and_compare(given.program, given.kills, given.seed, seconds, tally.say)
        tally.told("kills", faults)
    return tally


if __name__ == "__main__":
    main()
