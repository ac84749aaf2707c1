"""Clients that mean harm, or mean nothing and do harm: `server/test attacks`, in some ten minutes.

Each attack is a test with a bound, and a figure that is told. `--heavy` is for the whole size of each, in some twenty
minutes, and `--runs 100` for as many servers that get no more memory. It needs nothing but a server to start, nginx,
Caddy and openssl.
"""

import argparse
import functools
import os
import time
import traceback
from collections.abc import Callable

import attack_beside
import attack_growth
import attack_http
import attack_limits
import attack_memory
import attack_operating
import attack_shares
import attack_slow
import attack_tokens
import attack_wire
from attack_beside import Scale
from machine import Program, Room
from tally import Tally

THEMES = (attack_beside, attack_memory, attack_growth, attack_slow, attack_wire, attack_http, attack_limits, attack_tokens,
          attack_shares, attack_operating)
Test = Callable[[Room, Scale], str]


def last_words(program: Program) -> str:
    return "%s: %s" % (os.path.basename(program.log), " / ".join(program.words()[-300:].strip().split("\n")[-3:]))


def words_of(why: Exception) -> list[str]:
    """Where it was raised, and what it says: of long words the first and the last ones."""
    words = "".join(traceback.format_exception_only(why)).strip().split("\n")
    return traceback.format_tb(why.__traceback__)[-1].strip().split("\n") + words[:2] + words[2:][-4:]


def attack(test: Test, scale: Scale, tally: Tally) -> None:
    name = test.__name__.removeprefix("test_").replace("_", " ")
    began, faults, figures = time.monotonic(), [], ""
    with Room() as room:
        try:
            figures = test(room, scale)
        except Exception as why:
            faults = words_of(why) + [last_words(one) for one in room.programs]
    tally.told("%s (%.0f s)" % (name, time.monotonic() - began), faults, figures)


def main(words: list[str]) -> Tally:
    parser = argparse.ArgumentParser(prog="server/test attacks", description="Attacks a server.")
    parser.add_argument("--heavy", action="store_true", help="the whole size of each")
    parser.add_argument("--runs", type=int, default=3, metavar="N", help="servers that get no more memory (3)")
    parser.add_argument("--only", default="", metavar="WORDS", help="those with these words in their name or theme")
    parser.add_argument("program", metavar="MVFEED", help="not needed here")
    given = parser.parse_args(words)
    scale, tally = Scale.WHOLE if given.heavy else Scale.DAILY, Tally("attacks")
    for theme in THEMES:
        for test in theme.TESTS:
            if given.only in theme.__name__ or given.only in test.__name__.replace("_", " "):
                if test is attack_limits.test_limits:
                    test = functools.update_wrapper(functools.partial(test, runs=given.runs), test)
                attack(test, scale, tally)
    return tally
