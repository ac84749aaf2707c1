#!/usr/bin/env python3
"""An `rt` that only plays one, for test_mutate.py.

It proves each function, but refuses where a body says `2`, can't read one that says `None`, and names nothing where one
says `max`.
"""

import re
import sys

verb, *words = sys.argv[1:]
if verb in ("lib", "check"):
    lines, status = open("src/lib.rt").read().split("\n"), 0
    for at, line in enumerate(lines):
        name = re.match(r"fn (\w+)", lines[at - 1])
        if name and "None" in line:
            print("src/lib.rt:%d:5: error: no value" % (at + 1))
            sys.exit(1)
    for at, line in enumerate(lines):
        name = re.match(r"fn (\w+)", lines[at - 1])
        if not name:
            continue
        wrong = "2" in line or "max" in line
        status = status or int(wrong)
        print("fn low::%s: %s" % (name[1], "not proved" if wrong else "proved"))
        if "2" in line:
            print("./proofs/%s/Answers.antt:1:1: error: `returns`: they differ" % name[1])
    print("only=9 proved=8" if "--only" in words else "logic=%sproved" % ("not-" if status else ""))
    sys.exit(status)
