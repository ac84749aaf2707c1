#!/usr/bin/env python3
"""An `rt` that only plays one, for test_refused_by_tests.py.

Its test fails where the source says `wrong`, isn't run where it says `unread`, and takes long where it says `slow`. Its
proof lacks an answer where the source says `refused`, and a name where it says `nameless`. It notes each source that
its test saw.
"""

import os
import sys
import time

text, notes = open("../low/src/lib.rt").read(), os.environ["NOTES"]
if sys.argv[1] == "check":
    if "refused" in text:
        print("note: `returns-clause-one` of proofs/one/Answers.antt must prove:")
    if "nameless" in text:
        print("./proofs/one/Answers.antt:3:4: error: `two` is not in scope")
    is_proved = "refused" not in text and "nameless" not in text
    print("logic=proved functions=1" if is_proved else "logic=not-proved")
    sys.exit(not is_proved)
with open(notes, "a") as it:
    it.write(" ".join(text.split()) + chr(10))
if "slow" in text:
    time.sleep(3)
    open(notes + ".late", "w").close()
if "unread" in text:
    sys.exit("src/lib.rt:1:1: error: no word")
print("test tests::%s ... %s" % (sys.argv[-1], "FAILED" if "wrong" in text else "ok"))
sys.exit("wrong" in text)
