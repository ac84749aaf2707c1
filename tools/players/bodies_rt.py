#!/usr/bin/env python3
"""An `rt` that only plays one, for test_wrong_bodies.py.

Its check refuses each function whose body says `wrong`, and shows no proof where it says `silent`. It can't read a
source that says `unread`. Of edits that are tried alone, it lets those through that say `fine`. A library that says
`taken` comes without kept work. It notes what it tried, and where a check begins without any.
"""

import glob
import os
import re
import sys

verb, *names = sys.argv[1:]
crate, status, notes = os.path.basename(os.getcwd()), 0, open(os.environ["NOTES"], "a")
if verb == "version":
    print("a kit logic 1a")
if verb in ("lib", "check"):
    turned, is_taken = [], "taken" in open("src/lib.rt").read()
    if verb == "check" and not os.path.isdir("out/incremental") and is_taken:
        notes.write(crate + " anew\n")
    if verb == "check" or not is_taken:
        os.makedirs("out/incremental", exist_ok=True)
    for path in sorted(glob.glob("src/*.rt")):
        text = open(path).read()
        if "unread" in text:
            print(path + ":1:1: error: no word")
        module = [it for it in [os.path.basename(path)[:-3]] if it != "lib"]
        for name, body in re.findall(r"(?ms)^fn (\w+).*?^    (\w+ is .*?)$.*?^}$", text):
            at = [*module, name]
            turned += [] if "well" in body else ["/".join(at)]
            is_refused = "wrong" in body or "silent" in body
            status = status or int(is_refused or "unread" in text)
            print("fn %s: %s" % ("::".join([crate, *at]), "not proved" if is_refused else "proved"))
            if "wrong" in body:
                print("./proofs/%s/Answers.antt:1:1: error: `returns`: they differ" % "/".join(at))
    if turned:
        notes.write(" ".join([crate, *turned]) + "\n")
    if "open" in open("src/lib.rt").read():
        status = 1
    asked = names.count("--only")
    print("only=%d proved=%d" % (asked, asked - status) if asked else "logic=not-proved" if status else "logic=proved")
for name in names if verb == "must-fail" else ():
    for path in sorted(glob.glob("crates/%s/must-fail/*.edit" % name)):
        edit, is_fine = "%s/%s" % (name, os.path.basename(path)), "fine" in open(path).read()
        notes.write("singly %s\n" % edit[:-5])
        status = status or int(is_fine)
        said = "NOT REFUSED: fine" if is_fine else "refused, as it must be: they differ"
        print("rt: must-fail %s: %s" % (edit, said))
sys.exit(status)
