#!/usr/bin/env python3
"""`tools/slow_proofs.py [CRATE..]` tells which parts of which crates take longer to prove than they may.

Each crate (all, where none is named) is checked from nothing, by one job, over the libraries below it, which `rt lib`
or `tools/side_by_side.py` made. The prover writes a file for each module as it ends, so the times of these files tell
what each took. Two kinds of module grow without anybody noticing, and each has a share:

    Lts     how a function goes: 8 seconds. A rich value that goes at several exits is written out at each: let it go
            by a call, at one exit, or write `impl Drop` for its type
    Proof   what a function's clauses ask: 3 seconds. An error clause that a tactic finds anew at each exit is dear:
            answer it by hand

It ends with a line `slow proofs: N crates, M modules above their share`, and with 1 where M isn't 0. Seconds are of the
wall, so nothing else heavy may run. All crates take some forty minutes on four processors, four crates at a time.
"""

import glob
import os
import re
import subprocess
import sys
import tempfile
from concurrent.futures import ThreadPoolExecutor

import side_by_side
from kit import code_of_the_kit

TOP = side_by_side.TOP
SHARES = {"Lts": 8.0, "Proof": 3.0}
# A module's file, of which the last word is its kind; its declarations are another file, written with it.
MODULE = re.compile(r"^(.*)\.(\w+)\.oantt$")


def seconds_of(folder):
    """Each module with the seconds from the end of the one before it to its own."""
    files = glob.glob(folder + "/**/*.oantt", recursive=True)
    files = [it for it in files if not it.endswith(".decls.oantt")]
    ended = sorted((os.stat(it).st_mtime, os.path.basename(it)) for it in files)
    return [(name, at - before) for (before, _), (at, name) in zip(ended, ended[1:])]


def above_their_share(modules):
    """The modules that took longer than their kind may, the slowest first."""
    found = []
    for name, seconds in modules:
        kind = MODULE.match(name)
        if kind and seconds > SHARES.get(kind[2], float("inf")):
            found.append((seconds, name.removesuffix(".oantt")))
    return sorted(found, reverse=True)


def checked(kit, name):
    """What a crate has above its share, or none where its check fails."""
    crate = kit.rtlib.Crate(os.path.join(TOP, "crates", name), TOP, {})
    with tempfile.TemporaryDirectory(prefix="slow-proofs-") as room:
        words = [kit.rtlib.RATTLE, "check", *crate.words(["--jobs", "1"], keeps=False), "--incremental", room]
        ran = subprocess.run(words, cwd=crate.folder, stdin=subprocess.DEVNULL, capture_output=True, text=True)
        return above_their_share(seconds_of(room)) if ran.returncode == 0 else None


def main(names):
    with open(os.path.join(TOP, "crates.txt"), encoding="utf-8") as it:
        names = names or list(side_by_side.listed(it.read()))
    kit, status, above = code_of_the_kit(), 0, 0
    with ThreadPoolExecutor(len(os.sched_getaffinity(0))) as pool:
        for name, found in zip(names, pool.map(lambda it: checked(kit, it), names)):
            if found is None:
                print("%s: its check failed, or a library below it isn't made" % name, flush=True)
                status = 1
            for seconds, module in found or ():
                print("%s: %.1f seconds: %s" % (name, seconds, module), flush=True)
            above += len(found or ())
    print("slow proofs: %d crates, %d modules above their share" % (len(names), above))
    return 1 if above else status


if __name__ == "__main__":
    sys.exit(main(sys.argv[1:]))
