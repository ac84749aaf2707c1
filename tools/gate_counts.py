"""What a whole gate counts, and what the log of one says. `top` is a checkout."""

import glob
import os
import re
import sys
from typing import Tuple

import gate_seconds

# What gate.py says last: what was done, and how long it took; from nothing also how many times the fixed set.
MEASURE = re.compile(r"(?m)^gate: .*: ([\d.]+) minutes by the clock, ([\d.]+) of processors(?:, ([\d.]+) times)?")
# The head of gate.py's table, and its indented lines.
TABLE = re.compile(r"(?m)^%s\n((?:    .*\n)*)" % re.escape(gate_seconds.TOLD))

Told = Tuple[str, str, str]


def of_the_gate(top: str) -> int:
    """How much a gate passes: each crate, and each edit that the prover refuses."""
    crates = os.path.join(glob.escape(top), "crates", "*")
    return len(glob.glob(crates)) + len(glob.glob(os.path.join(crates, "must-fail", "*.edit")))


def is_whole(top: str, told: str) -> bool:
    """Whether this tells that all has passed that a gate has to pass."""
    return told == "%d passed, 0 failed" % of_the_gate(top)


def of_log(top: str, told: str) -> Tuple[Told, gate_seconds.Seconds]:
    """The gate's result, count and seconds by its log, and the seconds of each crate. The first line of counts alone
    has the gate's, and `./test` counts more below. A gate that passed has to have done all in that run: one over kept
    proofs would mislead whoever asks what a gate takes."""
    found = list(re.finditer(r"(?m)^(\d+) passed, (\d+) failed(.*)$", told))
    if not found or any(it[3] for it in found):
        sys.exit("this log doesn't have the counts of a whole gate")
    gate, passed, failed = found[0][0], int(found[0][1]), int(found[0][2])
    if any(int(it[1]) < passed or int(it[2]) < failed for it in found):
        sys.exit("this log has the counts of more than one run")
    measured = MEASURE.search(told)
    if is_whole(top, gate) and not (measured and measured[3]):
        sys.exit("this log isn't of a run from nothing: run tools/gate.py --anew")
    if not measured or not measured[3]:
        return ("failed", gate, ""), {}
    counted = "%s, from nothing; %s processor minutes, %s times the fixed set" % (gate, measured[2], measured[3])
    table = TABLE.search(told)
    result = "passed" if is_whole(top, gate) else "failed"
    seconds = gate_seconds.read(table[1].splitlines()) if table else {}
    return (result, counted, str(round(60 * float(measured[1])))), seconds


def from_log(top: str, path: str) -> Tuple[Told, gate_seconds.Seconds]:
    with open(path, encoding="utf-8", errors="replace") as it:
        return of_log(top, it.read())
