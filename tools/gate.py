#!/usr/bin/env python3
"""`tools/gate.py [--anew]` runs `rt ci`, and says how long it will take, how far it is, and what it took.

Before it begins it says what is to be proved, because no earlier run on this machine proved the same files, and about
how many minutes that takes here. While it runs a line a minute says how far it is. At the end it tells the processor
seconds of each crate, and in one line whether all was done in this run, the minutes by the clock and of processors, and
how many times the processor time of three crates' proofs (timestamps, spans and kept) that is, by which machines
compare. The last line is `N passed, M failed`, as the kit says it. With --anew the kit does all again.
"""

import os
import re
import resource
import subprocess
import sys
import threading
import time
from dataclasses import replace
from typing import Callable, List, Tuple

import gate_plan
import gate_seconds
from gate_plan import EDITS, PROOF, TESTS, Task
from gate_watch import Watch

TOP = os.path.dirname(os.path.dirname(os.path.abspath(__file__)))
COUNTS = re.compile(r"\d+ passed, \d+ failed\b")
PROVED = re.compile(r"rt: (\w+)(?:(: its tests are)| is)? (?:proved|NOT PROVED|kept)\b")
ALL = "every proof and must-fail edit was done in this run"
SECONDS_A_LINE = 60


class Progress:
    """How far a run is: what it has to do, what is done, and at which pace."""

    def __init__(self, top: str, is_anew: bool):
        self.every = gate_plan.tasks(top)
        kept = set() if is_anew else gate_plan.kept(top)
        self.left = {task: work for task, work in self.every.items() if task not in kept}
        self.count, self.done = self.proofs_left(), 0
        self.pace = gate_plan.pace(top) if self.left else 1.0
        # The seconds of LAST-RUN for what is done, and those that it took.
        self.planned = self.spent = 0.0

    def proofs_left(self) -> int:
        return sum(kind != EDITS for _, kind in self.left)

    def before(self) -> str:
        """What is said before a run."""
        whole = sum(kind != EDITS for _, kind in self.every)
        rest = "nothing is kept" if self.count == whole else "the others are kept"
        words = (self.count, whole, rest, self.minutes(lambda _: 0), len(os.sched_getaffinity(0)))
        return "gate: %d of %d proofs are to be done, %s: about %d minutes on %d processors" % words

    def take(self, line: str, took: Callable[[Task], float]) -> None:
        """Notes what a line of the run says to be done."""
        found = PROVED.match(line)
        task = (found[1], TESTS if found[2] else PROOF) if found else ("", "")
        work = self.left.pop(task, None)
        if work:
            self.done += 1
            if took(task):
                self.planned, self.spent = self.planned + work.seconds, self.spent + took(task)

    def now(self, took: Callable[[Task], float]) -> str:
        """What is said during a run."""
        return "gate: %d of %d proofs are done, about %d minutes left" % (self.done, self.count, self.minutes(took))

    def minutes(self, took: Callable[[Task], float]) -> int:
        """The minutes that are left. What has taken some seconds already takes a tenth of its time at least."""
        pace = self.spent / self.planned if self.planned else self.pace
        # A copy, since a proof may end meanwhile.
        left = [(it, it.seconds - took(task) / pace) for task, it in dict(self.left).items()]
        return gate_plan.minutes([replace(it, seconds=max(rest, it.seconds / 10)) for it, rest in left], pace)


def told(watch: Watch, is_whole: bool, clock: float, processors: float) -> List[str]:
    """What is said after a run."""
    seconds = watch.seconds()
    fixed = gate_seconds.of_fixed_set(seconds)
    how = "all was done in this run" if is_whole else "the rest was kept"
    line = "gate: %s: %.1f minutes by the clock, %.1f of processors" % (how, clock / 60, processors / 60)
    if is_whole and fixed:
        gate_plan.note(fixed)
        line += ", %.1f times the proofs of %s" % (processors / fixed, ", ".join(gate_seconds.FIXED))
    return [gate_seconds.TOLD, *("    " + it for it in gate_seconds.table(seconds)), line]


def run(top: str, words: List[str], say: Callable[[str], None]) -> Tuple[int, str]:
    """Runs `rt ci`: its status, and its last line. The counts are said last."""
    progress = Progress(top, "--anew" in words)
    say(progress.before())
    began, before = time.monotonic(), resource.getrusage(resource.RUSAGE_CHILDREN)
    how = {"cwd": top, "stdout": subprocess.PIPE, "stderr": subprocess.STDOUT, "text": True, "errors": "replace"}
    try:
        ran = subprocess.Popen(["rt", "ci", *words], **how)
    except OSError as error:
        say(str(error))
        return 127, str(error)
    watch, ended, is_whole, last = Watch(ran.pid), threading.Event(), False, ""

    def look() -> None:
        said = time.monotonic()
        while not ended.wait(1):
            watch.look()
            if time.monotonic() - said >= SECONDS_A_LINE:
                said = time.monotonic()
                say(progress.now(watch.took))

    watching = threading.Thread(target=look, daemon=True)
    watching.start()
    with ran:
        for line in ran.stdout:
            if COUNTS.match(last):
                say(last)
            last = line.rstrip("\n")
            is_whole = is_whole or ALL in last
            progress.take(last, watch.took)
            if not COUNTS.match(last):
                say(last)
    ended.set()
    watching.join()
    after = resource.getrusage(resource.RUSAGE_CHILDREN)
    processors = after.ru_utime + after.ru_stime - before.ru_utime - before.ru_stime
    for it in told(watch, is_whole, time.monotonic() - began, processors):
        say(it)
    if COUNTS.match(last):
        say(last)
    return ran.returncode, last


def main(words: List[str]) -> int:
    if words not in ([], ["--anew"]):
        print(__doc__)
        return 0 if words in (["--help"], ["-h"]) else 2
    return run(TOP, words, lambda it: print(it, flush=True))[0]


if __name__ == "__main__":
    sys.exit(main(sys.argv[1:]))
