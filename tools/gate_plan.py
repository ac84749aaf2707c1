"""What a gate has to do, and how long that takes on this machine. `top` is a checkout; gate.py beside this asks.

A task is the proof of a crate, that of its tests, or its edits. What the kit has kept of an earlier run of the same
files is no task. The seconds of a task are those of the last gate from nothing, by LAST-RUN, times the pace of this
machine: how long it takes for what another took one second for.
"""

import glob
import hashlib
import json
import os
import resource
import subprocess
import tempfile
from dataclasses import replace
from typing import Any, Dict, List, Set, Tuple

import gate_seconds
import kit
import side_by_side
from side_by_side import Crate

PROOF, TESTS, EDITS = "proof", "tests", "edits"
Task = Tuple[str, str]
# An edit whose crate had none yet takes so many seconds, beside the proof that all of them begin with.
SECONDS_AN_EDIT = 12.0
# A crate that stands on no other, by whose proof the pace of a machine is found that has run no gate yet.
PROBE = "byte_log"


def tasks(top: str) -> Dict[Task, Crate]:
    """All tasks of a gate, each as a piece of work that waits for the proofs of the crates below. Those of the lowest
    crates come first."""
    measured, found = gate_seconds.of(top), {}
    for crate in side_by_side.crates_of(top):
        folder = os.path.join(top, "crates", crate.name)
        deps = tuple("%s %s" % (it, PROOF) for it in crate.deps)
        spent = measured.get(crate.name)
        proof = spent.proof if spent and spent.proof else crate.seconds
        edits = len(glob.glob(os.path.join(glob.escape(folder), "must-fail", "*.edit")))
        planned = {PROOF: proof}
        if side_by_side.count_of(rb"(?m)^\s*#\[test\b", folder, ".rt"):
            planned[TESTS] = spent.tests if spent and spent.tests else proof
        if edits:
            planned[EDITS] = spent.edits if spent and spent.edits else proof + edits * SECONDS_AN_EDIT
        for kind, seconds in planned.items():
            work = replace(crate, name="%s %s" % (crate.name, kind), deps=deps, seconds=seconds)
            found[crate.name, kind] = work
    return found


def kept(top: str) -> Set[Task]:
    """The tasks that the kit needn't do, because an earlier run on this machine did them. They are looked for as the
    kit's own code does; where that is other than this expects, none are known."""
    try:
        return kept_by(kit.code_of_the_kit(), top)
    except (OSError, SyntaxError, ValueError, AttributeError, KeyError, TypeError, SystemExit):
        return set()


def kept_by(rt: Any, top: str) -> Set[Task]:
    rt.rtlib.Crate, rt.Crate.allowed = rt.Crate, rt.handles_of(top)
    crates, found = rt.crates_of(top), set()
    store = rt.Kept(crates)
    for crate in crates:
        key = store.key(crate)
        for kind in (PROOF, TESTS):
            if os.path.isdir(store.place(crate, kind == TESTS, key)):
                found.add((crate.name, kind))
        if (crate.name, PROOF) in found:
            # The keys of the crates above have the sum of this library.
            with open(os.path.join(store.place(crate, False, key), "made.json"), encoding="utf-8") as it:
                made = [] if crate.is_program else [tuple(file) for file in json.load(it)["files"]]
            store.rlibs[crate.name] = hashlib.sha256(repr(made).encode()).hexdigest()
        edits = rt.edits_of(crate)[0]
        sums = [key, rt.stamp_of(crate, {})]
        if all(any(store.tried(store.of_edit(edit, it)) for it in sums) for edit in edits):
            found.add((crate.name, EDITS))
    return found


def note_of_the_machine() -> str:
    """Where it is noted how long the fixed set last took on this machine: in the user's cache."""
    cache = os.environ.get("XDG_CACHE_HOME") or os.path.join(os.path.expanduser("~"), ".cache")
    return os.path.join(cache, "ripsawbean", "gate-fixed-set")


def note(seconds: float) -> None:
    path = note_of_the_machine()
    os.makedirs(os.path.dirname(path), exist_ok=True)
    with open(path, "w", encoding="ascii") as it:
        it.write("%.1f\n" % seconds)


def pace(top: str) -> float:
    """How long this machine takes for one second of LAST-RUN: by the fixed set's last run here, or by a small proof."""
    measured = gate_seconds.of(top)
    fixed = gate_seconds.of_fixed_set(measured)
    try:
        with open(note_of_the_machine(), encoding="ascii") as it:
            return float(it.read()) / fixed if fixed else 1.0
    except (OSError, ValueError):
        probe = measured.get(PROBE)
        return (probed(top) or probe.proof) / probe.proof if probe and probe.proof else 1.0


def probed(top: str) -> float:
    """The processor seconds of a small proof on this machine, or 0 where there is no such proof."""
    try:
        rt = kit.code_of_the_kit()
        crate = rt.rtlib.Crate(os.path.join(top, "crates", PROBE), top, {})
        before = resource.getrusage(resource.RUSAGE_CHILDREN)
        with tempfile.TemporaryDirectory() as room:
            made = ["-o", os.path.join(room, "made.rlib"), "--statements"]
            words = [rt.rtlib.RATTLE, "build", *crate.words(["--jobs", "1"], keeps=False), *made]
            ran = subprocess.run(words, cwd=crate.folder, stdin=subprocess.DEVNULL, capture_output=True)
    except (OSError, SyntaxError, ValueError, AttributeError, SystemExit):
        return 0.0
    after = resource.getrusage(resource.RUSAGE_CHILDREN)
    spent = after.ru_utime + after.ru_stime - before.ru_utime - before.ru_stime
    return spent if ran.returncode == 0 else 0.0


def minutes(left: List[Crate], pace: float) -> int:
    """About how many minutes these tasks take by the clock, and the programs and tests that run behind them."""
    waits = {it.name for it in left}
    works = [replace(it, deps=tuple(dep for dep in it.deps if dep in waits)) for it in left]
    seconds = side_by_side.seconds_left(works, len(os.sched_getaffinity(0)))
    return round(0.4 + (pace * seconds + 45) / 60)
