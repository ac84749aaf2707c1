"""Tests of gate.py, gate_plan.py and gate_watch.py: what is told before, during and after a gate that an `rt` plays."""

import os
import subprocess
import sys
from unittest import mock

import gate
import gate_counts
import gate_plan
import gate_seconds
import testing
from gate_seconds import Spent

# A prover of a crate: it keeps a processor at work for so many seconds.
PROVER = """import sys, time
while time.process_time() < float(sys.argv[1]): pass
"""
# An `rt ci` that has such provers prove: low and its tests, one after the other.
PLAYER = """#!/bin/sh
%(python)s prover.py 1.5 --crate-name low
echo "rt: low proved"
%(python)s prover.py 3.2 --crate-name low --test
echo "rt: low: its tests are proved"
echo "rt: high NOT PROVED: its library low failed"
echo "rt: ok; handles allowed: none; %(share)s"
echo "%(counts)s"
exit %(status)d
"""
TEST = "#[test]\nfn rises(rt: HostRuntime) {}\n"


class Gates(testing.Housed):
    def setUp(self):
        super().setUp()
        self.write("crates.txt", "low: std\nhigh: low\n")
        self.write("crates/low/src/lib.rt", TEST)
        self.write("crates/high/src/lib.rt", "fn one() {}\n")
        self.write("crates/high/must-fail/one.edit", "")
        self.write("prover.py", PROVER)
        gate_seconds.put(self.top, {"low": Spent(300, 600), "high": Spent(120, 0, 60)})
        for changed in (
            mock.patch.dict(os.environ, self.environment(XDG_CACHE_HOME=os.path.join(self.room, "cache"))),
            mock.patch.object(os, "sched_getaffinity", lambda _: {0, 1}),
            mock.patch.object(gate_plan, "kept", lambda _: set(self.kept)),
        ):
            changed.start()
            self.addCleanup(changed.stop)
        self.kept = []

    def run_gate(self, *words, share=gate.ALL, counts="3 passed, 0 failed", status=0):
        """The status and the last line of a gate, and all that it said."""
        said = []
        given = {"python": sys.executable, "share": share, "counts": counts, "status": status}
        testing.put(self.room, "bin/rt", PLAYER % given)
        return (*gate.run(self.top, list(words), said.append), said)

    def test_what_is_to_be_done_is_told_before(self):
        # Low's tests take 600 seconds, two jobs make that 462; shared out all is 540. The end of a run takes 45 more.
        told = "gate: 3 of 3 proofs are to be done, nothing is kept: about 10 minutes on 2 processors"
        self.assertEqual(gate.Progress(self.top, False).before(), told)
        self.kept = [("low", "proof"), ("low", "tests"), ("high", "edits")]
        told = "gate: 1 of 3 proofs are to be done, the others are kept: about 3 minutes on 2 processors"
        self.assertEqual(gate.Progress(self.top, False).before(), told)
        self.assertIn("nothing is kept", gate.Progress(self.top, True).before())

    def test_the_pace_is_that_of_the_last_run_on_the_machine(self):
        self.assertEqual(gate_plan.pace(self.top), 1)
        gate_seconds.put(self.top, {it: Spent(100) for it in ["low", *gate_seconds.FIXED]})
        gate_plan.note(450)
        self.assertEqual(gate_plan.pace(self.top), 1.5)

    def test_the_pace_of_a_new_machine_is_that_of_a_small_proof(self):
        gate_seconds.put(self.top, {gate_plan.PROBE: Spent(10)})
        for seconds, pace in {20.0: 2.0, 0.0: 1.0}.items():
            with mock.patch.object(gate_plan, "probed", lambda _, seconds=seconds: seconds):
                self.assertEqual(gate_plan.pace(self.top), pace)

    def test_what_each_crate_took_is_told_behind_and_the_counts_last(self):
        with mock.patch.object(gate, "SECONDS_A_LINE", 2), mock.patch.object(gate_seconds, "FIXED", ("low",)):
            status, last, said = self.run_gate("--anew")
        self.assertEqual((status, last, said[-1]), (0, "3 passed, 0 failed", "3 passed, 0 failed"))
        self.assertTrue(any("gate: 1 of 3 proofs are done, about " in it for it in said), said)
        self.write("log", "\n".join(said) + "\n")
        self.write("crates/high/must-fail/one.edit", "")
        (result, counted, seconds), found = gate_counts.from_log(self.top, os.path.join(self.top, "log"))
        self.assertEqual(result, "passed")
        told = r"^3 passed, 0 failed, from nothing; 0\.1 processor minutes, \d\.\d times the fixed set$"
        self.assertRegex(counted, told)
        self.assertTrue(1 <= found["low"].proof <= 3 and 2 <= found["low"].tests <= 5, found)
        self.assertGreaterEqual(int(seconds), 5)
        self.assertTrue(os.path.exists(gate_plan.note_of_the_machine()))

    def test_a_run_over_kept_proofs_is_not_told_as_a_gate(self):
        _, _, said = self.run_gate(share="done in this run: 1 of the 3 proofs")
        self.assertRegex(said[-2], r"^gate: the rest was kept: [\d.]+ minutes by the clock, [\d.]+ of processors$")
        self.write("log", "\n".join(said) + "\n")
        with self.assertRaisesRegex(SystemExit, "isn't of a run from nothing"):
            gate_counts.from_log(self.top, os.path.join(self.top, "log"))

    def test_a_gate_that_fails_is_told_so(self):
        status, last, said = self.run_gate(share="FAILED", counts="2 passed, 1 failed", status=1)
        self.assertEqual((status, last, said[-1]), (1, "2 passed, 1 failed", "2 passed, 1 failed"))
        os.remove(os.path.join(self.room, "bin", "rt"))
        with mock.patch.dict(os.environ, PATH=os.path.join(self.room, "bin")):
            self.assertEqual(gate.run(self.top, [], said.append)[0], 127)


class Kept(testing.Housed):
    def test_a_kit_that_is_other_than_expected_is_no_reason_to_fail(self):
        testing.put(self.room, "bin/rt", "#!/bin/sh\nexit 1\n")
        with mock.patch.dict(os.environ, self.environment()):
            self.assertEqual((gate_plan.kept(self.top), gate_plan.probed(self.top)), (set(), 0))

    def test_what_the_kit_has_kept_is_found(self):
        """The kit's own code says where it keeps a proof: a house of one library and its tests, which were proved."""
        self.write("crates.txt", "low: std\nhigh: low\n")
        self.write("HANDLES", "Handles allowed: none.\n")
        for name in ("low", "high"):
            self.write("crates/%s/src/lib.rt" % name, TEST)
            self.write("crates/%s/must-fail/one.edit" % name, "")
        subprocess.run(["git", "init", "-q", self.top], check=True)
        kit = gate_plan.kit.code_of_the_kit()
        kit.STORE = os.path.join(self.room, "store")
        kit.rtlib.Crate, kit.Crate.allowed = kit.Crate, kit.handles_of(self.top)
        low = kit.crates_of(self.top)[0]
        store = kit.Kept([low])
        testing.put(self.top, "crates/low/out/rlib/low.rlib/format", "1")
        testing.put(self.top, "crates/low/out/low_tests", "tests")
        for is_of_tests in (False, True):
            store.keep(low, is_of_tests, store.key(low))
        self.assertEqual(gate_plan.kept_by(kit, self.top), {("low", "proof"), ("low", "tests")})
        store.is_built(low)
        high = kit.crates_of(self.top)[1]
        store.first["high"] = kit.touched(high)
        testing.put(self.top, "crates/high/out/rlib/high.rlib/format", "1")
        store.keep(high, False, store.key(high))
        self.assertIn(("high", "proof"), gate_plan.kept_by(kit, self.top))
