"""Tests of gate_counts.py: what of a log is the gate's, and that a run over kept proofs isn't told as one."""

import gate_counts
import gate_seconds
import testing
from gate_seconds import Spent

SECONDS = {"low": Spent(40, 20), "high": Spent(30, 0, 10)}
ALL_DONE = "gate: all was done in this run: 2.0 minutes by the clock, 1.7 of processors, 2.5 times the proofs\n"
OVER_KEPT = "gate: the rest was kept: 0.5 minutes by the clock, 0.2 of processors\n"
PROGRESS = "gate: 1 of 3 proofs are done, about 2 minutes left\n"
TABLE = "".join(it + "\n" for it in [gate_seconds.TOLD, *("    " + it for it in gate_seconds.table(SECONDS))])


class Logs(testing.Housed):
    def test_the_gate_s_row_is_the_first_count_of_its_log(self):
        for path in ("low/must-fail/one.edit", "high/must-fail/two.edit", "high/wrong-bodies/one.edit"):
            self.write("crates/" + path, "")
        count = gate_counts.of_the_gate(self.top)
        self.assertEqual(count, 4)
        whole, before = "%d passed, 0 failed" % count, PROGRESS + TABLE + ALL_DONE
        counted = whole + ", from nothing; 1.7 processor minutes, 2.5 times the fixed set"
        of_test = "%s\nembed: 25 passed, 0 failed\ntest result: ok. 6 passed; 0 failed\n%d passed, %d failed\n"
        for text, told in {
            before + whole + "\n": ("passed", counted, "120"),
            "3 passed, 0 failed\n": ("failed", "3 passed, 0 failed", ""),
            OVER_KEPT + "3 passed, 1 failed\n": ("failed", "3 passed, 1 failed", ""),
            # Of `./test`, whose seconds aren't the gate's.
            before + of_test % (whole, count + 26, 0): ("passed", counted, "120"),
            before + of_test % (whole, count + 25, 1): ("passed", counted, "120"),
            of_test % ("3 passed, 1 failed", 3, 1): ("failed", "3 passed, 1 failed", ""),
            of_test % ("3 passed, 0 failed", count, 0): ("failed", "3 passed, 0 failed", ""),
            before + "%s\nembed/test isn't run: there is no gcc\n%s\n" % (whole, whole): ("passed", counted, "120"),
            # Over kept proofs, or without gate.py.
            OVER_KEPT + whole + "\n": None,
            whole + "\n": None,
            # Of more than one run, of a part, or of none.
            before + whole + "\n3 passed, 1 failed\n": None,
            before + "%s\n%d passed, 1 failed\n" % (whole, count - 1): None,
            before + "%d passed, 1 failed\n%s\n" % (count - 1, whole): None,
            before + whole + "\n9 passed, 0 failed (a and the crates below alone: not the gate)\n": None,
            "9 passed, 0 failed (a and the crates below alone: not the gate)\n" + before + whole + "\n": None,
            "embed: 25 passed, 0 failed\n": None,
        }.items():
            self.write("log", "rt: low proved\n" + text)
            with self.subTest(text=text):
                if told:
                    found, seconds = gate_counts.from_log(self.top, self.top + "/log")
                    self.assertEqual((found, seconds), (told, SECONDS if told[2] else {}))
                    continue
                with self.assertRaises(SystemExit):
                    gate_counts.from_log(self.top, self.top + "/log")
