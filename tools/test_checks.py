"""Tests of the script `checks`: what it makes of a check's end, and what its own status says. Then those of the scripts
that it runs in a fresh clone."""

import contextlib
import io
import os
import re
import subprocess
import sys
from unittest import mock

import check_table
import gate_counts
import gate_seconds
import last_run
import testing
import tried
from check_table import Check

checks = testing.script("checks")
MEASURE = "gate: all was done in this run: 2.0 minutes by the clock, 1.7 of processors, 2.5 times the proofs of low"
# A `try` that plays what it is told to.
PLAYING = """#!/bin/sh
case "$*" in
check) %(check)s ;;
"")
    given=$(cat)
    [ "$given" != "0 bad" ] || { %(fault)s; }
    %(first)s
    ;;
*) exit 4 ;;
esac
"""


def check_of(script, told=r"(\d+) tests", name="one", limit=20):
    return Check(name, "a check", ["sh", "-c", script], told, "tests" if told else "", limit)


class Checks(testing.Housed):
    def setUp(self):
        super().setUp()
        self.write("crates.txt", "low:\n")
        self.write("crates/low/src/lib.rt", "fn low() {}\n")
        self.write(last_run.PAGE, "")

    def result(self, check, *more):
        """The result of a check, its count, and what was told."""
        with contextlib.redirect_stdout(io.StringIO()) as told:
            return (*checks.run(check, dict(os.environ), check.limit, *more)[:2], told.getvalue())

    def test_a_check_passes_with_its_count(self):
        self.assertEqual(self.result(check_of("echo 3 tests; echo 4 tests")), ("passed", "4 tests", ""))

    def test_a_check_that_fails_shows_what_it_told(self):
        self.assertEqual(self.result(check_of("echo why >&2; false", "")), ("failed", "", "    why\n"))

    def test_a_check_that_counts_nothing_fails(self):
        self.assertEqual(self.result(check_of("echo none"))[:2], ("failed", ""))
        self.assertEqual(self.result(check_of("echo 0 tests"))[:2], ("failed", "0 tests"))

    def test_a_check_whose_script_is_gone_fails(self):
        self.assertEqual(self.result(Check("one", "a check", ["./gone"], r"(\d+) tests", "tests"))[0], "failed")

    def test_a_gate_passes_with_all_that_it_has(self):
        whole = gate_counts.of_the_gate(testing.TOP)
        told = next(it.told for it in check_table.read() if it.name == "gate")
        for count, rest, result in [(whole, "", "passed"), (whole - 1, "", "failed"), (whole, " (a alone)", "failed")]:
            script = "echo '%s'; echo '%d passed, 0 failed%s'" % (MEASURE, count, rest)
            with mock.patch.object(gate_seconds, "put"):
                self.assertEqual(self.result(check_of(script, told, "gate"))[0], result)

    def test_a_check_that_wants_a_folder_gets_one(self):
        check = check_of('echo 3 tests >"$0/told"; cat "$0/told"')
        check.command.append(check_table.ROOM)
        self.assertEqual(self.result(check)[0], "passed")
        rooms = os.path.join(self.room, "new")
        self.result(check, rooms)
        self.assertIn("told", os.listdir(os.path.join(rooms, *os.listdir(rooms))))

    def ran(self, one, *words):
        """The status of a run of one check, what it told, and the row of its page."""
        with contextlib.ExitStack() as held:
            told = held.enter_context(contextlib.redirect_stdout(io.StringIO()))
            held.enter_context(mock.patch.object(checks, "TOP", self.top))
            held.enter_context(mock.patch.object(check_table, "read", lambda *_: [one]))
            held.enter_context(mock.patch.object(sys, "argv", ["checks", *words]))
            return checks.main(), told.getvalue().splitlines(), last_run.of(self.top).get(one.name)

    def test_the_status_tells_each_check_that_did_not_pass(self):
        """A check that is cut off fails the run as one that fails does, and so does one that a signal ends."""
        self.commit()
        ends = {"echo 3 tests": (0, "passed"), "echo 3 tests; sleep 60": (1, "cut off")}
        ends.update({"echo 3 tests; exit 2": (1, "failed"), "echo 3 tests; kill -9 $$": (1, "failed")})
        for script, (status, result) in ends.items():
            found, told, row = self.ran(check_of(script, limit=1))
            self.assertEqual((found, row.result, row.counted), (status, result, "3 tests"), script)
            self.assertEqual(told[-1], "checks: %d passed, %d failed" % (1 - status, status))

    def test_rows_of_a_log_and_of_another_checkout_are_taken_and_nothing_is_run(self):
        self.write("crates/low/wrong-bodies/one.edit", "")
        self.commit()
        other = os.path.join(self.room, "other")
        subprocess.run(["git", "clone", "-q", self.top, other], check=True)
        with mock.patch.object(self, "top", other):
            self.assertEqual(self.ran(check_of("echo 3 tests"))[0], 0)
        of_crate = {"low": tried.Row("2", "2", "`00`", "`0123456`", "1 May 2026")}
        tried.put(other, of_crate)
        one = check_of("false")
        status, told, row = self.ran(one, "--rows", other)
        self.assertEqual((status, told[-1], row), (0, "checks: 0 passed, 0 failed", last_run.of(other)["one"]))
        self.assertEqual((told[0], tried.of(self.top)), ("rows of %s: one, low" % other, of_crate))
        self.write("log", "%s\n    low 40 t20\n%s\n1 passed, 0 failed\n" % (gate_seconds.TOLD, MEASURE))
        status, told, row = self.ran(check_of("false", name="gate"), "--gate-log", os.path.join(self.top, "log"))
        counted = "1 passed, 0 failed, from nothing; 1.7 processor minutes, 2.5 times the fixed set"
        self.assertEqual((status, row[:3]), (0, ("passed", counted, "120")))
        self.assertEqual((gate_seconds.of(self.top), tried.of(self.top)), ({"low": (20, 20, 0)}, of_crate))

    def test_a_name_that_is_no_check_s_is_refused(self):
        with contextlib.redirect_stderr(io.StringIO()) as told, self.assertRaises(SystemExit) as ended:
            self.ran(check_of("true"), "two")
        self.assertEqual(ended.exception.code, 2)
        self.assertIn("there is no check two; there are one", told.getvalue())


class FreshClones(testing.Housed):
    def in_a_clone(self, script, files):
        """Whether a script passes of a repository of these files, and what it told."""
        for path in ("examples/first.script", "examples/first.transcript"):
            self.write(path, "a line\n")
        for path, text in files.items():
            self.write(path, text)
        self.commit()
        room = os.path.join(self.room, "room%d" % len(os.listdir(self.room)))
        os.mkdir(room)
        env = self.environment(PROGRAM=self.room + "/program", LIBRARY=self.room + "/library")
        ran = subprocess.run([script, self.top, room], env=env, capture_output=True, text=True)
        return ran.returncode == 0, ran.stdout + ran.stderr

    def from_nothing(self, told, program="the same", library="the archive", made="exit 0"):
        """Whether the check passes where a build in a fresh clone tells this, and makes the same files or others."""
        self.write("../program", program)
        self.write("../library", library)
        files = {
            "lines": told,
            "mvfeed": "#!/bin/sh\ncat\ncat lines >&2\n",
            "crates/mvfeed/out/mvfeed": "the same",
            "tools/side_by_side.py": "#!/bin/sh\necho 'ripsawbean: 3 crates, on 2 processors' >&2\n%s\n" % made,
            "crates/ripsawbean/out/libripsawbean.a": "the archive",
        }
        return self.in_a_clone(os.path.join(testing.HERE, "from_nothing.sh"), files)[0]

    def test_a_proof_from_nothing_takes_nothing_of_another_run(self):
        """A crate that was proved before fails this check, because its seconds are then not those from nothing."""
        of_run = "mvfeed: 1 crates, on 2 processors\n"
        self.assertTrue(self.from_nothing(of_run))
        self.assertFalse(self.from_nothing(of_run + "mvfeed: low was proved before, none left\n"))

    def test_other_bytes_fail_the_proof_from_nothing(self):
        told = "mvfeed: 1 crates, on 2 processors\n"
        self.assertFalse(self.from_nothing(told, "another"))
        self.assertFalse(self.from_nothing(told, library="another archive"))
        self.assertFalse(self.from_nothing(told, made="exit 1"))

    def test_a_first_answer_is_in_time_and_right_and_the_checker_says_so(self):
        with open(os.path.join(testing.HERE, "first_answer.sh"), encoding="utf-8") as it:
            script = it.read()
        self.assertIn("timeout --foreground 90 ./try <examples/first.script", script)
        # Nobody waits ninety seconds for a test.
        self.write("../first", script.replace("timeout --foreground 90 ", "timeout --foreground 2 "))
        parts = {
            "first": 'sleep 1; echo "$given"',
            "fault": "echo fault 1 2 unknowncommand; exit 2",
            "check": "cat >given; cmp given examples/first.transcript && echo yes",
        }
        for part, other, why in [
            ("", "", "the first answer took "),
            ("first", 'sleep 1; echo "$given"; exit 3', "no first answer"),
            ("first", 'sleep 4; echo "$given"', "no first answer"),
            ("first", 'sleep 1; echo "$given"; echo more', "EOF"),
            ("fault", "echo fault 1 2 unknowncommand; exit 1", ""),
            ("fault", "echo fault 1 2 unknowncommand; exit 0", ""),
            ("fault", "exit 2", ""),
            ("check", "cat >given; echo no", ""),
            ("check", "cat >given; echo yes; exit 3", ""),
        ]:
            passed, told = self.in_a_clone(self.room + "/first", {"try": PLAYING % {**parts, part: other}})
            self.assertEqual((passed, why in told), (not part, True), (part, other, told))
            self.assertTrue(part or re.search(r"took [12] seconds", told))
