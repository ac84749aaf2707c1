"""Tests of the script `refused-by-tests`: what of a test's end shows a refusal, and what of a prover's, how an edit is
planted, and whole runs by an `rt` that only plays one."""

import os
import signal
import subprocess
import sys
import tempfile
import time
import unittest

import still_proved
import testing

script = testing.script("refused-by-tests")
GOAL = "note: `returns-clause-closed` of proofs/closing/Closing/release/Answers.antt must prove:"
FAILS = "test tests::leases::leases_end ... FAILED\n"
PLAYER = testing.player("tests_rt.py")


class Refusals(unittest.TestCase):
    def test_only_the_end_of_the_named_test_shows_a_refusal(self):
        """A body that doesn't compile fails every test, and shows nothing, nor does another test that fails."""
        self.assertTrue(script.is_refused(1, FAILS, "leases_end"))
        self.assertFalse(script.is_refused(None, "", "leases_end"))
        self.assertFalse(script.is_refused(0, FAILS, "leases_end"))
        self.assertFalse(script.is_refused(1, FAILS, "leases_begin"))
        self.assertFalse(script.is_refused(1, FAILS.replace("FAILED", "ok"), "leases_end"))
        self.assertFalse(script.is_refused(1, "error: fn leases_end: expects timestamps\nlogic=failed\n", "leases_end"))
        self.assertFalse(script.is_refused(2, "", "leases_end"))


class Proofs(unittest.TestCase):
    def test_only_a_verdict_shows_that_a_body_is_proved(self):
        self.assertTrue(still_proved.is_proved(0, "fn a::b: proved\nlogic=proved functions=3 sum=1\n"))
        self.assertTrue(still_proved.is_proved(0, "holes=0 only=2 proved=2\n"))
        for status, told in ((1, "logic=proved"), (0, "only=2 proved=1"), (0, "only=0 proved=0"), (0, "")):
            self.assertFalse(still_proved.is_proved(status, told))

    def test_only_a_wrong_answer_or_a_goal_without_one_shows_a_refusal(self):
        """A source that isn't read shows nothing, nor does a proof that misses a name."""
        self.assertEqual(still_proved.refusal(1, GOAL + "\nlogic=not-proved\n"), GOAL)
        self.assertEqual(still_proved.refusal(0, GOAL + "\nlogic=proved\n"), "")
        self.assertEqual(still_proved.refusal(1, "src/lib.rt:1:1: error: no word\n" + GOAL), "")
        lost = "./proofs/one/Answers.antt:3:4: error: `two` is not in scope\nlogic=not-proved\n"
        self.assertEqual(still_proved.refusal(1, lost), "")

    def test_the_changed_functions_are_found_where_they_are_all(self):
        text = "fn one() {\n    1;\n}\n\nfn two() {\n    2;\n}\n\nconst THREE: u8 = 3;\n"
        with tempfile.TemporaryDirectory() as room:
            path = os.path.join(room, "lib.rt")
            for old, new, found in (("1;", "4;", ["one"]), ("2;", "4;", ["two"]), ("= 3", "= 5", [])):
                testing.put(room, "lib.rt", text.replace(old, new))
                self.assertEqual(still_proved.functions_of({path: text}), found)

    def test_libraries_are_laid_in_where_all_are_there(self):
        with tempfile.TemporaryDirectory() as top, tempfile.TemporaryDirectory() as room:
            testing.put(room, "crates.txt", "low:\nmiddle: low\nhigh: middle\n")
            for name in ("low", "middle"):
                self.assertFalse(still_proved.lay_in(top, room, "high"))
                testing.put(top, "crates/%s/out/rlib/statements" % name, "one\n")
            self.assertTrue(still_proved.lay_in(top, room, "high"))
            self.assertTrue(os.path.exists(os.path.join(room, "crates/low/out/rlib/statements")))


class Runs(testing.Housed):
    def setUp(self):
        super().setUp()
        self.notes, self.rooms = os.path.join(self.room, "notes"), os.path.join(self.room, "rooms")
        os.mkdir(self.rooms)
        self.write("crates/low/src/lib.rt", "one two\n")
        self.write("crates/low_tests/lib.rt", "tests\n")
        self.write("../bin/rt", PLAYER)
        self.write("crates.txt", "low:\nlow_tests: low\n")
        self.take_tools()

    def started(self, **edits):
        """A run of these edits, each the old and the new word."""
        for name, words in edits.items():
            text = "test: low_tests ends\nfile: src/lib.rt\nold: %s\nnew: %s\n" % tuple(words.split())
            self.write("crates/low/refused-by-tests/%s.edit" % name, text)
        self.commit()
        env = self.environment(NOTES=self.notes, TMPDIR=self.rooms, LIBRARY="")
        words = [sys.executable, os.path.join(self.top, "tools", "refused-by-tests")]
        how = {"stdout": subprocess.PIPE, "stderr": subprocess.STDOUT, "text": True}
        return subprocess.Popen(words, env=env, start_new_session=True, **how)

    def ran(self, **edits):
        """The status, the last line, and the sources that were tried."""
        it = self.started(**edits)
        told = it.communicate(timeout=50)[0].splitlines()
        return it.returncode, told[-1], self.lines(self.notes)

    def test_each_is_tried_alone_after_the_test_as_it_stands(self):
        """What one edit turned is put back before the next."""
        last = "refused-by-tests: 2 tried, 0 let through, 0 no longer proved; without LIBRARY no leak was tried"
        sources = ["one two", "wrong two", "one wrong"]
        self.assertEqual(self.ran(a="one wrong", b="two wrong"), (0, last, sources))

    def test_one_that_is_let_through_is_counted(self):
        """A body that its test passes is let through, and so is one that isn't compiled."""
        last = "refused-by-tests: 3 tried, 2 let through, 0 no longer proved; without LIBRARY no leak was tried"
        self.assertEqual(self.ran(a="one fine", b="two unread", c="two wrong")[:2], (1, last))

    def test_one_that_the_prover_refuses_is_no_longer_proved(self):
        """Its test isn't run. One of which the prover tells nothing, because a name is gone, is let through."""
        last = "refused-by-tests: 3 tried, 1 let through, 1 no longer proved; without LIBRARY no leak was tried"
        sources = ["one two", "one wrong"]
        self.assertEqual(self.ran(a="one refused", b="two nameless", c="two wrong"), (1, last, sources))

    def test_a_test_that_fails_as_it_stands_ends_the_run(self):
        self.write("crates/low/src/lib.rt", "one wrong\n")
        last = "the test ends of low_tests doesn't pass as it stands"
        self.assertEqual(self.ran(a="one two"), (1, last, ["one wrong"]))

    def test_a_run_that_is_cut_off_ends_its_test_and_leaves_no_copy(self):
        """Whoever cuts the run off ends its process alone, because the test runs in a session of its own."""
        it = self.started(a="one slow")
        while len(self.lines(self.notes)) < 2:
            time.sleep(0.05)
        it.send_signal(signal.SIGTERM)
        it.communicate(timeout=50)
        self.assertNotEqual(it.returncode, 0)
        self.assertEqual(os.listdir(self.rooms), [])
        time.sleep(4)
        self.assertFalse(os.path.exists(self.notes + ".late"))


class Edits(testing.Housed):
    def setUp(self):
        super().setUp()
        self.path = os.path.join(self.top, "crates/low/src/lib.rt")
        self.write(self.path, "one\ntwo\ntwo\n")

    def edit(self, text):
        self.write("a.edit", text)
        return os.path.join(self.top, "a.edit")

    def test_an_edit_names_a_test(self):
        turned = "file: src/lib.rt\nold: one\nnew: three\n"
        self.assertEqual(script.test_of(self.edit("test: tests leases_end\n" + turned)), ("tests", "leases_end"))
        with self.assertRaises(SystemExit):
            script.test_of(self.edit(turned))

    def test_what_stood_there_is_told_and_can_be_put_back(self):
        """The next edit is planted in the sources as they stand, so two pairs of a file give back its first text."""
        both = self.edit("test: tests ends\nfile: src/lib.rt\nold: one\nnew: three\nold: three\nnew: four\n")
        self.assertEqual(script.planted(self.top, "low", both), {self.path: "one\ntwo\ntwo\n"})
        self.assertEqual(self.text(self.path), "four\ntwo\ntwo\n")

    def test_an_edit_that_cannot_be_planted_ends_the_run(self):
        """A text that stands there twice or never can't be turned, and an edit without one turns nothing."""
        for turned in ("old: two\nnew: three\n", "old: gone\nnew: three\n", ""):
            with self.assertRaises(SystemExit):
                script.planted(self.top, "low", self.edit("test: tests ends\nfile: src/lib.rt\n" + turned))
