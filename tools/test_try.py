"""Tests of the script `try`, with a kit that tells where it was asked for what."""

import os
import shutil
import subprocess

import testing
# It tells its folder, its words and its input, and ends with a status of its own.
KIT = '#!/bin/sh\necho "$(basename "$PWD"): $*"\ncat\nexit 5\n'


class Try(testing.Housed):
    def setUp(self):
        super().setUp()
        self.write("../bin/rt", KIT)
        self.script = os.path.join(testing.TOP, "try")

    def tried(self, *words):
        """What the kit told, what standard error was told, and the status."""
        how = {"cwd": self.top, "env": self.environment(), "input": "0 begin 10\n", "text": True}
        ran = subprocess.run([self.script, *words], capture_output=True, **how)
        return ran.stdout, ran.stderr, ran.returncode

    def test_a_script_alone_is_run_by_the_smallest_program(self):
        told, says, status = self.tried()
        self.assertEqual((told, status), ("example_first: try\n0 begin 10\n", 5))
        self.assertIn("proves nothing, and begins within a minute", says)

    def test_words_are_for_the_whole_program(self):
        told, says, status = self.tried("run", "--format", "2")
        self.assertEqual((told, status), ("mvfeed: try -- run --format 2\n0 begin 10\n", 5))
        self.assertIn("proves nothing, and begins within two minutes", says)

    def test_a_file_that_a_word_names_is_lent(self):
        self.write("seed", "")
        lent = os.path.realpath(os.path.join(self.top, "seed"))
        told = self.tried("follow", "seed")[0]
        self.assertEqual(told.splitlines()[0], "mvfeed: try --data seed=%s -- follow seed" % lent)

    def test_help_runs_nothing(self):
        told, _, status = self.tried("--help")
        self.assertIn("./try < examples/first.script", told)
        self.assertNotIn("mvfeed:", told)
        self.assertEqual(status, 0)

    def test_a_checkout_without_its_crates_ends_the_run(self):
        self.script = shutil.copy2(self.script, self.top)
        for words in ([], ["check"]):
            self.assertEqual(self.tried(*words)[::2], ("", 1))
