"""Tests of origin.py: which files pass as of what is committed, and which don't."""

import os
import subprocess
import sys

import testing


class Origins(testing.Housed):
    def setUp(self):
        super().setUp()
        self.take_tools()
        self.write(".gitignore", "out/\n")
        self.write("crates/low/src/lib.rt", "one\n")
        self.write("embed/build", "how\n")
        self.write("out/program", "built of one\n")
        self.commit()

    def asked(self, *words):
        words = [os.path.join(self.top, it) if it.startswith("out/") else it for it in words]
        script = os.path.join(self.top, "tools", "origin.py")
        ran = subprocess.run([sys.executable, script, *words], capture_output=True, text=True)
        return ran.returncode, ran.stderr

    def refusal(self, path, *places):
        status, told = self.asked("check", path, *places)
        self.assertEqual(status, 1)
        return told

    def test_what_was_built_of_the_commit_passes(self):
        self.asked("note", "out/program", "crates")
        self.assertEqual(self.asked("check", "out/program", "crates"), (0, ""))
        self.write("embed/build", "otherwise\n")
        self.commit()
        self.assertEqual(self.asked("check", "out/program", "crates"), (0, ""))

    def test_another_commit_is_refused(self):
        self.asked("note", "out/program", "crates")
        self.write("crates/low/src/lib.rt", "two\n")
        self.commit()
        self.assertIn("of another crates than", self.refusal("out/program", "crates"))

    def test_another_file_is_refused(self):
        self.asked("note", "out/program", "crates")
        self.write("out/program", "built of two\n")
        self.assertIn("no note of its sources", self.refusal("out/program", "crates"))

    def test_a_place_that_was_not_noted_is_refused(self):
        self.asked("note", "out/program", "crates")
        self.assertIn("of another embed/build than", self.refusal("out/program", "crates", "embed/build"))

    def test_changes_get_no_note_and_take_the_old_one_away(self):
        self.asked("note", "out/program", "crates")
        self.write("crates/low/src/lib.rt", "two\n")
        self.assertIn("aren't committed", self.refusal("out/program", "crates"))
        self.asked("note", "out/program", "crates")
        self.assertEqual(os.listdir(os.path.join(self.top, "out")), ["program"])
        self.assertIn("no note of its sources", self.refusal("out/program", "crates"))

    def test_a_file_that_git_does_not_know_is_a_change(self):
        self.write("crates/low/src/more.rt", "more\n")
        self.asked("note", "out/program", "crates")
        self.assertIn("no note of its sources", self.refusal("out/program", "crates"))

    def test_what_is_made_of_a_built_file_is_of_its_places_too(self):
        self.write("out/linked", "of the program\n")
        self.asked("note", "out/linked", "--from", "out/program", "embed/build")
        self.assertIn("no note of its sources", self.refusal("out/linked", "crates"))
        self.asked("note", "out/program", "crates")
        self.asked("note", "out/linked", "--from", "out/program", "embed/build")
        self.assertEqual(self.asked("check", "out/linked", "crates", "embed/build"), (0, ""))
