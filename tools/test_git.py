"""Tests of git.py: what changed since a commit, what is committed, and a copy of that."""

import os
import subprocess
import tempfile
from unittest import mock

import git
import testing

FILES = {
    "crates/low/src/deep/one.rt": "fn one() {}\n    fn two() {}\n",
    "crates/low/src/gone.rt": "fn gone() {}\n",
    "crates/low/specs/One.antt": "one\n",
    "crates/low/proofs/One.antt": "proof\n",
    "crates/other/src/lib.rt": "fn other() {}\n",
    "server/run": "#!/bin/sh\nrun\n",
}
CHANGES = {
    "crates/low/src/deep/one.rt": [
        ("fn one() {}\n    // Why.\n    fn two() {}\n", False),
        ("#[test]\nfn one() {}\n    fn two() {}\n", True),
        ("fn one() {}\n    fn three() {}\n", True),
    ],
    "crates/low/src/gone.rt": [(None, True)],
    "crates/low/src/new.rt": [("fn new() {}\n", True)],
    "crates/low/specs/One.antt": [("-- Why.\none\n", False), ("two\n", True), ("one\n - 1\n", True)],
    "crates/low/proofs/One.antt": [("another\n", False)],
    "crates/other/src/lib.rt": [("fn others() {}\n", False)],
    "server/run": [("#!/bin/sh\n# Why.\nrun\n", False), ("#!/bin/sh\nrun -v\n", True)],
    "server/README.md": [("A server.\n", False)],
}
PLACES = ["crates/low/src", "crates/low/specs", "crates.txt", "server"]
PAGE = "# A guide\n\nIt has 3 words, as `begin 10`:\n\n```\n0 begin 10\n```\n\nThe end.\n"


class Changes(testing.Housed):
    def is_changed(self, places, files):
        """Whether these files change these places, which they do in a commit as before it. They are taken back."""
        before = self.commit()
        for path, text in files.items():
            self.write(path, text)
        subprocess.run(["git", "-C", self.top, "add", "-A"], check=True)
        is_changed = git.is_changed(self.top, before, places)
        self.commit()
        self.assertEqual(git.is_changed(self.top, before, places), is_changed)
        subprocess.run(["git", "-C", self.top, "reset", "-q", "--hard", before], check=True)
        return is_changed

    def test_code_counts_and_comments_and_other_places_do_not(self):
        for path, text in FILES.items():
            self.write(path, text)
        for path, changes in CHANGES.items():
            for text, is_changed in changes:
                self.assertEqual(self.is_changed(PLACES, {path: text}), is_changed, (path, text))

    def test_of_a_commit_that_is_not_here_all_has_changed(self):
        self.commit()
        for commit in ("0123456", ""):
            self.assertTrue(git.is_changed(self.top, commit, PLACES))

    def test_a_file_of_another_name_is_another(self):
        self.write("server/one.rs", "fn one() {}\n" * 9)
        self.assertTrue(self.is_changed(PLACES, {"server/one.rs": None, "server/two.rs": "fn one() {}\n" * 9}))

    def test_of_a_page_the_code_and_the_numbers_count(self):
        for path in ("docs/GUIDE.md", "docs/OTHER.md", "server/API.md", "server/README.md"):
            self.write(path, PAGE)
        places = ["server", "docs/GUIDE.md", "server/API.md"]
        for old, new, is_changed in [
            ("The end.", "The last words.", False),
            ("# A guide", "# The guide", False),
            ("3 words", "4 words", True),
            ("`begin 10`", "`begin TS`", True),
            ("\n0 begin 10", "\n0 begin  10", True),
            ("The end.", "```\nmore\n```", True),
        ]:
            for path in ("docs/GUIDE.md", "server/API.md"):
                self.assertEqual(self.is_changed(places, {path: PAGE.replace(old, new)}), is_changed, (path, new))
            for path in ("docs/OTHER.md", "server/README.md"):
                self.assertFalse(self.is_changed(places, {path: PAGE.replace(old, new)}), (path, new))
        self.assertTrue(self.is_changed(places, {"server/API.md": None}))

    def test_of_all_each_byte_counts_but_those_of_the_rows(self):
        for path, text in {**FILES, "README.md": "A house.\n", "docs/LAST-RUN.md": "rows\n"}.items():
            self.write(path, text)
        self.assertFalse(self.is_changed(["."], {}))
        self.assertFalse(self.is_changed(["."], {"docs/LAST-RUN.md": "other rows\n"}))
        for path, text in {"server/run": "#!/bin/sh\n# Why.\nrun\n", "README.md": "A house!\n", "new": ""}.items():
            self.assertTrue(self.is_changed(["."], {path: text}), path)


class Commits(testing.Housed):
    def test_what_is_committed_is_named(self):
        self.write("server/run", "run\n")
        commit = self.commit()
        self.assertEqual(git.commit(self.top), commit)
        self.assertEqual(list(git.committed(self.top, ["server"])), ["server"])
        self.assertIsNone(git.committed(self.top, ["server", "client"]))
        self.write("server/run", "run -v\n")
        self.assertIsNone(git.committed(self.top, ["server"]))

    def test_without_git_nothing_is_said(self):
        self.commit()
        with tempfile.TemporaryDirectory() as elsewhere:
            self.assertIsNone(git.committed(elsewhere, ["server"]))
            with mock.patch.dict(os.environ, {"PATH": elsewhere}):
                self.assertIsNone(git.committed(self.top, ["server"]))

    def test_a_copy_has_what_is_committed(self):
        self.write("server/run", "run\n")
        self.commit()
        self.write("server/run", "run -v\n")
        to = os.path.join(self.room, "copy")
        os.mkdir(to)
        git.copy(self.top, to)
        self.assertEqual((sorted(os.listdir(to)), self.text(to + "/server/run")), ([".git", "server"], "run\n"))
