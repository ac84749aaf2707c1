"""Tests of tried.py: after which changes the row of a crate still holds, and how its table stands in the page."""

import os

import last_run
import testing
import tried

LOW = """//! The lowest.
ghost use Rattle.base.proofs.Words.{IsWord};

/// What is low.
pub struct Low {
    at: u64,
}

impl Model for Low {
    ghost view = { λ l. l.at };
}

impl Low {
    /// One.
    pub fn one(&self) -> u64
        ensures first { result ≡ self.now.at }
    {
        // Why.
        self.at
    }
}

pub const fn three() -> u64 {
    3
}
"""
FILES = {
    "crates.txt": "base:\nlow: base\nown: low # its own\nhigh: own\nother:\n",
    "crates/base/src/lib.rt": "pub fn base() {}\n",
    "crates/base/proofs/Words.antt": "use Rattle.base.proofs.Letters.{IsLetter}\nIsWord = IsLetter\n",
    "crates/base/proofs/Letters.antt": "IsLetter = a\n",
    "crates/base/proofs/Lemmas.antt": "lemma = a\n",
    "crates/low/src/lib.rt": LOW,
    "crates/low/specs/Standing.antt": "-- what stands\nstanding = a\n",
    "crates/low/proofs/low/Low/one/Answers.antt": "first = refl\n",
    "crates/low/wrong-bodies/two.edit": "what: One is two.\nfile: src/lib.rt\nold: self.at\nnew: 2\n",
    "crates/own/src/lib.rt": "fn own() {\n    own\n}\n",
    "crates/own/specs/Own.antt": "own = a\n",
    "crates/own/proofs/Own.antt": "-- own\nproof = a\n",
    "crates/own/must-fail/one.edit": "file: src/lib.rt\nold: own\nnew: not\n",
    "crates/own/wrong-bodies/one.edit": "what: Own is none.\nfile: src/lib.rt\nold: own\nnew: none\n",
    "crates/high/src/lib.rt": "fn high() {}\n",
    "crates/other/src/lib.rt": "fn other() {}\n",
}
# Changes of files, each from one text to another, and whether the row of the crate `own` then still holds.
CHANGES = {
    "crates/low/src/lib.rt": [
        ("        self.at\n", "        self.at + 0\n", True),
        ("        // Why.\n", "        // Why not.\n", True),
        ("/// One.", "/// The one.", True),
        ("//! The lowest.\n", "", True),
        ("\nimpl Low", "\n\n\nimpl Low", True),
        ("self.now.at", "self.now.at + 1", False),
        ("        ensures first { result ≡ self.now.at }\n", "", False),
        ("    at: u64", "    at: u32", False),
        ("l. l.at", "l. l", False),
        ("&self", "&mut self", False),
        ("    3\n", "    4\n", False),
        (".{IsWord}", ".{IsNoWord}", False),
    ],
    "crates/low/specs/Standing.antt": [("-- what stands", "-- what stood", True), ("= a", "= b", False)],
    "crates/low/proofs/low/Low/one/Answers.antt": [("refl", "sym refl", True)],
    "crates/low/wrong-bodies/two.edit": [("new: 2", "new: 3", True)],
    "crates/base/proofs/Lemmas.antt": [("= a", "= b", True)],
    "crates/base/proofs/Words.antt": [("= IsLetter", "= Is", False)],
    "crates/base/proofs/Letters.antt": [("= a", "= b", False)],
    "crates/own/src/lib.rt": [("    own\n", "    none\n", False), ("    own\n", "    // Why.\n    own\n", True)],
    "crates/own/specs/Own.antt": [("= a", "= b", False)],
    "crates/own/proofs/Own.antt": [("= a", "= b", False), ("-- own", "-- of its own", True)],
    "crates/own/must-fail/one.edit": [("new: not", "new: no", True)],
    "crates/own/wrong-bodies/one.edit": [("Own is none", "Own isn't", True), ("new: none", "new: no", False)],
    "crates/high/src/lib.rt": [("high()", "higher()", True)],
    "crates/other/src/lib.rt": [("other()", "others()", True)],
    "crates.txt": [("own: low # its own", "own: low", True), ("own: low", "own: low other", False)],
}


class Sums(testing.Housed):
    def setUp(self):
        super().setUp()
        for path, text in FILES.items():
            self.write(path, text)
        self.row = tried.row(self.sources(), "own", 1, 1, "0123456")

    def sources(self, logic="1a"):
        return tried.Sources(self.top, logic)

    def holds(self):
        return self.sources().holds("own", self.row)

    def test_a_row_holds_until_something_changes_that_its_trial_rests_on(self):
        self.assertTrue(self.holds())
        for path, changes in CHANGES.items():
            for old, new, holds in changes:
                self.assertEqual(FILES[path].count(old), 1, (path, old))
                self.write(path, FILES[path].replace(old, new))
                self.assertEqual(self.holds(), holds, (path, old, new))
            self.write(path, FILES[path])
        self.assertTrue(self.holds())

    def test_a_file_or_a_wrong_body_more_is_a_change(self):
        for path, holds in {
            "crates/low/src/more.rt": False,
            "crates/low/specs/More.antt": False,
            "crates/low/proofs/More.antt": True,
            "crates/own/proofs/More.antt": False,
            "crates/own/wrong-bodies/two.edit": False,
            "crates/own/wrong-bodies/README": True,
        }.items():
            self.write(path, "more\n")
            self.assertEqual(self.holds(), holds, path)
            self.write(path, None)

    def test_a_row_is_of_one_logic_and_of_wrong_bodies_that_were_all_refused(self):
        self.assertFalse(self.sources("1b").holds("own", self.row))
        self.assertFalse(self.sources().holds("own", self.row._replace(tried="2")))

    def test_a_body_without_its_end_stays(self):
        """What can't be told to be a body counts."""
        for text in ("fn one() {}\n", "fn one() {\n    one\n", "const X: u8 = {\n    1\n};\n"):
            self.assertEqual(tried.bodiless(text), text)


class Pages(testing.Housed):
    def setUp(self):
        super().setUp()
        for path, text in {**FILES, last_run.PAGE: last_run.HEAD}.items():
            self.write(path, text)
        self.commit()
        self.rows = {it: tried.Row("1", "1", "`00%s`" % it, "`0123456`", "1 May 2026") for it in ("own", "low")}

    def told(self):
        return [it for it in self.lines(last_run.PAGE) if it.startswith("| `")]

    def test_rows_stand_in_the_order_of_the_crates_below_those_of_the_checks(self):
        tried.put(self.top, {})
        self.assertEqual(self.text(last_run.PAGE), last_run.HEAD)
        for name, row in self.rows.items():
            tried.put(self.top, {name: row})
        self.assertEqual(tried.of(self.top), self.rows)
        check = last_run.check_table.Check("one", "a check", [], of=["crates.txt"])
        passed = last_run.Row("passed", "3 tests", "", *last_run.here(self.top))
        last_run.put(self.top, {"one": passed}, [check])
        self.assertEqual([it.split("`")[1] for it in self.told()], ["one", "low", "own"])
        self.assertEqual((tried.of(self.top), last_run.of(self.top)), (self.rows, {"one": passed}))
        self.assertEqual(self.text(last_run.PAGE).count(tried.HEAD), 1)

    def test_a_row_of_a_crate_without_wrong_bodies_goes(self):
        tried.put(self.top, self.rows)
        self.write("crates/low/wrong-bodies/two.edit", None)
        tried.put(self.top, {"own": self.rows["own"]})
        self.assertEqual(list(tried.of(self.top)), ["own"])

    def test_rows_that_a_checkout_has_not_committed_are_told(self):
        self.assertEqual(tried.uncommitted(self.top), {})
        tried.put(self.top, {"own": self.rows["own"]})
        self.commit()
        self.assertEqual(tried.uncommitted(self.top), {})
        tried.put(self.top, self.rows)
        self.assertEqual(tried.uncommitted(self.top), {"low": self.rows["low"]})
        os.remove(os.path.join(self.top, last_run.PAGE))
        self.assertEqual(tried.uncommitted(self.top), {})
