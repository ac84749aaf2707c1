"""Tests of last_run.py: which rows stay, which are marked, and which are taken from another checkout."""

import last_run
import testing
from check_table import Check

PLACE = ["1 May 2026", "4 processors, 8 GB"]


class Pages(testing.Housed):
    def setUp(self):
        super().setUp()
        self.write("crates.txt", "low:\n")
        self.write("crates/low/src/lib.rt", "fn low() {}\n")
        self.write(last_run.PAGE, last_run.HEAD)
        self.checks = [Check(it, "a check", [], of=["low:src"]) for it in "abc"]

    def row(self, result, more=""):
        return last_run.Row(result, "3 tests", "", "`%s`%s" % (self.commit(), more), *PLACE)

    def put(self, **rows):
        last_run.put(self.top, rows, self.checks)

    def told(self):
        return [it for it in self.lines(last_run.PAGE) if it.startswith("| `")]

    def test_rows_of_other_checks_stay_and_are_marked_where_their_sources_changed(self):
        row = self.row("passed")
        self.put(b=row, a=row)
        self.write("crates/low/src/lib.rt", "fn other() {}\n")
        failed = self.row("failed", " and changes")
        self.put(b=failed)
        row = row._replace(commit=row.commit + ", changed since")
        self.assertEqual(self.told(), ["| `a` | %s |" % " | ".join(row), "| `b` | %s |" % " | ".join(failed)])
        self.assertEqual(last_run.of(self.top), {"a": row, "b": failed})

    def test_a_mark_goes_where_the_sources_are_again_as_they_were(self):
        for more in ("", " and changes"):
            row = self.row("passed", more)
            self.write("crates/low/src/lib.rt", "fn other() {}\n")
            marked = last_run.marked(self.top, row, self.checks[0])
            self.assertEqual(marked.commit, row.commit + ", changed since")
            self.write("crates/low/src/lib.rt", "fn low() {}\n")
            self.assertEqual(last_run.marked(self.top, marked, self.checks[0]), row)

    def test_rows_that_a_checkout_has_not_committed_are_told(self):
        row, failed = self.row("passed"), self.row("failed")
        self.put(a=row, b=row)
        self.commit()
        self.assertEqual(last_run.uncommitted(self.top), {})
        self.write("crates/low/src/lib.rt", "fn other() {}\n")
        self.put(c=row)
        self.assertEqual(last_run.uncommitted(self.top), {"c": row})
        self.put(b=failed)
        row = row._replace(commit=row.commit + ", changed since")
        self.assertEqual(last_run.uncommitted(self.top), {"b": failed, "c": row})

    def test_a_house_without_a_page_gets_one(self):
        self.write(last_run.PAGE, None)
        self.put(a=self.row("passed"))
        self.assertEqual(len(self.told()), 1)
        commit, _, machine = last_run.here(self.top)
        self.assertIn(" processors, ", machine)
        self.assertNotIn("changes", commit)
        self.write("crates.txt", "low:\nhigh:\n")
        self.assertIn("` and changes", last_run.here(self.top)[0])
