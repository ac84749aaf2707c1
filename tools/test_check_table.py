"""Tests of check_table.py, by the table itself."""

import os
import re

import check_table
import side_by_side
import testing


class Table(testing.Housed):
    def check(self, name, **given):
        return next(it for it in check_table.read(**given) if it.name == name)

    def test_each_check_can_be_read_and_has_a_name_of_its_own(self):
        with open(check_table.TABLE, encoding="utf-8") as it:
            heads = re.findall(r"(?m)^[\w-]+(?=:)", it.read())
        self.assertEqual([it.name for it in check_table.read()], heads)
        self.assertEqual(len(heads), len(set(heads)))
        for check in check_table.read():
            self.assertEqual(re.compile(check.told).groups, 1, check.name)
            self.assertLessEqual(set(check.needs), {"program", "library", "named"}, check.name)

    def test_what_a_check_is_of_is_there(self):
        with open(os.path.join(testing.TOP, "crates.txt"), encoding="utf-8") as it:
            crates = side_by_side.listed(it.read())
        for check in check_table.read():
            self.assertTrue(check.of, check.name)
            for word in check.of:
                names, colon, parts = word.partition(":")
                self.assertTrue(colon or os.path.exists(os.path.join(testing.TOP, word)), (check.name, word))
                for like in [*names.split(","), *("*/" + it for it in parts.split(","))] if colon else ():
                    self.assertTrue(check_table.crates_like(testing.TOP, crates, like), (check.name, like))
            places = check_table.sources(testing.TOP, check)
            self.assertEqual("crates.txt" in places, ":" in " ".join(check.of))

    def test_sources_are_of_the_crates_below_too(self):
        self.write("crates.txt", "low:\nhigh: low\nhigh_tests:\nother:\n")
        self.write("crates/other/bodies/one", "")
        for word, crates in {"high": "high low", "*_tests,low": "high_tests low", "*/bodies": "other"}.items():
            check = check_table.Check("one", "a check", [], of=["try", word + ":src,specs"])
            wanted = ["crates/%s/%s" % (it, part) for it in crates.split() for part in ("src", "specs")]
            self.assertEqual(check_table.sources(self.top, check), ["try", "crates.txt", *wanted])

    def test_minutes_are_those_of_the_command_line(self):
        self.assertEqual((self.check("soak").command[1], self.check("soak").limit), ("10", 1200))
        self.assertEqual((self.check("soak", minutes=3).command[1], self.check("soak", minutes=3).limit), ("3", 780))
        self.assertEqual((self.check("random", minutes=3).command[1], self.check("random").limit), ("90", 1500))

    def test_wrong_bodies_of_some_crates_say_so(self):
        all_of_them, some = self.check("wrong-bodies"), self.check("wrong-bodies", minutes=3, since="abc")
        self.assertEqual((all_of_them.command[1:], all_of_them.word), (["--stale"], ""))
        self.assertEqual(some.command[1:], ["--minutes", "3", "--since", "abc"])
        self.assertEqual(some.word, "of those changed since abc")
