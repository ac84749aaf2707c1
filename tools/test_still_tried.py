"""Tests of still_tried.py: what counts as dropped, and what only moved."""

import still_tried
import testing

TESTS = {
    "crates/low/src/tests.rt": "// Why.\n#[test]\nfn rises(rt: HostRuntime) -> Result<(), Fail> {\n}\n",
    "server/src/lines.rs": "    #[tokio::test(flavor = \"x\")]\n    #[cfg(unix)]\n    async fn is_cut() {\n",
    "tools/test_git.py": "    def test_a_page(self):\n",
    "clients/go/a_test.go": "func TestCut(t *testing.T) {\n",
    "web/tests/one.mjs": 'test("it\'s drawn", () => {\n',
}


class Lists(testing.Housed):
    def setUp(self):
        super().setUp()
        for path, text in TESTS.items():
            self.write(path, text)
        self.write("crates/low/must-fail/stops-one-below.edit", "file: src/lib.rt\n")
        self.write("crates/high/wrong-bodies/stops-one-below.edit", "file: src/lib.rt\n")
        self.base = self.commit()

    def gone(self):
        """What was dropped since the base."""
        names = [still_tried.named(still_tried.texts(self.top, it)) for it in (self.base, self.commit())]
        return still_tried.gone(*names)

    def test_each_kind_of_test_is_read(self):
        found = still_tried.named(still_tried.texts(self.top, self.base))
        names = ["rises", "is_cut", "test_a_page", "TestCut", "it's drawn"]
        self.assertEqual(found["test"], dict.fromkeys(names, 1))
        self.assertEqual(found["wrong body"], {"stops-one-below": 2})

    def test_what_moved_is_the_same(self):
        self.write("crates/low/must-fail/stops-one-below.edit", None)
        self.write("crates/low/refused-by-tests/stops-one-below.edit", "file: src/lib.rt\n")
        self.write("crates/low/src/tests.rt", None)
        self.write("crates/unit_tests/src/tests/low.rt", TESTS["crates/low/src/tests.rt"])
        self.assertEqual(self.gone(), [])

    def test_what_was_dropped_is_named(self):
        for path in TESTS:
            self.write(path, "// test\n")
        self.write("crates/low/must-fail/stops-one-below.edit", None)
        tests = ["the test %s is gone" % it for it in ("rises", "is_cut", "test_a_page", "TestCut", "it's drawn")]
        self.assertEqual(sorted(self.gone()), sorted(["the wrong body stops-one-below is gone", *tests]))

    def test_a_test_that_is_a_comment_is_none(self):
        self.write("crates/low/src/tests.rt", "// #[test]\n// fn rises() {\n")
        self.assertEqual(self.gone(), ["the test rises is gone"])
