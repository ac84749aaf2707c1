"""Tests of gate_seconds.py: the table of a gate's seconds, written and read again."""

import gate_seconds
import last_run
import testing
from gate_seconds import Spent

SECONDS = {
    "kept": Spent(50, 0, 190),
    "spans": Spent(180),
    "timestamps": Spent(80, 0, 20),
    "unit_tests": Spent(12, 460),
    "version_chain": Spent(300, 100, 40),
}
FIRST = "unit_tests        472  t460      kept              240  e190      timestamps        100  e20"
PAGE = "# Page\n\n| `a` | passed |\n"
BELOW = "\n## Wrong bodies, by crate\n\n| `low` | 1 |\n"


class Tables(testing.Housed):
    def test_what_is_written_is_read_again(self):
        self.assertEqual(gate_seconds.read(gate_seconds.table(SECONDS)), SECONDS)
        self.assertEqual(gate_seconds.table(SECONDS)[0], FIRST)
        self.assertEqual((gate_seconds.table({}), gate_seconds.read([])), ([], {}))

    def test_the_table_stands_in_its_place_on_the_page(self):
        for below in ("", BELOW):
            self.write(last_run.PAGE, PAGE + below)
            self.assertEqual(gate_seconds.of(self.top), {})
            gate_seconds.put(self.top, {"kept": Spent(1)})
            gate_seconds.put(self.top, SECONDS)
            self.assertEqual(gate_seconds.of(self.top), SECONDS)
            text = self.text(last_run.PAGE)
            self.assertTrue(text.startswith(PAGE + gate_seconds.TITLE) and text.endswith("```\n" + below))
        self.write(last_run.PAGE, None)
        self.assertEqual(gate_seconds.of(self.top), {})

    def test_the_fixed_set_is_proofs_alone_and_whole(self):
        self.assertEqual(gate_seconds.of_fixed_set(SECONDS), 310)
        self.assertEqual(gate_seconds.of_fixed_set({**SECONDS, "kept": Spent(0, 0, 190)}), 0)
        self.assertEqual(gate_seconds.of_fixed_set({"kept": Spent(50)}), 0)
