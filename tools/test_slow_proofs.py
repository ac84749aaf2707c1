"""Tests of slow_proofs.py, over files that a prover might have written."""

import os
import tempfile
import unittest

import slow_proofs


class Times(unittest.TestCase):
    def told(self, *files):
        """What is above its share of modules that ended at these seconds."""
        with tempfile.TemporaryDirectory() as room:
            for name, at in files:
                path = os.path.join(room, "made", name)
                os.makedirs(os.path.dirname(path), exist_ok=True)
                with open(path, "w", encoding="ascii"):
                    pass
                os.utime(path, (at, at))
            return slow_proofs.above_their_share(slow_proofs.seconds_of(room))

    def test_a_module_takes_from_the_end_of_the_one_before(self):
        files = (("a.b.Goals.oantt", 100), ("a.b.Lts.oantt", 109), ("a.c.Lts.oantt", 117), ("a.b.Proof.oantt", 121.5))
        self.assertEqual(self.told(*files), [(9, "a.b.Lts"), (4.5, "a.b.Proof")])

    def test_the_first_module_and_other_kinds_have_no_share(self):
        self.assertEqual(self.told(("a.Lts.oantt", 100), ("a.Tie.oantt", 150), ("a.Answers.oantt", 250)), [])

    def test_declarations_are_written_with_their_module(self):
        self.assertEqual(self.told(("a.Goals.oantt", 1), ("a.Lts.decls.oantt", 9), ("a.Lts.oantt", 10)), [(9, "a.Lts")])

    def test_nothing_was_written(self):
        self.assertEqual(self.told(), [])
