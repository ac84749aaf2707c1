"""Tests of what the wrapper tells without a call."""

import unittest

import ripsawbean
from ripsawbean import BelowHorizon, Closed, Database, Held, KeyLength, LineFault, Places


class Looks(unittest.TestCase):
    def setUp(self):
        self.db = Database(ring=4)
        self.addCleanup(self.db.close)

    def call(self, *lines):
        """Makes calls that aren't refused."""
        for line in lines:
            self.assertFalse(self.db.call(line + "\n").is_refusal, line)

    def test_the_version_of_the_library(self):
        self.assertEqual(ripsawbean.version(), (0, 1, 0))

    def test_how_far_it_has_come(self):
        self.assertEqual(self.db.places(), Places(0, 0, 0, None, 0, None))
        self.call("0 begin 10", "0 begin 20", "0 abort 20", "1 open - - 3", "0 closehard 5")
        self.assertEqual(self.db.places(1), Places(closed=5, horizon=0, limit=3, oldest=10, reached=20, floor=3))
        self.assertIsNone(self.db.places(2).floor)
        self.assertEqual(self.db.last().position, 4)
        with self.assertRaises(LineFault):
            self.db.places(1 << 64)
        self.db.close()
        with self.assertRaises(Closed):
            self.db.places()

    def test_versions_of_keys(self):
        self.call("0 begin 10", "0 put 10 a 1", "0 put 10 b 1", "0 commit 10")
        self.call("0 begin 20", "0 del 20 b", "0 commit 20", "1 begin 30", "1 put 30 a 3")
        self.assertEqual(self.db.versions_at(40, [b"a", b"b", b"c"]), [10, None, None])
        self.assertEqual(self.db.versions_at(19, iter([b"b"])), [10])
        self.assertEqual(self.db.versions_at(19, []), [])
        self.assertEqual(self.db.versions_at(40, [b"\xff" * 256, b"a"]), [None, 10])
        for key in (b"", b"k" * 257, b"k" * 65536, b"k" * 65537):
            with self.assertRaises(KeyLength):
                self.db.versions_at(40, [b"a", key])
        self.call("0 close 25", "0 collect 25")
        with self.assertRaises(BelowHorizon):
            self.db.versions_at(24, [b"a"])
        self.assertEqual(self.db.versions_at(25, [b"a", b"b"]), [10, None])
        with self.assertRaises(LineFault):
            self.db.versions_at(1 << 64, [b"a"])

    def test_what_a_seat_holds(self):
        self.assertEqual(self.db.held_by(0), [])
        self.call("2 begin 10", "2 put 10 a 1", "1 begin 20", "2 open - - 4", "1 open - - 5", "1 protect 6")
        protection = Held("protection", 1, 6)
        self.assertEqual(self.db.held_by(2), [Held("transaction", 10, 1), Held("feed", 1, 4), protection])
        self.assertEqual(self.db.held_by(63), [protection])
        for ts in range(100, 300):
            self.db.begin(ts, seat=3)
        held = self.db.held_by(3)
        self.assertEqual((len(held), held[199]), (201, Held("transaction", 299, 0)))
        with self.assertRaises(LineFault):
            self.db.held_by(256)


if __name__ == "__main__":
    unittest.main()
