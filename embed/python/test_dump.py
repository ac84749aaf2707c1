"""Tests of the wrapper's dumps."""

import unittest

from ripsawbean import Closed, Database, LineFault

FIRST = b"0 begin 10\n0 put 10 a 1\n0 put 10 b -\n0 commit 10\n"
SECOND = b"0 begin 20\n0 put 20 a 2\n0 commit 20\n"
LAST = b"0 close 30\n0 collect 0\n"


class Dumps(unittest.TestCase):
    def setUp(self):
        self.db = Database(ring=4)
        self.addCleanup(self.db.close)

    def fill(self):
        """10 wrote a and b, 20 wrote a, and 30 has begun."""
        lines = ["0 begin 10", "0 put 10 a 1", "0 put 10 b -", "0 commit 10", "0 begin 20", "0 put 20 a 2", "0 commit 20"]
        for line in [*lines, "0 close 15", "1 begin 30", "1 put 30 a 3"]:
            self.assertFalse(self.db.call(line + "\n").is_refusal, line)

    def test_the_whole_dump(self):
        self.assertEqual(list(self.db.dump()), [b"0 close 0\n0 collect 0\n"])
        self.fill()
        self.assertEqual(b"".join(self.db.dump()), FIRST + SECOND + LAST)
        self.assertEqual(b"".join(self.db.dump(at=40)), FIRST + SECOND + b"0 close 40\n0 collect 0\n")
        self.assertEqual(self.db.last().position, 9)

    def test_through_a_timestamp(self):
        self.fill()
        self.assertEqual(list(self.db.dump(through=0)), [])
        self.assertEqual(b"".join(self.db.dump(through=15)), FIRST)
        self.assertEqual(b"".join(self.db.dump(through=29)), FIRST + SECOND)
        self.assertEqual(b"".join(self.db.dump(through=30)), FIRST + SECOND + LAST)

    def test_calls_between_pieces(self):
        for ts in range(1, 21):
            self.db.begin(ts)
            self.db.put(ts, b"k%d" % ts, b"v" * 60000)
            self.db.commit(ts)
        self.db.close_to(20)
        # The dump closes above what is closed, so its end isn't told.
        self.db.begin(21)
        whole = b"".join(self.db.dump(through=20))
        self.db.call("0 protect 0\n")
        pieces, ts = [], 22
        for piece in self.db.dump(through=20):
            pieces.append(piece)
            self.assertLessEqual(len(piece), 1 << 18)
            self.db.begin(ts)
            self.db.put(ts, b"k1", b"1")
            self.db.commit(ts)
            self.db.close_to(ts)
            self.assertEqual(self.db.call("0 collect %d\n" % ts).answer, "collected 0 0")
            ts += 1
        self.assertGreater(len(pieces), 4)
        self.assertEqual(b"".join(pieces), whole)

    def test_what_is_no_timestamp(self):
        for at, through in ((1 << 63, None), (-1, None), (0, 1 << 64)):
            with self.assertRaises(LineFault):
                self.db.dump(at, through)
        pieces = self.db.dump()
        self.db.close()
        with self.assertRaises(Closed):
            next(pieces)


if __name__ == "__main__":
    unittest.main()
