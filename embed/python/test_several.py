"""Tests of many lines at once: what each tells is what it tells alone."""

import unittest

import ripsawbean
from ripsawbean import Database, LineFault


class ManyLines(unittest.TestCase):
    def setUp(self):
        self.db, self.other = Database(), Database()
        self.addCleanup(self.db.close)
        self.addCleanup(self.other.close)

    def alone(self, line):
        try:
            return str(self.other.call(line))
        except ripsawbean.Error as error:
            return type(error)

    def together(self, lines):
        return [told if isinstance(told, str) else type(told) for told in self.db.calls(lines)]

    def test_lines_and_their_faults(self):
        lines = "0 begin 10\n\n0 put 10 a 1\n0 fly\n0 scan 10 - -\n64 stats\n0 get 10 é\n0 commit 10\n0 stats"
        self.assertEqual(self.together(lines), [
            "0 0 begin 10 => started\n", ripsawbean.WordCount, "1 0 put 10 a 1 => written\n", ripsawbean.UnknownCommand,
            "2 0 scan 10 - - => rows 1\nrow a 1\n", ripsawbean.Session, ripsawbean.BadByte, "3 0 commit 10 => committed 1\n",
            ripsawbean.NoNewline,
        ])
        self.assertEqual(self.together(""), [])
        self.assertEqual(self.together(b"0 begin 5\n"), ["4 0 begin 5 => started\n"])
        self.db.close()
        for lines in ("", "0 stats\n"):
            with self.assertRaises(ripsawbean.Closed):
                self.db.calls(lines)

    def test_an_answer_that_is_too_long(self):
        db = self.db
        db.begin(10)
        db.put(10, b"a", b"12345")
        lines = "0 scan 10 - -\n0 get 10 a\n"
        self.assertEqual(list(map(type, db.calls(lines, 22))), [ripsawbean.AnswerTooLong, str])
        self.assertEqual(list(map(type, db.calls(lines, 23))), [str, str])
        self.assertEqual(list(map(type, db.calls(lines))), [str, str])
        with self.assertRaises(LineFault):
            db.calls(lines, -1)

    def test_a_scan_of_more_rows_than_are_let_through(self):
        db, most = self.db, ripsawbean.MOST_ROWS
        self.assertEqual(most, 32768)
        db.begin(10)
        for row in range(most + 1):
            db.put(10, b"k%05d" % row, b"")
        scans = "0 scan 10 - k%05d\n0 scan 10 - -\n" % most
        fits, refused = db.calls(scans, (1 << 64) - 2)
        self.assertEqual((fits.count("\n"), type(refused)), (most + 1, ripsawbean.AnswerTooLong))
        self.assertEqual([text.count("\n") for text in db.calls(scans)], [most + 1, most + 2])

    def test_each_line_tells_what_it_tells_alone(self):
        lines = ["0 begin 1\n"]
        for i in range(50):
            lines.append("0 put 1 k%d %s\n" % (i, "v" * (60000 - 1000 * i)))
            if i % 10 == 0:
                lines += ["0 scan 1 - -\n", "0 fly\n"]
        for batch in (lines, ["0 scan 1 - -\n"] * 3, ["0 stats\n"] * 5000):
            self.assertEqual(self.together("".join(batch)), [self.alone(line) for line in batch])


if __name__ == "__main__":
    unittest.main()
