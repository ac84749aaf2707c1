"""Tests of the wrapper and of the example's cache: `embed/test` runs them, or python3 -m unittest in this folder."""

import gc
import json
import random
import threading
import unittest
import warnings

import ripsawbean
from cache import Cache, NotTaken
from ripsawbean import Closed, Database, Event, LineFault, Record, Refused, Resolved, Row, messages_of, spell, unspell


class Words(unittest.TestCase):
    def test_words_of_the_guide(self):
        for data, word in [
            (b"", "-"), (b"-", "%2D"), (b"--", "--"), (b"-a", "-a"), (b"%", "%25"), (b" ", "%20"), (b"a b", "a%20b"), (b"A", "A"),
            (b"\x00\x7f\xff", "%00%7F%FF"), (b"!~", "!~"), ("açaí".encode(), "a%C3%A7a%C3%AD"),
        ]:
            self.assertEqual(spell(data), word)
            self.assertEqual(unspell(word), data)

    def test_any_bytes_come_back(self):
        dice = random.Random(1)
        for length in list(range(20)) * 20:
            data = bytes(dice.choice(b"-%aA9 ~\x00\xff\n") if dice.random() < 0.7 else dice.randrange(256) for _ in range(length))
            self.assertEqual(unspell(spell(data)), data)

    def test_each_byte_has_one_spelling(self):
        for byte in range(256):
            word = spell(bytes([byte]))
            self.assertEqual(unspell(word), bytes([byte]))
            other = "%%%02X" % byte
            if other != word:
                with self.assertRaises(ValueError):
                    unspell(other)

    def test_no_spelling(self):
        for word in ["", "%", "%4", "%4g", "%c3", "a b", "é", "%41", "%2D%2D", "\n", "%%"]:
            with self.assertRaises(ValueError, msg=word):
                unspell(word)


class Opening(unittest.TestCase):
    def test_rings(self):
        for ring in (0, 65537, 1 << 32, -1):
            with self.assertRaises(ripsawbean.RingRange):
                Database(ring)
        for ring in (1, 65536):
            with Database(ring) as db:
                self.assertEqual(db.make("stats").answer, "stats 0 0 0 0 0")

    def test_open_and_close_twice(self):
        db = Database()
        with self.assertRaises(ripsawbean.AlreadyOpen):
            db.open()
        db.make("begin", 10)
        db.close()
        db.close()
        self.assertFalse(db.is_open)
        for call in (lambda: db.call("0 stats\n"), db.text, lambda: list(db.messages(1, 1))):
            with self.assertRaises(ripsawbean.Closed):
                call()
        db.open(7)
        self.assertIsNone(db.text())
        self.assertEqual(db.make("commit", 10).text, "0 0 commit 10 => notxn\n")
        db.close()

    def test_a_block_that_raises_closes(self):
        with self.assertRaises(KeyError):
            with Database() as db:
                raise KeyError
        self.assertFalse(db.is_open)

    def test_one_that_is_forgotten_warns_and_is_closed(self):
        with warnings.catch_warnings(record=True) as told:
            warnings.simplefilter("always")
            Database()
            gc.collect()
        self.assertEqual([warning.category for warning in told], [ResourceWarning])

    def test_calls_of_several_threads_take_turns(self):
        seats, each = 8, 200
        told = [[] for _ in range(seats)]

        def use(seat):
            for i in range(each):
                ts = 1 + seat + seats * i
                told[seat].append((ts, db.make("begin", ts, seat=seat)))
                # A text that is longer than the buffer of the moment, now and then.
                db.make("put", ts, b"k%d" % seat, b"v" * (ts * 50 % 30000), seat=seat)
                told[seat].append((ts, db.make("get", ts, b"k%d" % seat, seat=seat)))

        with Database() as db:
            threads = [threading.Thread(target=use, args=(seat,)) for seat in range(seats)]
            for thread in threads:
                thread.start()
            for thread in threads:
                thread.join()
            self.assertEqual(db.make("stats").answer, "stats %d %d 0 0 0" % (seats * each, seats * each))
            positions = set()
            for seat in range(seats):
                for ts, event in told[seat]:
                    words = str(event).split(" ")
                    positions.add(int(words[0]))
                    self.assertEqual((words[1], int(words[3])), (str(seat), ts))
                    if words[2] == "get":
                        self.assertEqual(len(event.value), ts * 50 % 30000)
            self.assertEqual(len(positions), 2 * seats * each)

    def test_another_thread_closes(self):
        db = Database()
        db.make("begin", 1)
        thread = threading.Thread(target=db.close)
        thread.start()
        thread.join()
        self.assertFalse(db.is_open)


class Calls(unittest.TestCase):
    def setUp(self):
        self.db = Database()
        self.addCleanup(self.db.close)

    def test_each_fault_of_a_line(self):
        self.db.make("begin", 10)
        last = str(self.db.text())
        for line, kind in [
            ("\n", ripsawbean.WordCount), ("0 put 10 a\n", ripsawbean.WordCount), ("0  stats\n", ripsawbean.WordCount),
            ("0 fly\n", ripsawbean.UnknownCommand), ("0 begin 01\n", ripsawbean.Number),
            ("0 begin 18446744073709551616\n", ripsawbean.Number), ("0 get 10 -\n", ripsawbean.KeyLength),
            ("0 get 10 %s\n" % ("k" * 257), ripsawbean.KeyLength), ("0 scan 10 - %s\n" % ("k" * 258), ripsawbean.KeyLength),
            ("0 put 10 a %s\n" % ("v" * 65537), ripsawbean.ValueLength), ("64 stats\n", ripsawbean.Session),
            ("0 stats", ripsawbean.NoNewline), ("", ripsawbean.NoNewline), ("0" * 200001 + "\n", ripsawbean.LineTooLong),
            ("0 get 10 %41\n", ripsawbean.BadByte), ("0 get 10 é\n", ripsawbean.BadByte), (b"0 get 10 \x00\n", ripsawbean.BadByte),
        ]:
            with self.assertRaises(kind, msg=line[:40]) as told:
                self.db.call(line)
            self.assertEqual(type(told.exception), kind)
            self.assertIsInstance(told.exception, ripsawbean.LineFault)
            self.assertEqual(str(self.db.text()), last)
        self.assertEqual(str(self.db.make("stats")), "1 0 stats => stats 0 1 0 0 0\n")

    def test_the_kinds_name_their_status(self):
        self.assertEqual(sorted(ripsawbean.errors.ERRORS), [*range(1, 10), *range(12, 27)])

    def test_values_of_python(self):
        db = self.db
        self.assertEqual(str(db.make("begin", 10, seat=63)), "0 63 begin 10 => started\n")
        self.assertEqual(db.make("put", 10, b"a b", b"", seat=63).answer, "written")
        self.assertEqual(db.make("put", 10, b"-", b"\xff%", seat=63).answer, "written")
        self.assertEqual(db.make("get", 10, b"a b", seat=63).value, b"")
        self.assertIsNone(db.make("get", 10, b"none", seat=63).value)
        self.assertEqual(db.make("scan", 10, None, None, seat=63).rows, [(b"-", b"\xff%"), (b"a b", b"")])
        self.assertEqual(db.make("scan", 10, b"a", b"a!", seat=63).rows, [(b"a b", b"")])
        self.assertEqual(db.make("commit", 10, seat=63).number, 2)
        for argument in ("text", 1.5, True):
            with self.assertRaises(TypeError):
                db.make("get", 10, argument)

    def test_a_key_and_a_value_that_are_spelled_as_the_arrow(self):
        self.db.make("begin", 10)
        self.assertEqual(self.db.make("put", 10, b"=>", b"=>").answer, "written")
        self.assertEqual(self.db.make("get", 10, b"=>").value, b"=>")
        self.assertEqual(self.db.make("scan", 10, b"=>", None).rows, [(b"=>", b"=>")])

    def test_a_refusal_is_an_event(self):
        event = self.db.make("commit", 10)
        self.assertTrue(event.is_refusal)
        self.assertEqual(event.answer, "notxn")
        self.assertFalse(self.db.make("close", 10).is_refusal)

    def test_the_largest_value_and_a_text_that_outgrows_the_buffer(self):
        value = bytes(range(256)) * 256
        self.db.make("begin", 1)
        self.assertEqual(self.db.make("put", 1, b"k" * 256, value).answer, "written")
        self.assertEqual(self.db.make("get", 1, b"k" * 256).value, value)
        for i in range(40):
            self.db.make("put", 1, b"k%d" % i, b"v" * 65536)
        event = self.db.make("scan", 1, None, None)
        self.assertEqual(len(event.rows), 41)
        self.assertEqual(str(self.db.text()), str(event))
        self.assertTrue(str(self.db.make("stats")).startswith("44 0 stats => "))

    def test_no_text_before_the_first_call(self):
        self.assertIsNone(self.db.text())

    def test_the_state_makes_no_call(self):
        for ts in (5, 10, 20):
            self.db.make("begin", ts)
            self.db.make("put", ts, b"a", b"%d" % ts)
            self.db.make("commit", ts)
        feed = self.db.make("open", None, None, 5).number
        self.db.make("close", 30)
        self.db.make("poll", feed, 1)
        last = str(self.db.make("collect", 30))
        database, told = (json.loads(line) for line in self.db.state().splitlines())
        self.assertEqual((database["closed"], database["limit"], database["holder"]), ("30", "9", "feed"))
        self.assertEqual((told["number"], told["complete"], told["behind"]), ("1", "9", "21"))
        self.assertEqual(str(self.db.text()), last)
        self.assertTrue(str(self.db.make("stats")).startswith("13 0 stats => "))

    def test_a_state_that_outgrows_the_buffer(self):
        for ts in range(1, 200):
            self.db.make("begin", ts)
        lines = self.db.state().splitlines()
        self.assertEqual([json.loads(line)["timestamp"] for line in lines[1:]], [str(ts) for ts in range(1, 200)])


class TypedCalls(unittest.TestCase):
    def setUp(self):
        self.db = Database()
        self.addCleanup(self.db.close)

    def test_the_last_event_in_numbers(self):
        self.assertIsNone(self.db.last())
        for line, record in (
            ("5 openinitial a b 0\n", (0, 5, "openinitial", 0, 13, 1, 0)),
            ("0 begin 10\n", (1, 0, "begin", 10, 1, 0, 0)),
            ("63 closehard 20\n", (2, 63, "closehard", 20, 7, 20, 1)),
            ("0 commit 10\n", (3, 0, "commit", 10, 38, 0, 0)),
            ("5 poll 1 9\n", (4, 5, "poll", 1, 8, 1, 0)),
        ):
            self.db.call(line)
            self.assertEqual(self.db.last(), Record(*record))
            with self.assertRaises(LineFault):
                self.db.call("0 begin\n")
            self.assertEqual(self.db.last(), Record(*record))
        with self.assertRaises(Refused):
            self.db.get(30, b"a")
        self.assertEqual((self.db.last().name, self.db.last().is_refusal), ("notxn", True))
        self.db.close()
        with self.assertRaises(Closed):
            self.db.last()

    def answers(self, answer, kind, text, value=None, number=0):
        """What a call told, and the text of its event."""
        found = None if answer.is_refusal else answer.value
        self.assertEqual((answer.kind, found, answer.number, answer.is_refusal), (kind, value, number, kind >= 32))
        event = self.db.text()
        self.assertEqual(str(event), text)
        self.assertEqual((event.answer, event.is_refusal), (answer.answer, answer.is_refusal))

    def test_each_call_is_the_event_of_its_line(self):
        db = self.db
        self.assertEqual(db.data(), b"")
        self.answers(db.begin(10, seat=5), 1, "0 5 begin 10 => started\n")
        self.answers(db.put(10, b"a b", b"\xff-", seat=5), 4, "1 5 put 10 a%20b %FF- => written\n")
        self.answers(db.put(10, bytearray(b"c"), memoryview(b""), seat=5), 4, "2 5 put 10 c - => written\n")
        self.answers(db.get(10, b"a b", seat=5), 3, "3 5 get 10 a%20b => value %FF-\n", b"\xff-", 2)
        self.assertEqual(db.data(), b"\xff-")
        self.answers(db.get(10, b"c", seat=5), 3, "4 5 get 10 c => value -\n", b"", 0)
        self.answers(db.get(10, b"d", seat=5), 2, "5 5 get 10 d => none\n")
        self.answers(db.commit(10, seat=5), 5, "6 5 commit 10 => committed 2\n", None, 2)
        self.answers(db.begin(20), 1, "7 0 begin 20 => started\n")
        self.answers(db.delete(20, b"c"), 4, "8 0 del 20 c => written\n")
        self.answers(db.abort(20), 6, "9 0 abort 20 => aborted\n")
        self.answers(db.close_to(30, seat=63), 7, "10 63 close 30 => closed 30 0\n", None, 30)
        self.answers(db.read_at(30, b"a b"), 3, "11 0 readat 30 a%20b => value %FF-\n", b"\xff-", 2)
        self.answers(db.read_at(9, b"a b"), 2, "12 0 readat 9 a%20b => none\n")

    def refused(self, read, *told):
        """A read raises what it was answered, so that nobody takes it for an absent key."""
        with self.assertRaises(Refused) as raised:
            read()
        self.answers(raised.exception.event, *told)
        for answer in (raised.exception.event, self.db.text()):
            with self.assertRaises(Refused) as again:
                answer.value
            self.assertEqual(again.exception.answer, answer.answer)

    def test_what_is_refused_has_no_rows_and_no_messages(self):
        for event in (self.db.make("scan", 10, None, None), self.db.make("scanat", 1, None, None)):
            with self.assertRaises(Refused):
                event.rows
        for answer in (self.db.poll(1, 9), self.db.text()):
            with self.assertRaises(Refused):
                answer.messages

    def test_each_refusal(self):
        db = self.db
        db.begin(10)
        self.answers(db.begin(10), 33, "1 0 begin 10 => tsused\n")
        self.answers(db.begin((1 << 64) - 1), 34, "2 0 begin 18446744073709551615 => tsrange\n")
        self.refused(lambda: db.get(10, b"a", seat=1), 37, "3 1 get 10 a => notowner\n")
        self.answers(db.commit(11), 36, "4 0 commit 11 => notxn\n")
        db.put(10, b"a", b"1")
        db.begin(20)
        self.refused(lambda: db.get(20, b"a"), 35, "7 0 get 20 a => blocked 10\n", None, 10)
        db.commit(10)
        self.answers(db.put(10, b"a", b"2"), 38, "9 0 put 10 a 2 => ended\n")
        db.get(20, b"a")
        db.begin(15)
        self.answers(db.delete(15, b"a"), 39, "12 0 del 15 a => toolate\n")
        self.refused(lambda: db.read_at(20, b"a"), 40, "13 0 readat 20 a => notclosed 0\n", None, 0)
        db.abort(20)
        db.close_to(30)
        self.answers(db.begin(30), 32, "16 0 begin 30 => belowclosed 30\n", None, 30)
        db.make("collect", 25)
        self.refused(lambda: db.read_at(24, b"a"), 41, "18 0 readat 24 a => belowhorizon 25\n", None, 25)
        self.answers(db.poll(1, 9), 43, "19 0 poll 1 9 => nofeed\n")
        db.make("open", None, None, 30)
        db.make("cancel", 1)
        self.answers(db.poll(1, 9), 44, "22 0 poll 1 9 => feedcancelled\n")

    def test_messages(self):
        db = self.db
        value = bytes(range(256)) * 256
        all = [Row(b"k" * 256, value, 10)] + [Row(b"z%02d" % i, value, 10) for i in range(30)]
        db.begin(10)
        for row in all:
            self.assertEqual(db.put(10, row.key, row.after).answer, "written")
        self.assertEqual(db.get(10, b"k" * 256).value, value)
        db.commit(10)
        db.begin(20)
        db.delete(20, b"z07")
        db.commit(20)
        db.close_to(20)
        all += [Row(b"z07", None, 20), Resolved(20)]
        feed = db.make("open", None, None, 0, seat=3).number
        answer = db.poll(feed, 100, seat=3)
        self.assertEqual((answer.messages, answer.number, answer.answer), (all, len(all), "messages %d" % len(all)))
        self.assertEqual(messages_of(db.data()), all)
        self.assertEqual(db.text().messages, all)
        self.assertEqual(db.poll(feed, 100, seat=3).messages, [])
        self.assertEqual(db.poll(feed, 100).answer, "notowner")

    def test_scans_that_find_room(self):
        db = self.db
        db.begin(10)
        for key, value in ((b"a", b"12345"), (b"c", b"1234567890"), (b"d d", b"1")):
            db.put(10, key, value)
        db.delete(10, b"b")
        rows = [(b"a", b"12345"), (b"c", b"1234567890"), (b"d d", b"1")]
        for asked, told, end, text in (
            ({}, 3, None, "- -"),
            ({"bytes": 72}, 3, None, "- -"),
            ({"bytes": 71}, 2, b"d d", "- d%20d"),
            ({"bytes": 22}, 1, b"a\0", "- a%00"),
            ({"rows": 0}, 1, b"a\0", "- a%00"),
            ({"rows": 1}, 1, b"c", "- c"),
            ({"high": b"c", "rows": 1}, 1, b"c", "- c"),
            ({"high": b"x"}, 3, b"x", "- x"),
        ):
            answer = db.scan_within(10, **asked)
            self.assertEqual((answer.rows, answer.end, answer.number), (rows[:told], end, told), asked)
            self.assertEqual(answer.answer, "rows %d" % told)
            self.assertEqual(db.text().text.split("\n")[0].split(" ", 1)[1], "0 scan 10 %s => rows %d" % (text, told))
            self.assertEqual((db.text().rows, db.data()), (answer.rows, answer.data))
        self.assertEqual(db.scan_within(10, b"d d", rows=1).rows, rows[2:])
        self.assertEqual((db.scan_within(10, b"a", b"").rows, db.scan_within(10, b"a", b"").end), ([], b"\0"))
        for scan, told in ((lambda: db.scan_within(11), "notxn"), (lambda: db.scan_at_within(10), "notclosed 0")):
            with self.assertRaises(Refused) as raised:
                scan()
            for ask in (lambda answer: answer.rows, lambda answer: answer.end):
                with self.assertRaises(Refused) as again:
                    ask(raised.exception.event)
                self.assertEqual((raised.exception.answer, again.exception.answer), (told, told))
        db.commit(10)
        db.close_to(10)
        answer = db.scan_at_within(10, bytes=23)
        self.assertEqual((answer.rows, answer.end), (rows[:1], b"c"))
        for faulty in ({"low": b"x" * 258}, {"high": b"x" * 258}):
            with self.assertRaises(ripsawbean.KeyLength):
                db.scan_within(10, **faulty)
        for faulty in ({"rows": 1 << 64}, {"bytes": -1}, {"seat": 256}):
            with self.assertRaises(LineFault):
                db.scan_within(10, **faulty)

    def test_a_span_in_pieces(self):
        db = self.db
        rows = [(b"%03d" % i, b"v" * (i % 7)) for i in range(100)]
        db.begin(1)
        for key, value in rows:
            db.put(1, key, value)
        for most in (0, 20, 26, 27, 60, 500, 10000):
            told, low = [], None
            while True:
                answer = db.scan_within(1, low, bytes=most)
                self.assertTrue(answer.rows or answer.end is None)
                told += answer.rows
                low = answer.end
                if low is None:
                    break
            self.assertEqual(told, rows)

    def test_polls_that_find_room(self):
        db = self.db
        db.begin(10)
        for i in range(40):
            db.put(10, b"%02d" % i, b"1")
        db.commit(10)
        db.close_to(10)
        feed = db.make("open", None, None, 0).number
        self.assertEqual(db.poll_within(feed, 0, 1 << 40).messages, [])
        self.assertEqual(db.poll_within(feed, 100, 0).messages, [Row(b"00", b"1", 10)])
        self.assertEqual(len(db.poll_within(feed, 100, 20 * 32 + 19).messages), 32)
        self.assertEqual(str(db.text()).split("\n")[0], "46 0 poll 1 32 => messages 32")
        self.assertEqual(len(db.poll_within(feed, 5, 1 << 40).messages), 5)
        self.assertEqual(db.poll_within(feed, 9, 57).messages, [Row(b"38", b"1", 10), Row(b"39", b"1", 10), Resolved(10)])
        with self.assertRaises(LineFault):
            db.poll_within(feed, 9, 1 << 64)

    def test_faulty_parts_make_no_call(self):
        db = self.db
        db.begin(10)
        key, value, great = b"k" * 257, b"v" * 65537, 1 << 64
        for kind, call in [
            (ripsawbean.Session, lambda: db.begin(10, seat=64)), (ripsawbean.Session, lambda: db.begin(10, seat=256)),
            (ripsawbean.Session, lambda: db.poll(1, 1, seat=-1)), (ripsawbean.Session, lambda: db.put(10, key, value, seat=1 << 70)),
            (ripsawbean.KeyLength, lambda: db.get(10, b"")), (ripsawbean.KeyLength, lambda: db.delete(10, key)),
            (ripsawbean.KeyLength, lambda: db.put(10, key, value)), (ripsawbean.ValueLength, lambda: db.put(10, b"k", value)),
            (ripsawbean.Number, lambda: db.begin(great)), (ripsawbean.Number, lambda: db.get(-1, b"a")),
            (ripsawbean.Number, lambda: db.put(great, b"a", b"")), (ripsawbean.Number, lambda: db.delete(great, b"a")),
            (ripsawbean.Number, lambda: db.poll(1, great)), (ripsawbean.Number, lambda: db.close_to(great)),
            (TypeError, lambda: db.get(10, "a")), (TypeError, lambda: db.get(10, None)), (TypeError, lambda: db.put(10, b"a", 5)),
            (TypeError, lambda: db.begin("10")), (TypeError, lambda: db.commit(1.5)),
        ]:
            with self.assertRaises(kind):
                call()
            self.assertEqual(str(db.text()), "0 0 begin 10 => started\n")
        db.close()
        for call in (lambda: db.begin(1), lambda: db.get(1, b"a"), lambda: db.poll(1, 1), db.data):
            with self.assertRaises(ripsawbean.Closed):
                call()


class Feeds(unittest.TestCase):
    def setUp(self):
        self.db = Database()
        self.addCleanup(self.db.close)
        self.db.make("begin", 10)
        for i in range(5):
            self.db.make("put", 10, b"k%d" % i, b"%d" % i)
        self.db.make("commit", 10)
        self.db.make("begin", 20)
        self.db.make("del", 20, b"k3")
        self.db.make("commit", 20)
        self.db.make("close", 20)
        self.all = [Row(b"k%d" % i, b"%d" % i, 10) for i in range(5)] + [Row(b"k3", None, 20), Resolved(20)]

    def test_messages_whatever_the_most_of_a_poll(self):
        for most in range(1, 10):
            feed = self.db.make("open", None, None, 0, seat=3).number
            self.assertEqual(list(self.db.messages(feed, most, seat=3)), self.all)
            self.assertEqual(list(self.db.messages(feed, most, seat=3)), [])

    def test_an_initial_feed_with_a_gap(self):
        feed = self.db.make("openinitialevery", None, None, 20, 15).number
        self.assertEqual(list(self.db.messages(feed, 3)), [Row(b"k%d" % i, b"%d" % i, 20) for i in (0, 1, 2, 4)])
        self.db.make("close", 33)
        self.assertEqual(list(self.db.messages(feed, 3)), [])
        self.db.make("close", 34)
        self.assertEqual(list(self.db.messages(feed, 3)), [Resolved(34)])

    def test_polls_are_made_as_messages_are_taken(self):
        feed = self.db.make("open", None, None, 0).number
        messages = self.db.messages(feed, 2)
        self.assertEqual(self.db.text().answer, "opened 1")
        self.assertEqual([next(messages), next(messages)], self.all[:2])
        self.assertEqual(self.db.text().answer, "messages 2")
        self.assertEqual(list(messages), self.all[2:])

    def test_a_poll_that_is_refused(self):
        for answer in ("nofeed", "notowner"):
            with self.assertRaises(Refused) as told:
                list(self.db.messages(1, 10))
            self.assertEqual(told.exception.answer, answer)
            self.db.make("open", None, None, 0, seat=1)
        with self.assertRaises(ValueError):
            self.db.messages(1, 0)

    def test_bytes_of_messages(self):
        self.db.make("begin", 30)
        self.db.make("put", 30, b"\x00\xff\xfe-", b"")
        self.db.make("commit", 30)
        self.db.make("close", 30)
        feed = self.db.make("open", None, None, 20).number
        self.assertEqual(list(self.db.messages(feed, 10)), [Row(b"\x00\xff\xfe-", b"", 30), Resolved(30)])


class TheCache(unittest.TestCase):
    def refuses(self, cache, message, name):
        before = (dict(cache.rows), cache.resolved, cache.last, cache.complete)
        with self.assertRaises(NotTaken) as told:
            cache.take(message)
        self.assertEqual(str(told.exception), name)
        self.assertEqual((cache.rows, cache.resolved, cache.last, cache.complete), before)

    def test_rows_come_by_timestamp_and_key(self):
        cache = Cache(None, None, 10)
        self.refuses(cache, Row(b"b", b"1", 9), "notafter")
        cache.take(Row(b"b", b"1", 10))
        for row in (Row(b"a", b"1", 10), Row(b"b", b"1", 10), Row(b"z", b"1", 9)):
            self.refuses(cache, row, "notafter")
        self.assertIsNone(cache.complete)
        cache.take(Row(b"a", b"1", 20))
        self.refuses(cache, Resolved(19), "resolvedback")
        cache.take(Resolved(20))
        self.assertEqual((cache.complete, cache.rows), (20, {b"a": b"1", b"b": b"1"}))
        self.refuses(cache, Row(b"c", b"1", 20), "notafter")
        self.refuses(cache, Resolved(20), "resolvedback")
        cache.take(Row(b"a", None, 21))
        self.assertEqual((cache.complete, cache.rows), (None, {b"b": b"1"}))
        cache.take(Resolved(30))
        self.assertEqual(cache.complete, 30)

    def test_the_span(self):
        cache = Cache(b"b", b"d", 1)
        for key in (b"a", b"d", b"e"):
            self.refuses(cache, Row(key, b"1", 1), "outsidespan")
        cache.take(Row(b"b", b"1", 1))
        cache.take(Row(b"c\xff", b"1", 1))

    def test_the_cache_of_each_feed_is_the_scan(self):
        for seed in range(40):
            dice = random.Random(seed)
            with Database(dice.choice([1, 2, 1024])) as db:
                cache, ts = None, 0
                for _ in range(120):
                    ts += dice.randrange(1, 4)
                    if db.make("begin", ts).answer == "started":
                        for _ in range(dice.randrange(4)):
                            key = bytes([dice.randrange(97, 105)])
                            if dice.random() < 0.3:
                                db.make("del", ts, key)
                            else:
                                db.make("put", ts, key, bytes([dice.randrange(256)]))
                        db.make(dice.choice(["commit", "commit", "abort"]), ts)
                    if dice.random() < 0.3:
                        closed = db.make("close", ts).number
                        if cache is None:
                            lo, hi = dice.choice([(None, None), (b"b", b"f"), (None, b"d"), (b"c", None)])
                            feed = db.make("openinitial", lo, hi, closed).number
                            cache = Cache(lo, hi, closed)
                    if cache is not None and dice.random() < 0.5:
                        for message in db.messages(feed, dice.randrange(1, 5)):
                            cache.take(message)
                        self.assertIsNotNone(cache.complete)
                        scan = db.make("scanat", cache.complete, cache.lo, cache.hi).rows
                        self.assertEqual(scan, sorted(cache.rows.items()))


if __name__ == "__main__":
    unittest.main()
