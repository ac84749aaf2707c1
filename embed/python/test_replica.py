"""Tests of replicas: which messages one takes, and that it has what a scan finds wherever it says that it has it all.

The environment variable RANDOM_FEEDS, 200 where it isn't set, says how many feeds of random histories are followed.
"""

import collections
import os
import random
import unittest
import warnings

import ripsawbean
from ripsawbean import Database, Replica, Resolved, Row


class Taking(unittest.TestCase):
    def refused(self, kind, replica, message):
        before = replica.rows(), replica.complete_through, replica.complete_at
        with self.assertRaises(kind):
            replica.take(message)
        self.assertEqual((replica.rows(), replica.complete_through, replica.complete_at), before)

    def test_a_feed_from_a_cursor(self):
        with Replica(b"a", b"c", 5) as replica:
            self.assertEqual((replica.complete_through, replica.complete_at), (5, 5))
            self.assertEqual(replica.ready(Row(b"a", b"1", 10)), 9)
            replica.take(Row(b"a", b"1", 10))
            self.assertEqual((replica.complete_through, replica.complete_at), (9, None))
            self.assertIsNone(replica.ready(Row(b"b", b"1", 10)))
            self.refused(ripsawbean.NotAfter, replica, Row(b"a", b"1", 10))
            self.refused(ripsawbean.OutsideSpan, replica, Row(b"c", b"1", 11))
            self.refused(ripsawbean.ResolvedBack, replica, Resolved(9))
            for line in ("", "{}\n", '{"resolved":"30"}', '{"resolved": "30"}\n', '{"resolved":"0"}\n', "\x00"):
                self.refused(ripsawbean.NoMessage, replica, line)
            replica.take('{"after":null,"key":"Yg==","updated":"10"}\n')
            replica.take(b'{"resolved":"30"}\n')
            self.assertEqual((replica.complete_through, replica.complete_at), (30, 30))
            self.assertEqual(replica.rows(), [(b"a", b"1")])
            self.assertEqual((replica.get(b"a"), replica.get(b"b")), (b"1", None))
            for key in (b"", b"k" * 257):
                with self.assertRaises(ripsawbean.KeyLength):
                    replica.get(key)

    def test_an_initial_feed(self):
        with Replica(None, None, 7, initial=True) as replica:
            self.assertEqual((replica.complete_through, replica.complete_at), (None, None))
            replica.take(Row(b"\xff", b"v" * 65536, 7))
            self.assertEqual((replica.complete_through, replica.ready(Row(b"a", b"", 8))), (None, 7))
            replica.take(Row(b"a", b"", 8))
            self.assertEqual(replica.complete_through, 7)
            self.assertEqual(replica.rows(), [(b"a", b""), (b"\xff", b"v" * 65536)])
            self.assertEqual(replica.get(b"\xff"), b"v" * 65536)

    def test_opening_and_closing(self):
        with self.assertRaises(ripsawbean.NoFeed):
            Replica(None, None, 1 << 63)
        with self.assertRaises(ripsawbean.KeyLength):
            Replica(b"k" * 258, None, 1)
        replica = Replica(None, None, (1 << 63) - 1)
        replica.close()
        replica.close()
        takes, asks = lambda: replica.take(Resolved(1)), lambda: replica.ready(Resolved(1))
        for call in (replica.rows, lambda: replica.get(b"a"), takes, asks, lambda: replica.complete_at):
            with self.assertRaises(ripsawbean.Closed):
                call()

    def test_rows_to_begin_with(self):
        rows = [(b"b", b"2"), (b"a ", b""), (b"-", b"-")]
        for cursor in (0, 5, (1 << 63) - 1):
            with Replica(None, None, cursor, rows=rows) as replica:
                self.assertEqual(replica.rows(), sorted(rows))
                self.assertEqual((replica.complete_through, replica.complete_at), (cursor, cursor))
        with Replica(None, None, 5, rows=[]) as replica:
            self.assertEqual((replica.rows(), replica.complete_at), ([], 5))
            self.assertEqual(replica.ready(Row(b"a", None, 7)), 6)
        for error, asked in (
            (ripsawbean.OutsideSpan, ((b"b", None, 5), rows)), (ripsawbean.NotAfter, ((None, None, 5), rows + rows)),
            (ripsawbean.NoMessage, ((None, None, 5), [(b"", b"1")])), (ripsawbean.NoFeed, ((None, None, 5, True), rows)),
            (ripsawbean.NoFeed, ((None, None, 1 << 63), [])), (ripsawbean.KeyLength, ((b"k" * 258, None, 5), [])),
        ):
            with warnings.catch_warnings(), self.assertRaises(error):
                warnings.simplefilter("error")
                Replica(*asked[0], rows=asked[1])


class Reading:
    """What a replica has taken, by the definitions, read plainly."""

    def __init__(self, span, cursor, rows):
        """`rows` are those that it begins with, or None where they come as messages at the cursor."""
        self.span, self.cursor = span, cursor
        self.resolved = self.through = max(cursor - 1, 0) if rows is None else cursor
        self.complete = None if rows is None else cursor
        self.last, self.rows = None, dict(rows or ())

    def fault(self, message):
        """Why a message is refused, or None."""
        if isinstance(message, Resolved):
            reaches = self.last is None or self.last.updated <= message.timestamp
            return None if message.timestamp > self.resolved and reaches else ripsawbean.ResolvedBack
        is_after = self.last is None or (self.last.updated, self.last.key) < (message.updated, message.key)
        if message.updated <= self.resolved or not is_after:
            return ripsawbean.NotAfter
        lo, hi = self.span
        is_inside = (lo is None or lo <= message.key) and (hi is None or message.key < hi)
        return None if is_inside else ripsawbean.OutsideSpan

    def ready(self, message):
        if isinstance(message, Resolved) or self.fault(message) is not None:
            return None
        is_first = message.updated > self.cursor and (self.last is None or self.last.updated != message.updated)
        return message.updated - 1 if is_first else None

    def take(self, message):
        if isinstance(message, Resolved):
            self.resolved = self.through = self.complete = message.timestamp
            return
        self.rows.pop(message.key, None)
        if message.after is not None:
            self.rows[message.key] = message.after
        self.last, self.through, self.complete = message, message.updated - 1, None

    def shown(self):
        return sorted(self.rows.items()), self.through if self.through >= self.cursor else None, self.complete


class Follower:
    """A replica beside the plain reading of what it is given."""

    def __init__(self, test, span, cursor, initial, rows):
        self.test = test
        self.replica = Replica(*span, cursor, initial, rows)
        self.reading = Reading(span, cursor, rows)
        self.see()

    def give(self, message):
        """Gives a message, which is taken or refused as the definitions say. The class of the error, or None."""
        self.test.assertEqual(self.replica.ready(message), self.reading.ready(message))
        fault = self.reading.fault(message)
        if fault is None:
            self.replica.take(message)
            self.reading.take(message)
        else:
            with self.test.assertRaises(fault):
                self.replica.take(message)
        self.see()
        return fault

    def see(self):
        replica = self.replica
        self.test.assertEqual((replica.rows(), replica.complete_through, replica.complete_at), self.reading.shown())


class RandomFeeds(unittest.TestCase):
    KEYS = [b"a", b"b", b"c", b"d d", b"e" * 30]

    def test_replicas_have_what_a_scan_finds(self):
        wanted, seed = int(os.environ.get("RANDOM_FEEDS", 200)), 0
        counts = collections.Counter()
        while counts["feeds"] < wanted:
            dice = random.Random(seed)
            with Database(ring=dice.choice([1, 3, 64])) as db:
                History(self, dice, db, counts).run()
            seed += 1
        print("replicas of random feeds: %s" % ", ".join("%d %s" % (count, name) for name, count in counts.items()))
        for name in ("resumed", "NotAfter", "OutsideSpan", "ResolvedBack"):
            self.assertGreater(counts[name], 0, name)
        self.assertGreater(counts["scans"], 3 * wanted)


class History:
    """A random history with one feed at a time, which two replicas follow.

    The steady one takes each message once, in order. Wherever it is to be the map, its rows are those of a scan. It
    goes on with other feeds from where it was told all. The shaken one has messages left out, repeated, late, or of
    another key.
    """

    def __init__(self, test, dice, db, counts):
        self.test, self.dice, self.db, self.counts = test, dice, db, counts
        self.time, self.closed = 0, 0
        self.steady = self.shaken = None

    def run(self):
        for _ in range(40):
            self.commit()
            if self.dice.random() < 0.5:
                self.closed = self.db.make("close", self.time).number
            if self.steady is None or self.dice.random() < 0.05:
                self.open()
            self.poll()
            if self.dice.random() < 0.1:
                self.go_on()
            if self.dice.random() < 0.2:
                self.db.make("collect", self.closed)
        self.end()

    def commit(self):
        self.time += self.dice.randrange(1, 4)
        self.db.make("begin", self.time)
        for key in self.dice.sample(RandomFeeds.KEYS, self.dice.randrange(4)):
            if self.dice.random() < 0.3:
                self.db.make("del", self.time, key)
            else:
                self.db.make("put", self.time, key, b"%d" % self.dice.randrange(3))
        self.db.make("commit", self.time)

    def scan(self, at):
        event = self.db.make("scanat", at, *self.span)
        self.test.assertFalse(event.is_refusal, event.text)
        self.counts["scans"] += 1
        return event.rows

    def open(self):
        if self.steady is not None:
            self.db.make("cancel", self.feed)
        bounds = sorted(self.dice.sample(RandomFeeds.KEYS, 2))
        self.span = tuple(bound if self.dice.random() < 0.5 else None for bound in bounds)
        initial = self.dice.random() < 0.5
        gap = self.dice.choice([(), (), (1,), (7,)])
        command = "open" + ("initial" if initial else "") + ("every" if gap else "")
        self.feed = self.db.make(command, *self.span, self.closed, *gap).number
        self.went_on = None
        self.follow(self.closed, initial, None if initial else self.scan(self.closed))

    def go_on(self):
        """A new feed and new replicas, from where the steady one was told all, also between resolved messages."""
        through = self.steady.replica.complete_through
        if through is None:
            return
        rows = self.steady.replica.rows()
        feed = self.db.make("open", *self.span, through)
        self.test.assertFalse(feed.is_refusal, feed.text)
        self.db.make("cancel", self.feed)
        self.feed = feed.number
        self.went_on = through  # some rows may be of the next timestamp, so there they are no map
        self.follow(through, False, rows)
        self.counts["resumed"] += 1

    def follow(self, cursor, initial, rows):
        self.end()
        self.steady, self.shaken = (Follower(self.test, self.span, cursor, initial, rows) for _ in range(2))
        self.late = []
        self.counts["feeds"] += 1

    def end(self):
        for follower in (self.steady, self.shaken):
            if follower is not None:
                follower.replica.close()

    def poll(self):
        for message in self.db.make("poll", self.feed, self.dice.choice([0, 1, 2, 100])).messages:
            ready = self.steady.replica.ready(message)
            if ready not in (None, self.went_on):
                self.compare(ready)
            self.test.assertIsNone(self.steady.give(message))
            if isinstance(message, Resolved):
                self.test.assertEqual(self.steady.replica.complete_at, message.timestamp)
                self.compare(message.timestamp)
            self.shake(message)
            self.counts["messages"] += 1

    def compare(self, at):
        rows = self.scan(at)
        self.test.assertEqual(self.steady.replica.rows(), rows)
        for key in RandomFeeds.KEYS:
            self.test.assertEqual(self.steady.replica.get(key), dict(rows).get(key))

    def shake(self, message):
        given = [message]
        way = self.dice.randrange(8)
        if way == 0:
            given = []
            self.late.append(message)
        elif way == 1:
            given = [message, message]
        elif way == 2 and self.late:
            given = [self.dice.choice(self.late), message]
        elif way == 3 and isinstance(message, Row):
            given = [message._replace(key=self.dice.choice(RandomFeeds.KEYS)), message]
        for one in given:
            fault = self.shaken.give(one)
            if fault is not None:
                self.counts[fault.__name__] += 1


if __name__ == "__main__":
    unittest.main()
