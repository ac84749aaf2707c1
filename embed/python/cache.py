"""A cache that follows a feed, and says at which timestamp it is complete.

A cache keeps the rows of a span of keys. It begins empty over an initial feed, takes the feed's messages one at a time, and refuses
what no feed tells, by the rules of crates/replica:

    message        it is refused where                                           else
    row            its timestamp is at or below what was resolved last, or       the row is kept, or taken out where it is a
                   it doesn't come after the row before it: notafter;            delete. The cache is not complete:
                   its key lies outside the span: outsidespan                    half of a transaction may have been told
    resolved T     T is at or below what was resolved last, or below the row     the cache is complete: its rows are those of
                   before it: resolvedback                                       the database at T, for good

A refusal changes nothing. The program writes each event's text as the database made it, and between them what the cache has, in lines
that begin with "cache:". Without these lines it is a transcript for `mvfeed check`, behind a first line "mvfeed 2".
"""

import sys
from typing import Dict, Optional, Tuple, Union

from ripsawbean import Database, Event, Resolved, Row, spell


class NotTaken(Exception):
    """A message that no feed tells."""


class Cache:
    def __init__(self, lo: Optional[bytes], hi: Optional[bytes], at: int):
        """Empty, for an initial feed of the span that was opened at `at`: it tells what stands there as rows of that timestamp."""
        self.lo, self.hi = lo, hi
        self.resolved = max(at - 1, 0)
        self.last: Optional[Tuple[int, bytes]] = None
        self.complete: Optional[int] = None
        self.rows: Dict[bytes, bytes] = {}

    def take(self, message: Union[Row, Resolved]) -> None:
        if isinstance(message, Resolved):
            self._take_resolved(message.timestamp)
        else:
            self._take_row(message)

    def _take_row(self, row: Row) -> None:
        place = (row.updated, row.key)
        if row.updated <= self.resolved or (self.last is not None and place <= self.last):
            raise NotTaken("notafter")
        if not self._is_inside(row.key):
            raise NotTaken("outsidespan")
        if row.after is None:
            self.rows.pop(row.key, None)
        else:
            self.rows[row.key] = row.after
        self.last, self.complete = place, None

    def _take_resolved(self, timestamp: int) -> None:
        if timestamp <= self.resolved or (self.last is not None and timestamp < self.last[0]):
            raise NotTaken("resolvedback")
        self.resolved = self.complete = timestamp

    def _is_inside(self, key: bytes) -> bool:
        return (self.lo is None or self.lo <= key) and (self.hi is None or key < self.hi)

    def show(self) -> None:
        if self.complete is None:
            print("cache: %d rows, not complete" % len(self.rows))
            return
        print("cache: %d rows, complete at %d" % (len(self.rows), self.complete))
        for key in sorted(self.rows):
            print("cache: row", spell(key), spell(self.rows[key]))


class Story:
    """The database and the cache of its fruit, each event written as it is made."""

    def __init__(self, db: Database):
        self.db = db

    def call(self, line: str) -> Event:
        event = self.db.call(line + "\n")
        sys.stdout.write(event.text)
        return event

    def poll(self, cache: Cache, feed: int, most: int) -> bool:
        """Has the cache take what a poll tells. Whether all was told that is due."""
        event = self.call("1 poll %d %d" % (feed, most))
        if event.is_refusal:
            print("cache: the feed has ended")
            return True
        for message in event.messages:
            cache.take(message)
        cache.show()
        return len(event.messages) < most

    def compare_with_scan(self, cache: Cache, span: str) -> None:
        rows = self.call("0 scanat %d %s" % (cache.resolved, span)).rows
        same = "the same rows" if rows == sorted(cache.rows.items()) else "OTHER ROWS"
        print("cache: %s as the scan at %d" % (same, cache.resolved))

    def offer(self, cache: Cache, line: str) -> None:
        """Has the cache take a message that no feed tells."""
        (message,) = Event("poll => messages 1\n" + line + "\n").messages
        try:
            cache.take(message)
            print("cache: taken:", line)
        except NotTaken as fault:
            print("cache: %s: %s" % (fault, line))


def main() -> None:
    with Database() as db:
        story = Story(db)
        call = story.call

        # Seat 0 writes fruit, and one tool. Keys and values are any bytes: %20 is a space, "-" the empty value, %2D a
        # "-".
        call("0 begin 10")
        call("0 put 10 fruit/apple 3")
        call("0 put 10 %s %s" % (spell("fruit/açaí".encode()), spell(b"a cup")))
        call("0 put 10 fruit/fig %s" % spell(b""))
        call("0 put 10 fruit/kiwi %s" % spell(b"-"))
        call("0 put 10 tool/saw 1")
        call("0 commit 10")
        call("0 close 10")

        # Seat 1 follows the fruit: the keys from "fruit/" up to, and without, "fruit0".
        span = "fruit/ fruit0"
        cache = Cache(b"fruit/", b"fruit0", 10)
        call("1 openinitial %s 10" % span)
        while not story.poll(cache, 1, 3):
            pass
        story.compare_with_scan(cache, span)

        # Transactions commit in any order; nothing of them is told before it is closed.
        call("2 begin 30")
        call("2 put 30 fruit/apple 5")
        call("2 commit 30")
        call("0 begin 20")
        call("0 put 20 fruit/apple 4")
        call("0 del 20 fruit/fig")
        call("0 commit 20")
        story.poll(cache, 1, 100)
        call("0 close 40")
        while not story.poll(cache, 1, 1):
            pass
        story.compare_with_scan(cache, span)

        # What no feed tells is refused, and changes nothing.
        story.offer(cache, '{"after":"Nw==","key":"ZnJ1aXQvYXBwbGU=","updated":"40"}')
        story.offer(cache, '{"after":"Nw==","key":"dG9vbC9zYXc=","updated":"50"}')
        story.offer(cache, '{"resolved":"40"}')
        cache.show()

        # The feed is cancelled. The cache was complete, so a new feed from there on continues it.
        call("2 cancel 1")
        story.poll(cache, 1, 100)
        call("1 open %s %d" % (span, cache.resolved))
        call("0 begin 50")
        call("0 put 50 fruit/fig 7")
        call("0 commit 50")
        call("0 close 60")
        story.poll(cache, 2, 100)
        story.compare_with_scan(cache, span)


if __name__ == "__main__":
    main()
