"""Compares a copy with the database, while writers and the copy's consumer go on.

The database is read as it was at the copy's place, page by page, and the copy's rows beside it. A row that isn't the
same may only have been stored since. So it is looked at again, together with the place that the copy has by then, and
compared with the database at that place. What differs there is told.

A row that is wrong when this begins is found, unless it is stored anew meanwhile.
"""

from __future__ import annotations

import contextlib
import heapq
import itertools
import json
import logging
from typing import Any, Callable, Dict, Iterator, List, NamedTuple, Optional, Tuple, Type, TypeVar

from ripsawbean_client import Client, Error, Gone, Place
from ripsawbean_client.values import to_json

from .following import connected, log_as, sentence

HOLD = 300      # seconds for which the database keeps the place readable, from page to page
TOGETHER = 100  # rows that are looked at again at once
TRIES = 10      # looks at a place that the database has left already

SAME, DIFFERENT, TROUBLE = range(3)  # statuses, as diff has them

T = TypeVar("T")
Row = Tuple[bytes, Optional[bytes]]


class Unread(Exception):
    """The copy can't be compared."""


class Difference(NamedTuple):
    """What both have of a key at a timestamp. None stands for absent."""

    key: bytes
    timestamp: int
    database: Optional[bytes]
    copy: Optional[bytes]

    def line(self) -> str:
        both = {name: None if value is None else to_json(value) for name, value in zip(("database", "copy"), self[2:])}
        return json.dumps({"key": to_json(self.key), "timestamp": str(self.timestamp), **both})


class Comparison:
    """`differences` goes over them once. Then `rows` are how many rows the database has, and `again` how many of them
    had to be looked at again."""

    def __init__(self, database: Client, target: Any, lo: Optional[bytes], hi: Optional[bytes]):
        self.database, self.target, self.lo, self.hi = database, target, lo, hi
        self.rows = self.again = 0
        self.place = in_time(self.begin)

    def begin(self) -> Place:
        """The copy's place, which the database holds from now on."""
        place = self.known(self.target.load())
        self.database.page(self.lo, self.hi, place.timestamp, limit=1, hold=HOLD)
        return place

    def known(self, place: Optional[Place]) -> Place:
        if place is None:
            raise Unread("the copy has no place: nothing was stored in it, or it has another name")
        if self.database.identity not in (None, place.identity):
            raise Unread("the copy is of another database")
        self.database.identity = place.identity
        return place

    def differences(self) -> Iterator[Difference]:
        keys: List[bytes] = []
        for key, both in itertools.groupby(heapq.merge(self.database_rows(), self.target.rows()), lambda row: row[0]):
            values = [value for _, value in both]
            if len(values) == 2 and values[0] == values[1]:
                continue
            keys.append(key)
            if len(keys) == TOGETHER:
                yield from self.looked_at_again(keys)
                keys = []
        yield from self.looked_at_again(keys)

    def database_rows(self) -> Iterator[Row]:
        lo = self.lo
        while True:
            page = self.database.page(lo, self.hi, self.place.timestamp, hold=HOLD)
            self.rows += len(page.rows)
            yield from ((row.key, row.value) for row in page.rows)
            if page.next is None:
                return
            lo = page.next

    def looked_at_again(self, keys: List[bytes]) -> Iterator[Difference]:
        if not keys:
            return
        self.again += len(keys)
        timestamp, copy, database = in_time(lambda: self.both(keys))
        for key in keys:
            if database.get(key) != copy.get(key):
                yield Difference(key, timestamp, database.get(key), copy.get(key))

    def both(self, keys: List[bytes]) -> Tuple[int, Dict[bytes, Optional[bytes]], Dict[bytes, Optional[bytes]]]:
        """What copy and database have at the place that the copy has now."""
        place, copy = self.target.look(keys)
        timestamp = self.known(place).timestamp
        return timestamp, copy, self.rows_at(keys, timestamp)

    def rows_at(self, keys: List[bytes], timestamp: int) -> Dict[bytes, Optional[bytes]]:
        """The database's rows of keys that rise, by pages that each begin at one of them."""
        found: Dict[bytes, Optional[bytes]] = {}
        left = [key for key in keys if self.is_of_the_span(key)]
        while left:
            page = self.database.page(left[0], left[-1] + b"\0", timestamp, limit=TOGETHER, hold=0)
            found.update((row.key, row.value) for row in page.rows)
            left = [key for key in left if page.next is not None and key >= page.next]
        return found

    def is_of_the_span(self, key: bytes) -> bool:
        return (self.lo or b"") <= key and (not self.hi or key < self.hi)


def in_time(read: Callable[[], T]) -> T:
    """What is read at a place, which the copy may have left meanwhile, and then the database: so it is read anew."""
    for _ in range(TRIES):
        with contextlib.suppress(Gone):
            return read()
    return read()


def run(given: Any, make: Callable[[], Any], failures: Tuple[Type[Exception], ...] = ()) -> int:
    """Compares what a command line has `given`, and tells each difference: the status."""
    log_as(given.name)
    try:
        with contextlib.closing(make()) as target, connected(given) as database:
            return tell(Comparison(database, target, given.lo, given.hi))
    except Gone as why:
        logging.error("the database doesn't hold the copy's place, so its consumer begins anew when it runs: %s", why)
    except (OSError, Error, Unread, *failures) as why:
        logging.error(sentence(given, why))
    return TROUBLE


def tell(comparison: Comparison) -> int:
    count = 0
    for one in comparison.differences():
        print(one.line(), flush=True)
        count += 1
    logging.info("%d rows at timestamp %d: %d differ. %d were looked at again", comparison.rows,
                 comparison.place.timestamp, count, comparison.again)
    return DIFFERENT if count else SAME
