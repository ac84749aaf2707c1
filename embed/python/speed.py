"""The Python part of embed/speed: writes `WORKLOAD RATE` a line, in calls or operations a second, the best of so many runs.

speed.py TRANSACTIONS REFUSED RUNS
"""

import sys
import time

from ripsawbean import Database, WordCount

KEYS = 100


def transactions(count):
    """begin, put, get and commit of one drawn key each, the lines written here."""
    with Database() as db:
        start = time.perf_counter()
        for ts in range(1, count + 1):
            key = "k%d" % (ts * 7 % KEYS)
            db.call("0 begin %d\n" % ts)
            db.call("0 put %d %s v%d\n" % (ts, key, ts))
            db.call("0 get %d %s\n" % (ts, key))
            db.call("0 commit %d\n" % ts)
        return 4 * count / (time.perf_counter() - start)


def typed(count):
    """The same calls without lines."""
    with Database() as db:
        start = time.perf_counter()
        for ts in range(1, count + 1):
            key = b"k%d" % (ts * 7 % KEYS)
            db.begin(ts)
            db.put(ts, key, b"v%d" % ts)
            db.get(ts, key)
            db.commit(ts)
        return 4 * count / (time.perf_counter() - start)


def several(count):
    """The same calls by lines, 1,000 at once."""
    with Database() as db:
        start = time.perf_counter()
        for first in range(1, count + 1, 250):
            lines = []
            for ts in range(first, min(first + 250, count + 1)):
                key = ts * 7 % KEYS
                lines.append("0 begin %d\n0 put %d k%d v%d\n0 get %d k%d\n0 commit %d\n" % (ts, ts, key, ts, ts, key, ts))
            assert len(db.calls("".join(lines))) == 4 * len(lines)
        return 4 * count / (time.perf_counter() - start)


def refused(count):
    """A line with too few words, which raises."""
    with Database() as db:
        start = time.perf_counter()
        for _ in range(count):
            try:
                db.call("0 put 10 apple\n")
            except WordCount:
                continue
            raise AssertionError
        return count / (time.perf_counter() - start)


def plain(count):
    """A plain map of lists, and a log."""
    lists, log = {}, []
    start = time.perf_counter()
    for ts in range(1, count + 1):
        key, value = "k%d" % (ts * 7 % KEYS), "v%d" % ts
        lists.setdefault(key, []).append((ts, value))
        log.append((ts, value))
        assert lists[key][-1][1] == value
    return 2 * count / (time.perf_counter() - start)


def main():
    made, faulty, runs = map(int, sys.argv[1:])
    for work, count in ((transactions, made), (typed, made), (several, made), (refused, faulty), (plain, made)):
        print(work.__name__, "%.0f" % max(work(count) for _ in range(runs)))


main()
