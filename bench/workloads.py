#!/usr/bin/env python3
"""Scripts of `mvfeed run`, the same each time for one workload and size: what `bench/run`, `bench/check` and `soak`
run.

    workloads.py                      lists the workloads
    workloads.py NAME SIZE [SEED]     writes a script to standard output; another seed draws another script

A workload is a function that yields lines, of a size and drawn numbers. `bench/run` takes one, two, four and eight
times its first size."""
import itertools
import sys

sys.dont_write_bytecode = True
from lines import Dice, after_load, key, load, write_one
from mixes import Mix, Sessions

WORKLOADS = {}


def workload(first, what):
    def take(function):
        WORKLOADS[function.__name__] = (function, first, what)
        return function

    return take


# -- transactions


@workload(20_000, "transactions of a get and a put")
def basic(size, dice):
    for ts in range(1, size + 1):
        seat = ts % 4
        yield "%d begin %d" % (seat, ts)
        yield "%d get %d %s" % (seat, ts, dice.key(10_000))
        yield "%d put %d %s %s" % (seat, ts, dice.key(10_000), dice.value())
        yield "%d commit %d" % (seat, ts)


def oltp_plan(seat, ts, dice):
    yield "%d begin %d" % (seat, ts)
    for _ in range(2):
        yield "%d get %d %s" % (seat, ts, dice.key(10_000))
    for _ in range(2):
        yield "%d put %d %s %s" % (seat, ts, dice.key(10_000), dice.value())
    yield "%d commit %d" % (seat, ts)


@workload(15_000, "four sessions, two gets and two puts a transaction")
def oltp(size, dice):
    yield from load(10_000)
    first = ts = after_load(10_000)
    plans = [iter(()) for _ in range(4)]
    while ts < first + size:
        for seat in range(4):
            line = next(plans[seat], None)
            if line is None:
                plans[seat] = oltp_plan(seat, ts, dice)
                line = next(plans[seat])
                if ts % 100 == 0:
                    yield "%d close %d" % (seat, ts - 8)
                if ts % 1000 == 0:
                    yield "%d collect %d" % (seat, ts)
                ts += 1
            yield line


@workload(6_000, "ten gets and a put a transaction, snapshot reads")
def reads(size, dice):
    yield from load(10_000)
    first = after_load(10_000)
    for ts in range(first, first + size):
        seat = ts % 4
        yield "%d begin %d" % (seat, ts)
        for _ in range(10):
            yield "%d get %d %s" % (seat, ts, dice.key(10_000))
        yield "%d put %d %s %s" % (seat, ts, dice.key(10_000), dice.value())
        yield "%d commit %d" % (seat, ts)
        if ts % 10 == 9:
            yield "%d close %d" % (seat, ts)
            for _ in range(100):
                yield "%d readat %d %s" % (seat, ts - dice.below(5), dice.key(10_000))
        if ts % 1000 == 999:
            yield "%d collect %d" % (seat, ts - 100)


@workload(30_000, "readers of one key, with a write after sixteen")
def one_key(size, dice):
    for ts in range(1, size + 1):
        yield "0 begin %d" % ts
        yield "0 get %d k" % ts
        if ts % 16 == 0:
            yield "0 put %d k %s" % (ts, dice.value())
        yield "0 commit %d" % ts
        if ts % 100 == 0:
            yield "0 close %d" % ts


@workload(8_000, "readers of overlapping spans, then writes below them")
def marks(size, dice):
    space = 50 * size
    for number in dice.order(range(size)):
        ts, low = 2 * size + 2 * number, dice.below(space)
        width = (1, 3, 10, 100, 1000)[dice.below(5)]
        yield "1 begin %d" % ts
        yield "1 scan %d %s %s" % (ts, key(low), key(low + width))
        yield "1 commit %d" % ts
    for number in dice.order(range(4 * size))[:size]:
        ts = 2 * number + 5
        yield "0 begin %d" % ts
        yield "0 put %d %s 1" % (ts, dice.key(space))
        yield "0 abort %d" % ts


@workload(4_000, "a long chain, written in its middle and aborted there")
def long_chain(size, dice):
    for ts in range(2, 2 * size + 2, 2):
        yield from write_one(ts, "k", dice.value())
    for number in dice.order(range(1, size)):
        ts = 2 * number + 1
        yield "0 begin %d" % ts
        yield "0 put %d k %s" % (ts, dice.value())
        yield "0 abort %d" % ts


@workload(12_000, "ten long chains, read at old timestamps, written late")
def history(size, dice):
    closed = 0
    for ts in range(100, 2 * size + 100, 2):
        name = dice.key(10)
        yield "0 begin %d" % ts
        yield "0 get %d %s" % (ts, name)
        yield "0 put %d %s %s" % (ts, name, dice.value())
        yield "0 commit %d" % ts
        yield "0 readat %d %s" % (dice.below(closed + 1), dice.key(10))
        if ts % 16 == 0:
            yield from write_one(ts - 1 - 2 * dice.below(40), dice.key(10), dice.value(), seat=1)
        if ts % 200 == 0:
            closed = ts - 100
            yield "0 close %d" % closed


@workload(10_000, "two transactions of all puts")
def big_transaction(size, dice):
    for ts, end in ((1, "commit"), (2, "abort")):
        yield "0 begin %d" % ts
        for number in dice.order(range(size)):
            yield "0 put %d %s %s" % (ts, key(number), dice.value())
        yield "0 %s %d" % (end, ts)
    yield "0 close 2"


@workload(10_000, "closings with many undecided")
def undecided(size, dice):
    for ts in range(1, size + 1):
        yield "0 begin %d" % ts
        yield "0 put %d %s %s" % (ts, key(ts), dice.value())
    for ts in dice.order(range(1, size + 1)):
        yield "0 commit %d" % ts if ts % 3 else "0 abort %d" % ts
        yield "1 close %d" % size


# -- scans


@workload(2_000, "scans of a hundred keys, with puts")
def scans(size, dice):
    yield from load(20_000)
    first = after_load(20_000)
    for ts in range(first, first + size):
        seat, low = ts % 4, dice.below(19_900)
        yield "%d begin %d" % (seat, ts)
        yield "%d scan %d %s %s" % (seat, ts, key(low), key(low + 100))
        yield "%d put %d %s %s" % (seat, ts, dice.key(20_000), dice.value())
        yield "%d commit %d" % (seat, ts)
        if ts % 100 == 99:
            yield "%d close %d" % (seat, ts)
            yield "%d scanat %d %s %s" % (seat, ts, key(low), key(low + 100))


@workload(400, "the same by transactions that wrote fifty of them")
def written_scans(size, dice):
    yield from load(4_000)
    first = after_load(4_000)
    for ts in range(first, first + size):
        low = dice.below(3_900)
        yield "0 begin %d" % ts
        for number in dice.order(range(100))[:50]:
            yield "0 put %d %s %s" % (ts, key(low + number), dice.value())
        for _ in range(5):
            yield "0 scan %d %s %s" % (ts, key(low), key(low + 100))
        yield "0 commit %d" % ts
        if ts % 50 == 0:
            yield "0 close %d" % ts
            yield "0 collect %d" % ts


@workload(15_000, "scans of five keys")
def narrow_scans(size, dice):
    yield from load(size)
    ts = after_load(size)
    yield "0 begin %d" % ts
    for turn in range(size):
        low = dice.below(size)
        what = ("scanat", ts - 1) if turn % 2 == 0 else ("scan", ts)
        yield "0 %s %d %s %s" % (*what, key(low), key(low + 5))
    yield "0 commit %d" % ts


@workload(8_000, "a queue of jobs: one is added, and the first of ten is taken")
def job_queue(size, dice):
    taken = 0
    for number in range(size):
        ts = 2 * number + 2
        yield from write_one(ts, key(number), dice.value())
        if number % 10 == 9 or number - taken > 20:
            yield "1 begin %d" % (ts + 1)
            yield "1 scan %d %s %s" % (ts + 1, key(taken), key(taken + 10))
            yield "1 del %d %s" % (ts + 1, key(taken))
            yield "1 commit %d" % (ts + 1)
            taken += 1
        if number % 50 == 49:
            yield "0 close %d" % ts
        if number % 1000 == 999:
            yield "0 collect %d" % ts


@workload(4_000, "eight sessions that raise one counter")
def hot_counter(size, dice):
    ts = 0
    for turn in range(size // 8):
        for seat in range(8):
            yield "%d begin %d" % (seat, ts + seat + 1)
        for seat in dice.order(range(8)):
            yield "%d get %d counter" % (seat, ts + seat + 1)
            yield "%d put %d counter %d" % (seat, ts + seat + 1, turn)
            yield "%d commit %d" % (seat, ts + seat + 1)
        ts += 8
        if turn % 10 == 9:
            yield "0 close %d" % ts
        if turn % 100 == 99:
            yield "0 collect %d" % ts


def long_key(number):
    return "tenant-000000042/table-customers/index-by-full-name/" + key(number)


@workload(15_000, "keys of 60 bytes, of which 52 are the same")
def long_keys(size, dice):
    for ts in range(1, size + 1):
        seat = ts % 4
        yield "%d begin %d" % (seat, ts)
        yield "%d get %d %s" % (seat, ts, long_key(dice.below(10_000)))
        yield "%d put %d %s %s" % (seat, ts, long_key(dice.below(10_000)), dice.value())
        yield "%d commit %d" % (seat, ts)
        if ts % 100 == 0:
            yield "0 close %d" % (ts - 8)
        if ts % 1000 == 0:
            yield "0 collect %d" % ts


@workload(4_000, "snapshot scans of 2,000 keys beside writers")
def snapshot_scans(size, dice):
    yield from load(10_000)
    first = after_load(10_000)
    for ts in range(first, first + size):
        yield from write_one(ts, dice.key(10_000), dice.value())
        if ts % 100 == 0:
            low = dice.below(8_000)
            yield "0 close %d" % ts
            yield "1 scanat %d %s %s" % (ts - 50, key(low), key(low + 2_000))
        if ts % 1000 == 0:
            yield "0 collect %d" % (ts - 100)


@workload(6_400, "64 sessions, whose reads others block")
def blocked_reads(size, dice):
    ts = 0
    for turn in range(size // 64):
        for seat in range(64):
            yield "%d begin %d" % (seat, ts + seat + 1)
            yield "%d put %d %s %d" % (seat, ts + seat + 1, key(seat), turn)
        for seat in dice.order(range(64)):
            yield "%d get %d %s" % (seat, ts + seat + 1, dice.key(64))
            yield "%d commit %d" % (seat, ts + seat + 1)
        ts += 64
        yield "0 close %d" % ts
        if turn % 10 == 9:
            yield "0 collect %d" % ts


# -- feeds


@workload(15_000, "four feeds, polled after each hundred commits")
def feeds(size, dice):
    keys = 10_000
    for low, high in (("-", "-"), ("-", key(keys // 2)), (key(keys // 2), "-"), (key(keys // 4), key(keys // 4 + 100))):
        yield "0 open %s %s 0" % (low, high)
    for ts in range(1, size + 1):
        seat = ts % 4
        yield "%d begin %d" % (seat, ts)
        yield "%d put %d %s %s" % (seat, ts, dice.key(keys), dice.value())
        if ts % 10:
            yield "%d put %d %s %s" % (seat, ts, dice.key(keys), dice.value())
        else:
            yield "%d del %d %s" % (seat, ts, dice.key(keys))
        yield "%d commit %d" % (seat, ts)
        if ts % 100 == 0:
            yield "0 close %d" % ts
            for feed in (1, 2, 3, 4):
                yield "0 poll %d 1000" % feed
        if ts % 1000 == 0:
            yield "0 collect %d" % ts


@workload(15_000, "a feed that reads after all was written")
def lagging(size, dice):
    yield "0 open - - 0"
    for ts in range(1, size + 1):
        yield from write_one(ts, dice.key(size // 2 + 1), dice.value(), seat=1)
        if ts % 100 == 0:
            yield "1 close %d" % ts
    for _ in range(size // 100 + 2):
        yield "0 poll 1 100"


@workload(8_000, "a thousand feeds, most of narrow spans")
def many_feeds(size, dice):
    keys, feed = 10_000, 0
    for number in range(1000):
        low = dice.below(keys)
        span = ("-", "-") if number % 20 == 0 else (key(low), key(low + 1 + dice.below(20)))
        yield "0 open %s %s 0" % span
    for ts in range(1, size + 1):
        yield from write_one(ts, dice.key(keys), dice.value(), seat=1)
        if ts % 100 == 0:
            yield "0 close %d" % ts
            for _ in range(50):
                yield "0 poll %d 1000" % (feed % 1000 + 1)
                feed += 1


@workload(1_500, "64 feeds of all keys")
def all_feeds(size, dice):
    for _ in range(64):
        yield "0 open - - 0"
    for ts in range(1, size + 1):
        yield from write_one(ts, dice.key(10_000), dice.value())
        if ts % 10 == 0:
            yield "0 close %d" % ts
            for feed in range(1, 65):
                yield "0 poll %d 100" % feed


@workload(10_000, "five initial feeds over a store")
def initial(size, dice):
    yield from load(size)
    closed = after_load(size) - 1
    for feed in range(1, 6):
        yield "0 openinitial - - %d" % closed
        for _ in range(size // 100 + 1):
            yield "0 poll %d 100" % feed
        yield "0 cancel %d" % feed


@workload(10_000, "closings with one new row at most, each polled")
def idle_polls(size, dice):
    yield from load(size)
    first = after_load(size)
    yield "0 open - - %d" % (first - 1)
    for ts in range(first, first + size):
        if ts % 4 == 0:
            yield from write_one(ts, dice.key(size), dice.value(), seat=1)
        yield "1 close %d" % ts
        yield "0 poll 1 10"


@workload(60_000, "polls that have nothing to tell")
def quiet_polls(size, dice):
    for _ in range(64):
        yield "0 open - - 0"
    for turn in range(size):
        if turn % 1024 == 0:
            ts = turn // 1024 + 1
            yield from write_one(ts, dice.key(1000), dice.value())
            yield "0 close %d" % ts
        yield "0 poll %d 10" % (turn % 64 + 1)


@workload(8_000, "feeds that are cancelled and opened again")
def turnover(size, dice):
    keys, opened = 10_000, 64
    for _ in range(64):
        yield "0 open - - 0"
    for ts in range(1, size + 1):
        yield from write_one(ts, dice.key(keys), dice.value(), seat=1)
        if ts % 20 == 0:
            low = dice.below(keys)
            yield "0 close %d" % ts
            yield "0 poll %d 100" % (opened - 63)
            yield "0 cancel %d" % (opened - 63)
            yield "0 open %s %s %d" % (key(low), key(low + 500), ts)
            opened += 1


# -- the rest


@workload(12_000, "small collections over a large store")
def collections(size, dice):
    yield from load(size)
    first = after_load(size)
    for ts in range(first, first + size):
        yield from write_one(ts, dice.key(size), dice.value())
        if ts % 10 == 0:
            yield "0 close %d" % ts
            yield "0 collect %d" % ts


@workload(6_000, "values of 1,000 bytes")
def big_values(size, dice):
    letters = "abcdefghijklmnopqrstuvwxyz0123456789"
    texts = ["".join(letters[dice.below(36)] for _ in range(1000)) for _ in range(50)]
    yield "0 open - - 0"
    for ts in range(1, size + 1):
        name = dice.key(1000)
        yield "0 begin %d" % ts
        yield "0 get %d %s" % (ts, name)
        yield "0 put %d %s %s" % (ts, name, texts[dice.below(50)])
        yield "0 commit %d" % ts
        if ts % 100 == 0:
            yield "0 close %d" % ts
            yield "0 poll 1 1000"
            yield "0 collect %d" % ts


@workload(60_000, "all commands, crossing one another")
def mixed(size, dice):
    return Mix(size // 20 + 200, dice).lines(range(1, size + 1))


def mixed_few(size, dice):
    """The same over 2,000 keys whatever the size, so that memory stays level."""
    return Mix(2000, dice).lines(range(1, size + 1))


def sessions(size, dice):
    return Sessions(dice).lines(size)


OTHERS = {"mixed_few": mixed_few, "sessions": sessions}


def lines_of(name, size, seed=0):
    make = OTHERS.get(name) or WORKLOADS[name][0]
    return make(size, Dice(seed))


def write(sink, lines):
    """Writes lines, and says how many they were."""
    count = 0
    while block := list(itertools.islice(lines, 1000)):
        sink.write("\n".join(block) + "\n")
        count += len(block)
    return count


def write_script(path, name, size, seed=0):
    """Writes a script that ends with the figures of all, and says how many lines it has."""
    with open(path, "w") as sink:
        return write(sink, itertools.chain(lines_of(name, size, seed), ["0 stats"]))


def main(words):
    if len(words) >= 2:
        write(sys.stdout, iter(lines_of(words[0], int(words[1]), *map(int, words[2:3]))))
        return
    for name, (_, first, what) in WORKLOADS.items():
        print("%-16s %7d  %s" % (name, first, what))


if __name__ == "__main__":
    try:
        main(sys.argv[1:])
    except BrokenPipeError:
        sys.stderr.close()
