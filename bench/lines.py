"""What scripts of bench/workloads.py are made of: drawn numbers, keys, and lines that many of them have."""
import random


class Dice:
    """Drawn numbers. A number below a limit is made of a fraction, which takes a fifth of `randrange`'s time."""

    def __init__(self, seed):
        self.random = random.Random(seed)
        self.fraction = self.random.random

    def below(self, limit):
        return int(self.fraction() * limit)

    def key(self, limit):
        return "k%07d" % int(self.fraction() * limit)

    def value(self):
        return "v%07d" % int(self.fraction() * 10_000_000)

    def order(self, numbers):
        numbers = list(numbers)
        self.random.shuffle(numbers)
        return numbers


def key(number):
    return "k%07d" % number


def load(keys, each=500):
    """Each key once, some in a transaction, and all of it closed. `after_load` is the next timestamp."""
    ts = 0
    for first in range(0, keys, each):
        ts += 1
        yield "0 begin %d" % ts
        for number in range(first, min(keys, first + each)):
            yield "0 put %d %s init%04d" % (ts, key(number), number % 1000)
        yield "0 commit %d" % ts
    yield "0 close %d" % ts


def after_load(keys, each=500):
    return (keys + each - 1) // each + 1


def write_one(ts, name, text, seat=0):
    yield "%d begin %d" % (seat, ts)
    yield "%d put %d %s %s" % (seat, ts, name, text)
    yield "%d commit %d" % (seat, ts)
