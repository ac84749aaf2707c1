"""What one heap for all threads costs: the server with one, beside the same server with eight, by turns.

Both run at the same time, and one of them is asked at a time. A figure is the median of the rounds' ratios, so what
else the machine does falls on both alike.
"""

import os
import statistics
from collections.abc import Callable

from .figures import Found
from .loaded import Ours, build_load
from .works import FIRST, FLOOD, WORKS, scaled

ROUNDS = 7
HEADS = """
| One heap over eight | Rate | Processor |
|---|---|---|"""


def main(scale: float) -> None:
    build_load()
    one, eight = (Ours(environment={"MALLOC_ARENA_MAX": heaps}) for heaps in ("1", "8"))
    try:
        print("load at the start: %.1f, %d processors" % (os.getloadavg()[0], os.cpu_count() or 0))
        print(HEADS, flush=True)
        for name, way, clients, count, rows, ahead in WORKS:
            compare(name, one, eight, lambda it: it.transactions(way, clients, scaled(count, scale), rows, ahead))
        readers, count = FLOOD
        name = "commits told to each of %d readers" % readers
        compare(name, one, eight, lambda it: it.flood(readers, scaled(count, scale)))
        for it in (one, eight):
            it.fill(scaled(FIRST, scale))
        compare("a first read", one, eight, lambda it: it.first(scaled(FIRST, scale)))
        compare("4 readers of pages", one, eight, lambda it: it.pages(4, 1000, scaled(FIRST, scale)))
        print("load at the end: %.1f" % os.getloadavg()[0], flush=True)
    finally:
        one.end()
        eight.end()


def compare(name: str, one: Ours, eight: Ours, measure: Callable[[Ours], Found]) -> None:
    rates, processors = [], []
    for turn in range(ROUNDS):
        order = (one, eight) if turn % 2 else (eight, one)
        found = {it: measure(it) for it in order}
        rates.append((found[one].rate or 0) / (found[eight].rate or 1))
        processors.append((found[one].processor or 0) / (found[eight].processor or 1))
    print("| %s | %.2f | %.2f |" % (name, statistics.median(rates), statistics.median(processors)), flush=True)
