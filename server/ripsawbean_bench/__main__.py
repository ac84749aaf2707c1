"""Runs all measurements once, and writes them as tables. The word `durable` asks for those that wait for the disk, `heaps`
for what one heap costs, and `shares` for how long others wait beside one client that takes whatever it gets."""

import os
import sys
from collections.abc import Callable

from . import durable, heaps, shares
from .figures import Found
from .loaded import Etcd, Ours, Redis, build_load
from .postgres import Postgres
from .works import FIRST, FLOOD, WORKS, scaled

PUSHES = ((1, 400, 0.005), (100, 100, 0.05))  # readers, rows, seconds between two
PAGES = ((1, 1000), (1, 10_000), (4, 1000))  # readers, rows of a page
WALKS = 5  # times that all rows are walked for one figure
HEAD_OF_WORKS = """
| Transactions a second | Ripsawbean | us of its processor | Redis | etcd | PostgreSQL |
|---|---|---|---|---|---|"""
HEAD_OF_LATENCIES = """
| Milliseconds: median, 99th percentile | Ripsawbean | Redis | etcd | PostgreSQL |
|---|---|---|---|---|"""
HEAD_OF_READERS = """
| Rows a second | Ripsawbean | Redis | etcd | PostgreSQL |
|---|---|---|---|---|"""
HEAD_OF_ROWS = """
| Rows a second | Ripsawbean | us of its processor |
|---|---|---|"""
Peers = tuple[Ours, Redis, Etcd, Postgres]
SHORTER = {"etcd": 10}  # what is slow gets less to do: rates don't depend on it


def main(scale: float) -> None:
    build_load()
    peers = Ours(), Redis(), Etcd(), Postgres()
    try:
        print("load at the start: %.1f, %d processors" % (os.getloadavg()[0], os.cpu_count() or 0))
        waited = works(peers, scale)
        print(HEAD_OF_LATENCIES)
        for name, found in waited:
            print("| %s | %s |" % (name, " | ".join(one.told_latency() for one in found)))
        pushes(peers, scale)
        readers(peers, scale)
        rows(peers[0], scale)
        print("load at the end: %.1f" % os.getloadavg()[0], flush=True)
    finally:
        for peer in peers:
            peer.end()


def ask(peers: Peers, measure: Callable[..., Found]) -> list[Found]:
    return [measure(peer, SHORTER.get(peer.name, 1)) for peer in peers]


def works(peers: Peers, scale: float) -> list[tuple[str, list[Found]]]:
    """Writes the rates, and gives the latencies of what was sent one at a time."""
    print(HEAD_OF_WORKS, flush=True)
    waited = []
    for name, way, clients, count, rows, ahead in WORKS:
        found = ask(peers, lambda peer, shorter: peer.transactions(way, clients, scaled(count, scale, shorter), rows, ahead))
        ours, *others = found
        told = [ours.told_rate(), ours.told_processor(), *(one.told_rate() for one in others)]
        print("| %s | %s |" % (name, " | ".join(told)), flush=True)
        if ahead == 1:
            waited.append((name, found))
    return waited


def pushes(peers: Peers, scale: float) -> None:
    for count_of_readers, count, pause in PUSHES:
        found = ask(peers, lambda peer, _: peer.push(count_of_readers, scaled(count, scale) if scale < 1 else count, pause))
        name = "a row pushed to %d reader%s" % (count_of_readers, "s" * (count_of_readers > 1))
        print("| %s | %s |" % (name, " | ".join(one.told_latency() for one in found)), flush=True)


def readers(peers: Peers, scale: float) -> None:
    print(HEAD_OF_READERS, flush=True)
    many, count = FLOOD
    found = ask(peers, lambda peer, shorter: peer.flood(many, scaled(count, scale, shorter)))
    print("| commits told to each of %d readers | %s |" % (many, " | ".join(one.told_rate() for one in found)), flush=True)
    found = ask(peers, lambda peer, _: peer.first(scaled(FIRST, scale)))
    print("| a first read of %d rows | %s |" % (scaled(FIRST, scale), " | ".join(one.told_rate() for one in found)), flush=True)


def rows(ours: Ours, scale: float) -> None:
    """What this server alone has: pages of one snapshot, and feeds with the values before."""
    count = scaled(FIRST, scale)
    ours.fill(count)
    print(HEAD_OF_ROWS, flush=True)
    for readers, limit in PAGES:
        found = [ours.pages(readers, limit, count) for _ in range(WALKS)]
        middle = sorted(found, key=lambda one: one.rate or 0)[WALKS // 2]
        name = "%d reader%s, pages of %s rows" % (readers, "s" * (readers > 1), "{:,}".format(limit))
        print("| %s | %s | %s |" % (name, middle.told_rate(), middle.told_processor()), flush=True)
    feeds = ours.feeds(count)
    print("| a feed that goes on from before %s rows | %s | |" % ("{:,}".format(count), feeds.told_rate()))
    print("| the same with `before` | %s | |" % Found(feeds.before).told_rate(), flush=True)


words = sys.argv[1:]
run = {"durable": durable.main, "heaps": heaps.main, "shares": shares.main}.get(words[0] if words else "", main)
words = words[run is not main:]
run(float(words[0]) if words else 1.0)
