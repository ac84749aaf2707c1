"""Whether a machine may go: `server/test failover`.

Two servers over Patroni with three etcd and two PostgreSQL, each on a machine of its own. Parts are killed and frozen,
alone and in pairs, the network drops, and a commit's wait for the replica is cancelled. The load of `correct` and its
serial model judge what is told behind one address; clients of each language have both. Beside them both servers are
asked all the time, and what they answer is held to the order in which it was asked: so at most one answers at a time.

Then comes a control, of servers whose owner believes in a lease that the other one doesn't wait for.
"""

import argparse
import collections
import signal
import time
from collections.abc import Sequence
from concurrent.futures import ThreadPoolExecutor

import psycopg2
from correct import SPANS, Size, judge
from durable import OPTIONS, DurableLoad
from durable_servers import DurableServer
from failover_clients import Clients
from failover_faults import APART, FORGOTTEN, FROZEN, HANDED, OWNER, SILENT, Fault, Kind, dealt, kinds
from failover_machines import is_real, signal_all
from failover_outages import Outage, summed
from failover_pair import TOKEN, Pair
from failover_times import Followed, lines_of, side_by_side, stale, unnoticed
from handmade import is_all_taken
from machine import Server, wait_for
from tally import Tally

# In seconds. A PostgreSQL that was killed recovers first, and is rewound then.
LONGEST_FAULT, LONGEST_OUTAGE, LONGEST_CHANGE, LONGEST_REPAIR = 40, 90, 10, 400
KEYS = ("key/", "key0")
BULK, EACH = "bulk/", 500
SMALL = Size(4, 5, 1, 2)


class FailoverLoad(DurableLoad):
    spans = tuple((KEYS[0] if lo == "-" else lo, KEYS[1] if hi == "-" else hi) for lo, hi in SPANS)
    rows = 0
    of_first: tuple[str, ...] = ()  # options of the first server alone
    given = kinds()
    wakes_early = 0.25  # the share of what is frozen or silent that comes back by the clock, whoever serves
    say = staticmethod(print)

    def make_server(self) -> Server:
        self.identities: set[str] = set()
        self.outages: list[Outage] = []
        return Pair(self.room, self.of_first, *OPTIONS, "--checkpoint-bytes", str(max(600_000, 100 * self.rows)))

    def choose_disk(self, server: DurableServer) -> None:
        pass

    def run(self, wanted: int, seconds: float) -> None:
        pair: Pair = self.server
        with ThreadPoolExecutor(8) as pool:
            list(pool.map(self.fill, range(0, self.rows, EACH)))
        self.clients = Clients(pair, self.room.path)
        self.asked, self.committed = self.room.file("asked"), self.room.file("committed")
        self.room.start(self.room.script("probe", "failover_probe.py", self.asked, TOKEN, *pair.hosts, *pair.fronts.values()))
        self.room.start(self.room.script("committer", "failover_committer.py", self.committed, *pair.cluster.addresses()))
        self.answers, self.commits = Followed(self.asked), Followed(self.committed)
        wait_for(lambda: self.answers.first(0, pair.hosts) and self.commits.first(0, pair.cluster.addresses()), "the first commits")
        self.kills = collections.Counter()
        given = [one for one in self.given if pair.network.is_real or not one.wants_network()]
        deck, end = dealt(self.dice, given), time.monotonic() + seconds
        while len(self.outages) < wanted and time.monotonic() < end:
            kind = next(deck)
            try:
                self.outages.append(self.suffer(kind))
            except (OSError, psycopg2.Error) as why:
                self.faults.append("at %s: %r" % (kind, why))
                break
            self.say("%d: %s" % (len(self.outages), self.outages[-1]), flush=True)
            self.kills[kind.how] += 1
            self.revive()

    def fill(self, first: int) -> None:
        lines = ["put . %s%07d v\n" % (BULK, number) for number in range(first, min(first + EACH, self.rows))]
        told = self.server.call("begin\n%scommit .\n" % "".join(lines))
        if not is_all_taken(told):
            raise ValueError("a row was refused: " + told[-200:])

    def ready(self) -> str:
        """The server that answers, once all is as it was before any fault."""
        pair: Pair = self.server
        wait_for(pair.cluster.is_whole, "PostgreSQL to be whole", LONGEST_REPAIR)
        wait_for(pair.owner, "a server that answers")
        wait_for(lambda: all(one.starts[-1] < time.monotonic() - 2 for one in pair.servers.values()), "both servers to stay")
        return wait_for(pair.owner, "a server that answers")

    def suffer(self, kind: Kind) -> Outage:
        owner = self.ready()
        time.sleep(self.dice.uniform(0.2, 1.5))
        fault = Fault(self.server, kind, owner, self.dice)
        try:
            return self.hand_over(fault) if kind.how == HANDED else self.outlast(fault)
        except (OSError, psycopg2.Error):
            fault.mend()
            raise

    def outlast(self, fault: Fault) -> Outage:
        pair, kind = self.server, fault.kind
        wakes = kind.how in (FROZEN, SILENT, APART) and self.dice.random() < self.wakes_early
        fault.begin()
        since = time.monotonic()
        lasts = self.dice.uniform(0.5, 14) if wakes else LONGEST_FAULT
        back, is_mended, after = self.back_within(since, since + lasts, pair.hosts), False, {}
        if back is not None and not wakes:
            after = self.after(since, back)
            time.sleep(self.dice.uniform(0.5, 3))
        fault.mend()
        if back is None:
            since, is_mended = time.monotonic(), True
            back = self.back_within(since, since + LONGEST_OUTAGE, pair.hosts)
        if back is None:
            raise TimeoutError("no commit in %d seconds: %s" % (LONGEST_OUTAGE, pair.tail()))
        return Outage(kind, after or self.after(since, back), is_mended)

    def after(self, since: float, back: float) -> dict[str, float]:
        """Seconds until a commit by each that could take it."""
        found = {"a server": back, "PostgreSQL": self.commits.first(since, self.server.cluster.addresses())}
        for name, host in self.server.fronts.items():
            found[name] = self.back_within(since, back + LONGEST_FAULT, [host])
            if found[name] is None:
                self.faults.append("nothing by %s in %d seconds" % (name, LONGEST_FAULT))
        return {name: told - since for name, told in found.items() if told is not None}

    def hand_over(self, fault: Fault) -> Outage:
        """Of what is planned the longest pause is told."""
        pair, since = self.server, time.monotonic()
        fault.begin()
        time.sleep(LONGEST_CHANGE)
        asked = {"a server": pair.hosts, **{name: [host] for name, host in pair.fronts.items()}}
        after = {name: self.answers.pause(since, hosts) for name, hosts in asked.items()}
        return Outage(fault.kind, {**after, "PostgreSQL": self.commits.pause(since, pair.cluster.addresses())}, False)

    def back_within(self, since: float, until: float, hosts: Sequence[str]) -> float | None:
        """When the first request was acknowledged that was sent after a time."""
        while True:
            found = self.answers.first(since, hosts)
            if found is not None or time.monotonic() > until:
                return found
            time.sleep(0.02)

    def settle(self) -> dict[bytes, bytes]:
        pair: Pair = self.server
        self.ready()
        self.identities.add(pair.told_identity() or "")
        clients = self.clients.settle()
        rows = super().settle()
        lines = lines_of(self.asked)
        starts = {one.host: one.starts for one in pair.servers.values()}
        self.faults += clients + stale(lines) + side_by_side(lines, starts)
        self.figures += "; %d direct commits and reads; %s" % (len(lines), self.clients.told())
        return rows


class Leaseless(FailoverLoad):
    """The server that answers first believes in its lease for an hour, of which its successor isn't told."""

    of_first = ("--lease", "3600")
    given = [Kind(FORGOTTEN, (OWNER,))]
    wakes_early = 0.0
    rows = 0

    def ready(self) -> str:
        """The second one hands over, so that the first one, whose lease is long, waits for nothing."""
        while (owner := super().ready()) != "one":
            signal_all(self.server.servers[owner].pids(), signal.SIGTERM)
            wait_for(lambda: self.server.owner() == "one", "the first server")
        cluster = self.server.cluster
        cluster.ask(cluster.primary(), "UPDATE ripsawbean_owner SET lease = 1")
        return owner


def main(words: list[str]) -> Tally:
    parser = argparse.ArgumentParser(prog="server/test failover", description="Whether a machine may go.")
    parser.add_argument("--faults", type=int, default=100, metavar="N", help="how many faults there are (100)")
    parser.add_argument("--minutes", type=float, default=10, metavar="N", help="how long they go on at most (10)")
    parser.add_argument("--seed", type=int, default=int(time.time()), metavar="N", help="draws what goes when")
    parser.add_argument("--rows", type=int, default=1_000_000, metavar="N", help="versions that the database has (1000000)")
    parser.add_argument("--kind", action="append", default=[], metavar="WORDS", help="faults with these words in their name")
    parser.add_argument("--control", type=int, default=3, metavar="N", help="faults of the control; 0 leaves it out (3)")
    parser.add_argument("program", metavar="MVFEED", help="not needed here")
    given, tally = parser.parse_args(words), Tally("failover")
    tally.say("failover: seed %d%s" % (given.seed, "" if is_real() else ", without network namespaces, which are forbidden here"))
    FailoverLoad.rows = given.rows
    FailoverLoad.given = [one for one in kinds() if any(it in str(one) for it in given.kind or [""])]
    tally.told("what two servers may not tell is noticed", unnoticed())
    if given.faults:
        verdict = judge(SMALL, given.faults, given.seed, 60 * given.minutes, make=FailoverLoad)
        for line in summed(verdict.load.outages):
            tally.say(line)
        faults = verdict.faults + ["nothing was compared"] * verdict.is_empty()
        which = "%d faults%s" % (len(verdict.load.outages), "" if is_real() else ", none of the network")
        tally.told(which + ", compared with the serial model", faults, verdict.told())
    if given.control and is_real():
        verdict = judge(SMALL, given.control, given.seed + 1, 300, make=Leaseless)
        noticed = [it for it in verdict.faults if "was known" in it or "has answered" in it]
        tally.told("the control: a lease that isn't waited for", [] if noticed else ["nothing was noticed", *verdict.faults[:3]],
                   "%d faults, as %.200s" % (len(noticed), noticed[:1]))
    return tally
