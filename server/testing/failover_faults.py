"""The faults of `server/test failover`: what is killed, frozen, cut off or cancelled, and how it is mended.

Each part is killed by kill -9 and frozen by SIGSTOP, alone and with each other one. A machine falls silent, two don't
hear each other, a machine loses power, and an operator ends a commit's wait for the replica, before a failover.
"""

import dataclasses
import itertools
import random
import signal
import time
from collections.abc import Iterator

from failover_machines import Machine, Part, signal_all
from failover_pair import Pair
from machine import wait_for

OWNER, STANDBY, PRIMARY, REPLICA = "the server that answers", "the standby", "PostgreSQL", "its replica"
PATRONI, OTHER_PATRONI, ETCD = "Patroni", "the replica's Patroni", "an etcd"
PARTS = (OWNER, STANDBY, PRIMARY, REPLICA, PATRONI, OTHER_PATRONI, ETCD)
KILLED, FROZEN, SILENT, APART, DARK = "kill -9", "SIGSTOP", "silence", "apart", "power loss"
CANCELLED, HANDED, FORGOTTEN = "a cancelled wait", "a hand over", "cut off and given up"


@dataclasses.dataclass(frozen=True)
class Kind:
    how: str
    of: tuple[str, ...]

    def __str__(self) -> str:
        return "%s: %s" % (self.how, " and ".join(self.of))

    def wants_network(self) -> bool:
        return self.how in (SILENT, APART, DARK, FORGOTTEN)


def kinds() -> list[Kind]:
    """All of them. What is said of a machine is said by what runs on it."""
    sets = [(one,) for one in PARTS] + list(itertools.combinations(PARTS, 2))
    return [
        *(Kind(how, those) for those in sets for how in (KILLED, FROZEN)),
        *(Kind(SILENT, (one,)) for one in (OWNER, STANDBY, PRIMARY, REPLICA, ETCD)),
        *(Kind(APART, it) for it in ((OWNER, PRIMARY), (OWNER, PRIMARY, REPLICA), (PRIMARY, REPLICA), (PRIMARY, ETCD),
                                     (STANDBY, PRIMARY, REPLICA))),
        *(Kind(DARK, it) for it in ((OWNER,), (PRIMARY,), (OWNER, PRIMARY))),
        Kind(FORGOTTEN, (OWNER,)),
        *(Kind(HANDED, (it,)) for it in (OWNER, PRIMARY)),
        Kind(CANCELLED, ("pg_cancel_backend",)), Kind(CANCELLED, ("pg_terminate_backend",)),
    ]


def dealt(dice: random.Random, every: list[Kind]) -> Iterator[Kind]:
    """Without end, each once before any comes again. Single parts and the network come first, so that a short run has them."""
    while True:
        first = [one for one in every if len(one.of) == 1 or one.how not in (KILLED, FROZEN)]
        rest = [one for one in every if one not in first]
        for some in (first, rest):
            dice.shuffle(some)
            yield from some


class Fault:
    """One fault, of what has these roles now."""

    def __init__(self, pair: Pair, kind: Kind, owner: str, dice: random.Random):
        self.pair, self.kind, cluster = pair, kind, pair.cluster
        primary, servers = cluster.primary(), pair.servers
        other = next(name for name in cluster.machines if name != primary)
        etcd = dice.choice(list(cluster.etcd))
        self.primary, self.replica = primary, other
        self.parts: dict[str, Part] = {
            OWNER: servers[owner], STANDBY: next(one for name, one in servers.items() if name != owner),
            PRIMARY: cluster.postgres[primary], REPLICA: cluster.postgres[other],
            PATRONI: cluster.patroni[primary], OTHER_PATRONI: cluster.patroni[other], ETCD: cluster.etcd[etcd],
        }

    def these(self) -> list[Part]:
        """A machine that loses power takes Patroni with it."""
        if self.kind.how == CANCELLED:
            return [self.parts[PATRONI], self.parts[PRIMARY]]
        found = [self.parts[one] for one in self.kind.of]
        if self.kind.how == DARK and PRIMARY in self.kind.of:
            found.insert(0, self.parts[PATRONI])
        return found

    def machines(self) -> list[Machine]:
        return [self.parts[one].machine for one in self.kind.of if one in self.parts]

    def begin(self) -> None:
        how = self.kind.how
        if how == CANCELLED:
            return self.cancel()
        if how == HANDED:
            return self.hand_over()
        if how == FORGOTTEN:
            return self.give_up()
        if how == APART:
            first, *others = self.machines()
            if self.kind.of[1] == ETCD:
                others = list(self.pair.cluster.etcds.values())
            for one in others:
                first.part_from(one)
            return None
        for machine in self.machines() if how in (SILENT, DARK) else ():
            machine.fall_silent()
        for part in self.these() if how in (KILLED, DARK) else ():
            part.kill()
        for part in self.these() if how == FROZEN else ():
            part.freeze()
        return None

    def cancel(self) -> None:
        """The replica is frozen, an operator ends the wait of a commit, and the primary's machine goes. So the replica is promoted,
        which hasn't that commit."""
        replica, cluster = self.parts[REPLICA], self.pair.cluster
        held = replica.pids()
        signal_all(held, signal.SIGSTOP)
        what = "SELECT %s(pid) FROM pg_stat_activity WHERE wait_event = 'SyncRep'" % self.kind.of[0]
        try:
            wait_for(lambda: cluster.ask(self.primary, what), "a commit that waits for the replica")
            time.sleep(0.3)
        finally:
            for part in self.these():
                part.kill()
            signal_all(held, signal.SIGCONT)

    def give_up(self) -> None:
        """A server is cut off, and doesn't know. PostgreSQL does, as after a failover, so the standby need not wait for that."""
        owner, cluster = self.parts[OWNER].machine, self.pair.cluster
        for machine in cluster.machines.values():
            owner.part_from(machine)
        what = "SELECT pg_terminate_backend(pid) FROM pg_stat_activity WHERE client_addr = '%s'"
        cluster.ask(self.primary, what % owner.address)

    def hand_over(self) -> None:
        """A change of machines that somebody has planned."""
        if self.kind.of == (OWNER,):
            return signal_all(self.parts[OWNER].pids(), signal.SIGTERM)
        return self.pair.cluster.switch_over(self.primary, self.replica)

    def mend(self) -> None:
        for machine in self.machines():
            if self.kind.wants_network():
                machine.speak()
        if self.kind.how in (APART, FORGOTTEN):
            for machine in (*self.pair.cluster.machines.values(), *self.pair.cluster.etcds.values()):
                machine.speak()
        for part in self.these():
            if self.kind.how == FROZEN:
                part.thaw()
            part.start()

