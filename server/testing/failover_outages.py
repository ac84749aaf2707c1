"""How long it took until a commit was acknowledged again, by kind of fault: part of `server/test failover`."""

import collections
import dataclasses
import statistics

from failover_faults import CANCELLED, FROZEN, HANDED, KILLED, OWNER, PRIMARY, Kind
from failover_pair import FRONTS

BEHIND_POSTGRESQL = 3
AIMS = {"a killed server": 3, "a frozen server": 12, "a server's silent machine": 12}


@dataclasses.dataclass
class Outage:
    """Seconds from a fault to the first acknowledgement of a request sent after it, or from its mending where none came
    before: by either server, by PostgreSQL alone, and by what stands before the servers."""

    kind: Kind
    after: dict[str, float]
    is_mended: bool

    def __str__(self) -> str:
        after = ", ".join("%s %.1f" % item for item in self.after.items())
        return "%s: seconds since %s until a commit by %s" % (self.kind, "its mending" if self.is_mended else "it", after)

    def behind_postgresql(self) -> float | None:
        commits = self.after.get("PostgreSQL")
        return None if commits is None else max(self.after["a server"] - commits, 0)

    def group(self) -> str:
        how, of = self.kind.how, self.kind.of
        if of == (OWNER,):
            return {KILLED: "a killed server", FROZEN: "a frozen server", HANDED: "a server that hands over"}.get(
                how, "a server's silent machine")
        if of == (PRIMARY,):
            return {KILLED: "PostgreSQL killed", FROZEN: "PostgreSQL frozen", HANDED: "PostgreSQL handed over"}.get(
                how, "PostgreSQL's silent machine")
        if how == CANCELLED:
            return "PostgreSQL's wait cancelled, and its machine gone"
        if OWNER in of and PRIMARY in of:
            return "the server and PostgreSQL: %s" % how
        if OWNER in of or PRIMARY in of:
            return "%s and another part: %s" % ("the server" if OWNER in of else "PostgreSQL", how)
        return "parts beside them"


def shown(found: list[float]) -> str:
    return "%5.1f %5.1f %5.1f" % (min(found), statistics.median(found), max(found)) if found else "    -     -     -"


def row(name: str, those: list[Outage], aim: str) -> str:
    """Least, median and most."""
    behind = [it for it in (one.behind_postgresql() for one in those) if it is not None]
    fronts = [shown([one.after[it] for one in those if it in one.after]) for it in FRONTS]
    return "%-50s %4d  %s  %s  %s  %s" % (name, len(those), shown([one.after["a server"] for one in those]), shown(behind),
                                          "  ".join(fronts), aim)


def summed(outages: list[Outage]) -> list[str]:
    """A table. A fault that was mended before anything was acknowledged is counted apart."""
    groups: dict[str, list[Outage]] = collections.defaultdict(list)
    for one in outages:
        groups[one.group()].append(one)
    lines = ["%-50s %4s  %17s  %17s  %17s  %17s  aim" % (
        "seconds until a commit: least, median and most", "", "by a server", "behind PostgreSQL", *("by " + it for it in FRONTS))]
    for name in sorted(groups):
        at_once = [one for one in groups[name] if not one.is_mended]
        mended = [one for one in groups[name] if one.is_mended]
        aim = AIMS.get(name, "PostgreSQL and %d" % BEHIND_POSTGRESQL if "PostgreSQL" in name else "")
        lines += [row(name, at_once, aim)] if at_once else []
        lines += [row(name + ", once mended", mended, "")] if mended else []
    return lines
