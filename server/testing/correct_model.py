"""A plain serial database, built from what writers were answered, and by nothing that the server says of itself.

Committed transactions run one after the other in the order of their timestamps. A transaction whose answer was lost by
a kill is committed if one of its values was seen anywhere, and then with all that it wrote. From this follow

    what each committed transaction has read           check_reads
    what a feed tells: an exact beginning of the list   check_stream
    the digest of all rows of a span at a timestamp     Digests
"""

import bisect
import collections
import dataclasses
import json
from collections.abc import Iterable, Iterator
from typing import Any

from correct_consumer import digest_of

Version = tuple[int, str, str | None]  # timestamp, key, value


@dataclasses.dataclass
class Transaction:
    at: int
    reads: list[list[Any]]
    writes: dict[str, str | None]
    status: str
    rows: int = 0

    def values(self) -> Iterator[str]:
        return (value for value in self.writes.values() if value is not None)


def transactions_in(files: Iterable[str]) -> dict[str, dict[int, Transaction]]:
    """By identity and timestamp, from the writers' logs. The last line of a killed one may be half.

    One with a key is there once it was answered, as a whole: until then it is asked for again and again.
    """
    found: dict[str, dict[int, Transaction]] = collections.defaultdict(dict)
    for file in files:
        with open(file) as lines:
            for line in lines:
                if not line.endswith("\n"):
                    continue
                one = json.loads(line)
                if one["is"] == "asked":
                    continue
                if "key" in one:
                    writes = dict(map(tuple, one["writes"]))
                    found[one["identity"]][one["at"]] = Transaction(one["at"], one["reads"], writes, one["is"], one["rows"])
                elif one["is"] == "unknown":
                    writes = dict(map(tuple, one["writes"]))
                    found[one["identity"]][one["at"]] = Transaction(one["at"], one["reads"], writes, "unknown")
                else:
                    transaction = found[one["identity"]][one["at"]]
                    transaction.status, transaction.rows = one["is"], one.get("rows", 0)
    return found


class Model:
    """The serial run of one database's committed transactions."""

    def __init__(self, transactions: dict[int, Transaction], seen: set[str]):
        self.committed = [one for _, one in sorted(transactions.items()) if one.status == "committed" or (
            one.status == "unknown" and any(value in seen for value in one.values()))]
        self.found_by_value = sum(one.status == "unknown" for one in self.committed)
        self.reads = 0
        self.versions: list[Version] = []
        self.faults: list[str] = []
        self.check_reads(seen, transactions)

    def check_reads(self, seen: set[str], transactions: dict[int, Transaction]) -> None:
        rows: dict[str, str] = {}
        for one in self.committed:
            for read in one.reads:
                self.reads += 1
                if len(read) == 2:
                    wanted: Any = rows.get(read[0])
                else:
                    wanted = [list(item) for item in sorted(rows.items()) if read[0] <= item[0] < read[1]]
                if read[-1] != wanted:
                    self.faults.append("%d has read %s, and not %s" % (one.at, str(read)[:150], str(wanted)[:150]))
            if one.status == "committed" and one.rows != len(one.writes):
                self.faults.append("%d: committed %d, and it wrote %d keys" % (one.at, one.rows, len(one.writes)))
            for key, value in sorted(one.writes.items()):
                self.versions.append((one.at, key, value))
                rows.pop(key, None) if value is None else rows.update({key: value})
        self.rows = rows
        lost = {value: one.at for one in transactions.values() if one.status == "aborted" for value in one.values()}
        self.faults += ["%s was seen, and %d was aborted" % (value, lost[value]) for value in seen & set(lost)]

    def within(self, lo: str, hi: str) -> list[Version]:
        return [one for one in self.versions if (lo == "-" or lo <= one[1]) and (hi == "-" or one[1] < hi)]

    def map_at(self, at: int, lo: str = "-", hi: str = "-") -> dict[str, str]:
        found = {key: value for timestamp, key, value in self.within(lo, hi) if timestamp <= at}
        return {key: value for key, value in found.items() if value is not None}


class Digests:
    """The digest of all rows of a span, at any timestamp."""

    def __init__(self, model: Model, lo: str, hi: str):
        self.places, self.digests, digest = [0], [0], 0
        rows: dict[str, int] = {}
        for at, key, value in model.within(lo, hi):
            digest ^= rows.pop(key, 0)
            if value is not None:
                rows[key] = digest_of(key.encode(), value.encode())
                digest ^= rows[key]
            if self.places[-1] == at:
                self.digests[-1] = digest
            else:
                self.places.append(at)
                self.digests.append(digest)

    def at(self, timestamp: int) -> str:
        return "%016x" % self.digests[bisect.bisect_right(self.places, timestamp) - 1]


@dataclasses.dataclass
class Stream:
    """What one stream was told: how it was opened, its rows, and after how many rows which resolved timestamp came."""

    opened: dict[str, Any]
    rows: list[Version] = dataclasses.field(default_factory=list)
    resolved: list[tuple[int, int]] = dataclasses.field(default_factory=list)


def check_stream(stream: Stream, model: Model) -> list[str]:
    opened, faults = stream.opened, []
    began, lo, hi = int(opened["from"]), opened["lo"], opened["hi"]
    above = [one for one in model.within(lo, hi) if one[0] > began]
    seed = [(began, *item) for item in sorted(model.map_at(began, lo, hi).items())] if opened["is_initial"] else []
    wanted = seed + above
    if stream.rows != wanted[: len(stream.rows)]:
        at = next(at for at, row in enumerate(stream.rows) if at >= len(wanted) or row != wanted[at])
        faults.append("row %d of a stream from %d is %s, and not %s" % (
            at, began, stream.rows[at], wanted[at] if at < len(wanted) else "none"))
    last, gap = None, int(opened["gap"])
    for count, timestamp in stream.resolved:
        if count < len(wanted) and wanted[count][0] <= timestamp:
            faults.append("resolved %d came before the row %s" % (timestamp, wanted[count]))
        if last is not None and timestamp < last + max(gap, 1):
            faults.append("resolved %d came after %d" % (timestamp, last))
        if count < len(stream.rows) and stream.rows[count][0] <= timestamp:
            faults.append("row %s came after resolved %d" % (stream.rows[count], timestamp))
        last = timestamp
    return faults
