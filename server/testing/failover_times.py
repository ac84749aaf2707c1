"""What was asked of two servers, told by the clock: part of `server/test failover`.

One history has one order, and whoever was answered comes before whoever asks later. So what is read is no less than
what was acknowledged before it was asked, and than what was read before. And no server answers between two answers of
another one that wasn't started anew.
"""

import bisect
import collections
import json
import time
from collections.abc import Sequence
from typing import Any

Line = dict[str, Any]


def lines_of(file: str) -> list[Line]:
    with open(file) as log:
        return [json.loads(line) for line in log if line.endswith("\n")]


class Least:
    """The most that is known of a count from a time on."""

    def __init__(self, known: list[tuple[float, int]]):
        self.times, self.most = [0.0], [0]
        for told, number in sorted(known):
            self.times.append(told)
            self.most.append(max(self.most[-1], number))

    def before(self, asked: float) -> int:
        return self.most[bisect.bisect_left(self.times, asked) - 1]


def stale(lines: list[Line]) -> list[str]:
    """Reads that lack what was known before they were asked."""
    known: dict[str, list[tuple[float, int]]] = collections.defaultdict(list)
    for one in lines:
        known[one["count"]].append((one["told"], one["number"]))
    least = {count: Least(those) for count, those in known.items()}
    faults = []
    for one in (one for one in lines if one["is"] == "read"):
        wanted = least[one["count"]].before(one["asked"])
        if one["number"] < wanted:
            faults.append("%s was asked at %.3f and told %d, and %d was known" % (one["at"], one["asked"], one["number"], wanted))
    return faults


def side_by_side(lines: list[Line], starts: dict[str, list[float]]) -> list[str]:
    """Answers of one life of a server that lie between two answers of another one's."""
    lives: dict[tuple[str, int], list[tuple[float, float]]] = collections.defaultdict(list)
    for one in (one for one in lines if one["at"] in starts):
        first, last = (bisect.bisect_right(starts[one["at"]], one[it]) for it in ("asked", "told"))
        if first == last:
            lives[one["at"], first].append((one["asked"], one["told"]))
    spans = {life: (min(told for _, told in those), max(asked for asked, _ in those)) for life, those in lives.items()}
    faults = []
    for life, (first, last) in spans.items():
        for other, those in lives.items():
            within = [it for it in those if first <= it[0] and it[1] <= last] if other[0] != life[0] else []
            if within:
                faults.append("%s has answered %d times, as at %.3f, while %s did, from %.3f to %.3f" % (
                    other[0], len(within), within[0][0], life[0], first, last))
    return faults


class Followed:
    """The acknowledgements in a log that still grows."""

    def __init__(self, file: str):
        self.file, self.read = file, 0
        open(file, "a").close()
        self.told: list[tuple[float, float, str]] = []  # when asked, when told, and by whom, in the order of the second

    def grow(self) -> None:
        with open(self.file, "rb") as log:
            log.seek(self.read)
            text = log.read()
        text = text[: text.rfind(b"\n") + 1]
        self.read += len(text)
        for line in text.splitlines():
            if b'"wrote"' in line:
                one = json.loads(line)
                self.told.append((one["asked"], one["told"], one["at"]))

    def first(self, since: float, hosts: Sequence[str]) -> float | None:
        """When the first request was acknowledged, by one of these, that was sent after a time."""
        self.grow()
        found = None
        for asked, told, host in reversed(self.told):
            if told <= since:
                break
            if asked > since and host in hosts:
                found = told
        return found

    def pause(self, since: float, hosts: Sequence[str]) -> float:
        """The longest time without an acknowledgement by any of these since then."""
        self.grow()
        times = [since, *(told for _, told, host in self.told if told > since and host in hosts), time.monotonic()]
        return max(later - earlier for earlier, later in zip(times, times[1:]))


def unnoticed() -> list[str]:
    """Histories that no two servers may have told, each with a word of what has to be said of it. Gives those of which it isn't."""
    def line(what: str, host: str, asked: float, told: float, number: int) -> Line:
        return {"is": what, "at": host, "asked": asked, "told": told, "count": "a", "number": number}

    wrote = [line("wrote", "a", 1, 2, 1), line("wrote", "a", 3, 4, 2)]
    starts = {"a": [0.0], "b": [0.0]}
    right = [*wrote, line("read", "a", 2.5, 3.5, 1), line("read", "b", 4.1, 4.2, 2)]
    lost = [*wrote, line("read", "b", 4.1, 4.2, 1)]
    taken_back = [line("read", "a", 1, 2, 5), line("read", "b", 3, 4, 4)]
    together = [*wrote, line("read", "b", 2.1, 2.9, 1)]
    faults = [] if not stale(right) + side_by_side(right, starts) else ["a right history is refused"]
    for lines, word in ((lost, "was known"), (taken_back, "was known"), (together, "has answered")):
        if not any(word in it for it in stale(lines) + side_by_side(lines, starts)):
            faults.append("nobody notices %s" % lines)
    return faults
