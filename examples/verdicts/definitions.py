"""The definitions of a legal history, said once more: a short function each, over sets, filters and one sorted list. It
is slow, was written from the definitions alone, and shares nothing with the program.

A history `h` is a list of events, its oldest first, and `h[:i]` what came before the event i. An event is its position,
the seat that called, its command and the reply. Commands and replies are tuples with the names of their texts, as
`("put", 10, b"a", b"1")` and `("committed", 1)`, but a read's reply is `("found", value)`, whose value may be None.
Keys and values are bytes, a span is its two bounds, each of which may be None. A message is a row `(t, key, after)`,
whose `after` is None for a delete, or a resolved timestamp `(t,)`. t, i, j, k are timestamps, x and y keys.
"""

from typing import Dict, List, NamedTuple, Optional, Set, Tuple

MAX = 2**63 - 1
REFUSALS = set(
    """belowclosed tsused tsrange blocked notxn notowner ended toolate notclosed belowhorizon noprotection nofeed
    feedcancelled nomemory gaprange""".split()
)
# The commands that never lack memory.
TAKES_NONE = {"commit", "abort", "close", "closehard", "release", "cancel", "stats"}
NO_MEMORY = ("nomemory",)

Span = Tuple[Optional[bytes], Optional[bytes]]
Reply = tuple


class Event(NamedTuple):
    """A call and its reply."""

    position: int
    seat: int
    cmd: tuple
    reply: Reply


class Feed(NamedTuple):
    """What a feed was opened with: its gap is None where none was asked."""

    seat: int
    initial: bool
    span: Span
    cursor: int
    gap: Optional[int]


History = List[Event]


def holds(span: Span, x: bytes) -> bool:
    """The span holds the keys at or above its lower bound and below its upper one."""
    return (span[0] is None or span[0] <= x) and (span[1] is None or x < span[1])


def answered(h: History, name: str) -> History:
    """The events with a reply of this name."""
    return [e for e in h if e.reply[0] == name]


def latest(h: History, name: str) -> int:
    """The number that the last reply of this name told, and 0 before the first one."""
    return ([0] + [e.reply[1] for e in answered(h, name)])[-1]


# Transactions


def owners(h: History) -> Dict[int, int]:
    """The timestamps that began, each with the seat that began it."""
    return {e.cmd[1]: e.seat for e in answered(h, "started")}


def closed(h: History) -> int:
    """The closed timestamp is that of the last closing, and 0 at first."""
    return latest(h, "closed")


def states(h: History) -> Dict[int, str]:
    """How each transaction stands that began. It is aborted by its owner, by a write that is too late, or by a hard
    closing at or above it that finds it undecided."""
    found: Dict[int, str] = {}
    for e in h:
        if e.reply[0] == "started":
            found[e.cmd[1]] = "undecided"
        elif e.reply[0] in ("committed", "aborted"):
            found[e.cmd[1]] = e.reply[0]
        elif e.reply[0] == "toolate":
            found[e.cmd[1]] = "aborted"
        elif e.cmd[0] == "closehard" and e.reply[0] == "closed":
            found.update({t: "aborted" for t, state in found.items() if state == "undecided" and t <= e.cmd[1]})
    return found


def undecided(h: History) -> Set[int]:
    """The transactions that are neither committed nor aborted."""
    return {t for t, state in states(h).items() if state == "undecided"}


def committed(h: History) -> Set[int]:
    """The transactions that are committed."""
    return {t for t, state in states(h).items() if state == "committed"}


# Versions


def writes_of(h: History, t: int) -> Dict[bytes, Optional[bytes]]:
    """Each key that t wrote, with the value that it wrote there last, or None for a delete."""
    written = [e.cmd for e in answered(h, "written") if e.cmd[1] == t]
    return {cmd[2]: cmd[3] if cmd[0] == "put" else None for cmd in written}


def versions_of(h: History) -> List[Tuple[bytes, int, Optional[bytes]]]:
    """A version for each key that a transaction wrote that isn't aborted: the key, the timestamp, and what it left."""
    return [(x, t, a) for t, state in states(h).items() if state != "aborted" for x, a in writes_of(h, t).items()]


def committed_versions(h: History) -> List[Tuple[bytes, int, Optional[bytes]]]:
    """The versions of committed transactions."""
    return [version for version in versions_of(h) if version[1] in committed(h)]


def newest(versions: list, x: bytes, t: int) -> Tuple[int, Optional[bytes]]:
    """The newest of the versions of x at or below t, by its timestamp and its value, or else 0 and None."""
    return max([(k, a) for y, k, a in versions if y == x and k <= t], key=lambda found: found[0], default=(0, None))


def visible(h: History, x: bytes, t: int) -> Tuple[int, Optional[bytes]]:
    """The read rule: a read of x at t is given the version with the greatest timestamp at most t."""
    return newest(versions_of(h), x, t)


def is_read(e: Event, x: bytes) -> bool:
    """A transaction's read found x, or its scan went over x, whether or not a value was there."""
    is_get = e.cmd[0] == "get" and e.reply[0] == "found" and e.cmd[2] == x
    return is_get or e.cmd[0] == "scan" and e.reply[0] == "rows" and holds(e.cmd[2], x)


def reads_of(h: History, x: bytes) -> List[Tuple[int, int]]:
    """The reads of x: who read, and the timestamp of the version that was visible to him then."""
    return [(e.cmd[1], visible(h[:i], x, e.cmd[1])[0]) for i, e in enumerate(h) if is_read(e, x)]


def too_late(h: History, x: bytes, i: int) -> bool:
    """The write rule: a write of x at i is too late where a read above it was given a version from below it."""
    return any(k < i < j for j, k in reads_of(h, x))


def blocked_by(h: History, x: bytes, t: int) -> Optional[int]:
    """The other transaction, if it is undecided, whose version of x is visible at t."""
    writer = visible(h, x, t)[0]
    return writer if writer != t and writer in undecided(h) else None


def keys_in(h: History, span: Span) -> List[bytes]:
    """The keys of the span that have versions, rising."""
    return sorted({x for x, _, _ in versions_of(h) if holds(span, x)})


# Feeds


def feeds(h: History) -> Dict[int, Feed]:
    """The feeds that were opened, by their numbers."""
    found = {}
    for e in answered(h, "opened"):
        gap = e.cmd[3] if e.cmd[0].endswith("every") else None
        found[e.reply[1]] = Feed(e.seat, "initial" in e.cmd[0], e.cmd[1], e.cmd[2], gap)
    return found


def cancelled(h: History) -> Set[int]:
    """The feeds that were cancelled."""
    return {e.cmd[1] for e in answered(h, "cancelled")}


def told_to(h: History, f: int) -> List[tuple]:
    """The messages that the feed f has told, its oldest first."""
    return [message for e in answered(h, "messages") if e.cmd[1] == f for message in e.reply[1]]


def stream_of(h: History, span: Span, cursor: int) -> List[tuple]:
    """The rows committed in the span above the cursor, by timestamp and then by key."""
    return sorted((t, x, a) for x, t, a in committed_versions(h) if t > cursor and holds(span, x))


def map_at(h: History, t: int) -> Dict[bytes, Optional[bytes]]:
    """The one map, after the committed transactions at or below t have run one after the other. (None is no value.)"""
    found: Dict[bytes, Optional[bytes]] = {}
    for i in sorted(i for i in committed(h) if i <= t):
        found.update(writes_of(h, i))
    return found


def list_of(h: History, feed: Feed) -> List[tuple]:
    """What a feed tells: its stream, and before that, if it is initial, the map at its cursor as rows of the cursor."""
    at_first = map_at(h, feed.cursor) if feed.initial else {}
    rows = [(feed.cursor, x, a) for x, a in sorted(at_first.items()) if a is not None and holds(feed.span, x)]
    return rows + stream_of(h, feed.span, feed.cursor)


def is_due(feed: Feed, told: List[tuple], at: int) -> bool:
    """A resolved message for closed is due: closed is above what was resolved last, by no less than the gap. Before the
    first one the cursor stands for it, and what is just below the cursor for an initial feed."""
    start = max(feed.cursor - 1, 0) if feed.initial else feed.cursor
    resolved = max([start] + [message[0] for message in told if len(message) == 1])
    return at > resolved and at - resolved >= (feed.gap or 0)


def next_messages(h: History, f: int, most: int) -> tuple:
    """The rows of the feed's list at or below closed that weren't told, then the resolved message that is due; of these
    the first `most`."""
    told, at = told_to(h, f), closed(h)
    rows = [row for row in list_of(h, feeds(h)[f]) if row[0] <= at and row not in told]
    return tuple((rows + [(at,)] * is_due(feeds(h)[f], told, at))[:most])


# Collection


def horizon(h: History) -> int:
    """The horizon is that of the last collection, and 0 at first."""
    return latest(h, "collected")


def protections(h: History) -> Dict[int, int]:
    """The protections that stand, with their timestamps, by their numbers."""
    released = {e.cmd[1] for e in answered(h, "released")}
    return {e.reply[1]: e.cmd[1] for e in answered(h, "protected") if e.reply[1] not in released}


def floor_of(h: History, f: int) -> int:
    """A feed's floor: t after a resolved t, t - 1 after a row of t, and never below the cursor."""
    last = told_to(h, f)[-1:]
    return max([feeds(h)[f].cursor] + [it[0] if len(it) == 1 else it[0] - 1 for it in last])


def live_feeds(h: History) -> Set[int]:
    """The feeds that were opened and not cancelled."""
    return set(feeds(h)) - cancelled(h)


def collection_horizon(h: History, to: int) -> int:
    """How far a collection moves the horizon: past neither closed, nor a protection, nor a live feed's floor, and never
    back."""
    return max(horizon(h), min([to, closed(h), *protections(h).values(), *(floor_of(h, f) for f in live_feeds(h))]))


def dead_of(h: History) -> List[tuple]:
    """The committed versions at or below the horizon that are deletes, or have a newer one of their key there."""
    low = [version for version in committed_versions(h) if version[1] <= horizon(h)]
    return [(x, t, a) for x, t, a in low if a is None or any(y == x and k > t for y, k, _ in low)]


# The answer to each command: its tests in order, and the reply where none of them applies


def transaction_refusal(h: History, seat: int, t: int) -> Optional[Reply]:
    """The refusal of a transaction's command that comes before its own tests, if there is one."""
    if t <= closed(h):
        return ("ended",)
    if t not in owners(h):
        return ("notxn",)
    if owners(h)[t] != seat:
        return ("notowner",)
    return None if t in undecided(h) else ("ended",)


def answer_begin(h: History, seat: int, t: int) -> Reply:
    """A transaction begins above closed, and its timestamp is new."""
    if not 1 <= t <= MAX:
        return ("tsrange",)
    if t <= closed(h):
        return ("belowclosed", closed(h))
    return ("tsused",) if t in owners(h) else ("started",)


def answer_get(h: History, seat: int, t: int, x: bytes) -> Reply:
    """A read finds the visible version, unless that is another's undecided one."""
    by = blocked_by(h, x, t)
    return transaction_refusal(h, seat, t) or (("blocked", by) if by else ("found", visible(h, x, t)[1]))


def answer_scan(h: History, seat: int, t: int, span: Span) -> Reply:
    """A scan reads each key of the span, and names the writer at the least key that is blocked."""
    blockers = [by for by in (blocked_by(h, x, t) for x in keys_in(h, span)) if by]
    rows = [(x, visible(h, x, t)[1]) for x in keys_in(h, span)]
    found = ("rows", tuple((x, v) for x, v in rows if v is not None))
    return transaction_refusal(h, seat, t) or (("blocked", blockers[0]) if blockers else found)


def answer_write(h: History, seat: int, t: int, x: bytes, value: Optional[bytes] = None) -> Reply:
    """A write, or a delete, obeys the write rule."""
    return transaction_refusal(h, seat, t) or (("toolate",) if too_late(h, x, t) else ("written",))


def answer_commit(h: History, seat: int, t: int) -> Reply:
    """A commit counts the keys that were written."""
    return transaction_refusal(h, seat, t) or ("committed", len(writes_of(h, t)))


def answer_abort(h: History, seat: int, t: int) -> Reply:
    """An abort has the transaction's tests alone."""
    return transaction_refusal(h, seat, t) or ("aborted",)


def closed_by(h: History, to: int, left: Set[int]) -> int:
    """How far a closing comes that leaves these undecided: just below the oldest of them, and never back."""
    return max([closed(h), min([to] + [t - 1 for t in left])])


def answer_close(h: History, seat: int, to: int) -> Reply:
    """A closing stops below whoever is undecided."""
    return ("tsrange",) if to > MAX else ("closed", closed_by(h, to, undecided(h)), 0)


def answer_closehard(h: History, seat: int, to: int) -> Reply:
    """A hard closing aborts whoever is undecided at or below it first."""
    aborted = {t for t in undecided(h) if t <= to}
    return ("tsrange",) if to > MAX else ("closed", closed_by(h, to, undecided(h) - aborted), len(aborted))


def snapshot_refusal(h: History, t: int) -> Optional[Reply]:
    """A snapshot is read at or below closed, and not below the horizon."""
    if t > closed(h):
        return ("notclosed", closed(h))
    return ("belowhorizon", horizon(h)) if t < horizon(h) else None


def answer_readat(h: History, seat: int, t: int, x: bytes) -> Reply:
    """A snapshot's read finds the newest committed version at or below its timestamp."""
    return snapshot_refusal(h, t) or ("found", newest(committed_versions(h), x, t)[1])


def answer_scanat(h: History, seat: int, t: int, span: Span) -> Reply:
    """A snapshot's scan finds the keys of the span that have a committed value at its timestamp."""
    rows = [(x, newest(committed_versions(h), x, t)[1]) for x in keys_in(h, span)]
    return snapshot_refusal(h, t) or ("rows", tuple((x, v) for x, v in rows if v is not None))


def horizon_refusal(h: History, t: int) -> Optional[Reply]:
    """What looks back to a timestamp looks to one in range, and not below the horizon."""
    if t > MAX:
        return ("tsrange",)
    return ("belowhorizon", horizon(h)) if t < horizon(h) else None


def answer_protect(h: History, seat: int, t: int) -> Reply:
    """Protections are numbered from 1, and no number is used again."""
    return horizon_refusal(h, t) or ("protected", 1 + len(answered(h, "protected")))


def answer_release(h: History, seat: int, number: int) -> Reply:
    """A protection that stands is released, by any seat."""
    return ("released",) if number in protections(h) else ("noprotection",)


def answer_collect(h: History, seat: int, to: int) -> Reply:
    """A collection tells the horizon, and by how many the dead versions grew."""
    if to > MAX:
        return ("tsrange",)
    at = collection_horizon(h, to)
    after = h + [Event(0, seat, ("collect", to), ("collected", at, 0))]
    return ("collected", at, len(dead_of(after)) - len(dead_of(h)))


def answer_open(h: History, seat: int, span: Span, cursor: int) -> Reply:
    """Feeds of all kinds are numbered together, from 1."""
    return horizon_refusal(h, cursor) or ("opened", 1 + len(feeds(h)))


def answer_openinitial(h: History, seat: int, span: Span, cursor: int) -> Reply:
    """An initial feed begins by the map at its cursor, so that has to be closed."""
    above = ("notclosed", closed(h)) if cursor > closed(h) else None
    return horizon_refusal(h, cursor) or above or answer_open(h, seat, span, cursor)


def gap_refusal(cursor: int, gap: int) -> Optional[Reply]:
    """The cursor and the gap of a feed that has one are in range: the cursor is looked at first."""
    if cursor > MAX:
        return ("tsrange",)
    return None if 1 <= gap <= MAX else ("gaprange",)


def answer_openevery(h: History, seat: int, span: Span, cursor: int, gap: int) -> Reply:
    """A feed with a gap has these tests first."""
    return gap_refusal(cursor, gap) or answer_open(h, seat, span, cursor)


def answer_openinitialevery(h: History, seat: int, span: Span, cursor: int, gap: int) -> Reply:
    """An initial feed with a gap too."""
    return gap_refusal(cursor, gap) or answer_openinitial(h, seat, span, cursor)


def answer_poll(h: History, seat: int, f: int, most: int) -> Reply:
    """A live feed tells its opener its next messages."""
    if f not in feeds(h):
        return ("nofeed",)
    if f in cancelled(h):
        return ("feedcancelled",)
    return ("messages", next_messages(h, f, most)) if feeds(h)[f].seat == seat else ("notowner",)


def answer_cancel(h: History, seat: int, f: int) -> Reply:
    """A live feed is cancelled, by any seat."""
    if f not in feeds(h):
        return ("nofeed",)
    return ("feedcancelled",) if f in cancelled(h) else ("cancelled",)


def answer_stats(h: History, seat: int) -> Reply:
    """The versions that aren't dead, the undecided transactions, the live feeds, closed and the horizon."""
    versions = len(versions_of(h)) - len(dead_of(h))
    return ("stats", versions, len(undecided(h)), len(live_feeds(h)), closed(h), horizon(h))


ANSWERS = {
    "begin": answer_begin,
    "get": answer_get,
    "scan": answer_scan,
    "put": answer_write,
    "del": answer_write,
    "commit": answer_commit,
    "abort": answer_abort,
    "close": answer_close,
    "closehard": answer_closehard,
    "readat": answer_readat,
    "scanat": answer_scanat,
    "protect": answer_protect,
    "release": answer_release,
    "collect": answer_collect,
    "open": answer_open,
    "openinitial": answer_openinitial,
    "openevery": answer_openevery,
    "openinitialevery": answer_openinitialevery,
    "poll": answer_poll,
    "cancel": answer_cancel,
    "stats": answer_stats,
}


def answer_of(h: History, seat: int, cmd: tuple) -> Reply:
    """The answer to a seat's command after h."""
    return ANSWERS[cmd[0]](h, seat, *cmd[1:])


# Which histories are legal


def may_lack_memory(h: History, seat: int, cmd: tuple) -> bool:
    """Want of memory may come in the place of an answer that is no refusal, but of some commands never."""
    return cmd[0] not in TAKES_NONE and answer_of(h, seat, cmd)[0] not in REFUSALS


def is_right(h: History, e: Event) -> bool:
    """The event's reply is legal after h."""
    lacks = e.reply == NO_MEMORY and may_lack_memory(h, e.seat, e.cmd)
    return lacks or e.reply == answer_of(h, e.seat, e.cmd)


def first_wrong(events: History) -> Optional[int]:
    """The place of the first event that isn't legal after those before it, or whose position isn't one above the one
    before it."""
    for i, e in enumerate(events):
        is_next = i == 0 or e.position == events[i - 1].position + 1
        if not (is_next and is_right(events[:i], e)):
            return i
    return None
