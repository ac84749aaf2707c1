"""One small change of a history: what a transcript that was tampered with, or that a wrong program wrote, may be like.

Whether the history is still legal is left to the definitions. Each change gives events whose text can be read.
"""

from typing import List

from definitions import MAX, NO_MEMORY, Event
from drawing import SHARES, Drawing

REFUSALS = [("tsrange",), ("notxn",), ("notowner",), ("ended",), ("toolate",), ("nofeed",), ("blocked", 7)]
OTHERS = [("started",), ("found", None), ("found", b"1"), ("rows", ()), ("written",), ("messages", ()), ("opened", 1)]
# Commands with the same arguments.
ALIKE = [
    ("begin", "commit", "abort", "close", "closehard", "protect", "collect", "release", "cancel"),
    ("get", "del", "readat"),
    ("scan", "scanat"),
    ("open", "openinitial"),
    ("openevery", "openinitialevery"),
]


def renumbered(events: List[Event]) -> List[Event]:
    """The events with positions that have no gap."""
    return [e._replace(position=events[0].position + i) for i, e in enumerate(events)]


def beside(drawing: Drawing, number: int, least: int = 0, greatest: int = 2**64 - 1) -> int:
    """A number that is one more or less, if its range has it."""
    return min(max(number + drawing.dice.choice([-1, 1]), least), greatest)


def lacking_memory(drawing: Drawing, e: Event) -> Event:
    """It lacks memory, whether or not it may."""
    return e._replace(reply=NO_MEMORY)


def answered_otherwise(drawing: Drawing, e: Event) -> Event:
    """Its reply is that of another event, a refusal, or of another kind."""
    replies = [other.reply for other in drawing.events]
    return e._replace(reply=drawing.dice.choice(drawing.dice.choice([replies, REFUSALS, OTHERS])))


def told_otherwise(drawing: Drawing, e: Event) -> Event:
    """A number of its reply is one more or less, or its value, its rows or its messages are others."""
    if len(e.reply) == 1:
        return e
    reply, at = list(e.reply), drawing.dice.randrange(1, len(e.reply))
    if isinstance(reply[at], tuple):
        reply[at] = with_other_lines(drawing, list(reply[at]))
    elif isinstance(reply[at], int):
        reply[at] = beside(drawing, reply[at])
    else:
        reply[at] = drawing.dice.choice([None, drawing.argument("v")])
    return e._replace(reply=tuple(reply))


def with_other_lines(drawing: Drawing, lines: list) -> tuple:
    """Rows or messages of which one is gone, told twice, moved to the end, or changed."""
    if not lines:
        return ()
    at = drawing.dice.randrange(len(lines))
    how = drawing.dice.randrange(4)
    if how == 0:
        lines[at : at + 1] = []
    elif how == 1:
        lines.insert(at, lines[at])
    elif how == 2:
        lines[at:] = lines[at + 1 :] + [lines[at]]
    else:
        lines[at] = with_another_part(drawing, lines[at])
    return tuple(lines)


def with_another_part(drawing: Drawing, line: tuple) -> tuple:
    """A row or a message with another timestamp, key or value."""
    kinds = {1: "n", 2: "kv", 3: "nkv"}[len(line)]
    parts, at = list(line), drawing.dice.randrange(len(line))
    if kinds[at] == "n":
        parts[at] = beside(drawing, parts[at], 1, MAX)
    elif at == 2 and drawing.dice.random() < 0.5:
        parts[at] = None
    else:
        parts[at] = drawing.argument(kinds[at])
    return tuple(parts)


def asked_otherwise(drawing: Drawing, e: Event) -> Event:
    """Its seat, an argument of its command, or the command itself is another."""
    kinds, at = SHARES[e.cmd[0]][1], drawing.dice.randrange(-1, len(e.cmd))
    if at < 0:
        return e._replace(seat=drawing.dice.choice(drawing.seats))
    cmd = list(e.cmd)
    if at == 0:
        cmd[0] = drawing.dice.choice(next((names for names in ALIKE if cmd[0] in names), [cmd[0]]))
    elif isinstance(cmd[at], int) and drawing.dice.random() < 0.7:
        cmd[at] = beside(drawing, cmd[at])
    else:
        cmd[at] = drawing.argument(kinds[at - 1])
    return e._replace(cmd=tuple(cmd))


OF_ONE = [answered_otherwise] + 2 * [lacking_memory, told_otherwise, asked_otherwise]


def dropped(drawing: Drawing, events: List[Event], at: int) -> List[Event]:
    """An event is gone."""
    return events[:at] + events[at + 1 :]


def repeated(drawing: Drawing, events: List[Event], at: int) -> List[Event]:
    """An event stands twice."""
    return events[: at + 1] + events[at:]


def swapped(drawing: Drawing, events: List[Event], at: int) -> List[Event]:
    """Two events that follow one another have changed places."""
    return events[:at] + events[at : at + 2][::-1] + events[at + 2 :]


def shifted(drawing: Drawing, events: List[Event], at: int) -> List[Event]:
    """From an event on all positions are others."""
    by = drawing.dice.choice([-1, 1, 2])
    return events[:at] + [e._replace(position=e.position + by) for e in events[at:]]


OF_ALL = [dropped, repeated, swapped, shifted]


def spoiled(drawing: Drawing, events: List[Event]) -> List[Event]:
    """The events with one change at random, unless a position would leave its range."""
    if not events:
        return events
    at = drawing.dice.randrange(len(events))
    if drawing.dice.random() < 0.8:
        return events[:at] + [drawing.dice.choice(OF_ONE)(drawing, events[at])] + events[at + 1 :]
    changed = drawing.dice.choice(OF_ALL)(drawing, events, at)
    changed = renumbered(changed) if changed and drawing.dice.random() < 0.6 else changed
    return changed if all(0 <= e.position < 2**64 for e in changed) else events
