"""Random legal histories, which the definitions answer.

The numbers of a command are drawn near what the history has come to, so that transactions cross one another, closings
meet them, and feeds and collections lag; now and then they are at an end of their range.
"""

import random
from typing import List, Optional, Tuple

import definitions
from definitions import MAX, NO_MEMORY, Event

# How often each command is drawn, and of what kind its arguments are: a transaction t or an old one o or a new one b, a
# timestamp c to close or collect at or n near closed, a key k, a value v, a span s, a feed f or a protection p by
# number, a gap g, the most messages m.
SHARES = {
    "begin": (8, "b"),
    "get": (14, "tk"),
    "scan": (8, "ts"),
    "put": (24, "tkv"),
    "del": (8, "tk"),
    "commit": (18, "o"),
    "abort": (2, "t"),
    "close": (8, "c"),
    "closehard": (3, "c"),
    "readat": (4, "nk"),
    "scanat": (4, "ns"),
    "protect": (2, "n"),
    "release": (3, "p"),
    "collect": (7, "c"),
    "open": (2, "sn"),
    "openinitial": (2, "sn"),
    "openevery": (1, "sng"),
    "openinitialevery": (1, "sng"),
    "poll": (16, "fm"),
    "cancel": (3, "f"),
    "stats": (2, ""),
}
# Of the others a history leaves out some, so that now and then nothing holds the horizon, or nobody is aborted.
ALWAYS = ("begin", "put", "commit", "close", "collect")
KEYS = [b"a", b"b", b"ab", b"-", b"\x00", b"\xff%", b"=>"]
VALUES = [b"", b"1", b"2", b"-", b"=> x", bytes(range(0, 256, 17))]
ENDS = [0, 1, MAX - 1, MAX, MAX + 1, 2**64 - 1]


class Drawing:
    """A history that grows by random commands, each answered by the definitions or by want of memory."""

    def __init__(self, dice: random.Random):
        self.dice = dice
        self.is_two = dice.random() < 0.3
        self.keys = dice.sample(KEYS, dice.randrange(1, 4)) + [b"k" * (256 if self.is_two else 64)]
        self.values = VALUES + [b"v" * (65536 if self.is_two else 1024)] * (dice.random() < 0.03)
        self.seats = [0, 1, dice.choice([2, 63])]
        share = dice.choice([0.3, 0.6, 0.9])
        self.names = [name for name in SHARES if name in ALWAYS or dice.random() < share]
        self.wants = dice.choice([0, 0.1, 0.4])
        self.now = self.start = dice.choice([3, 10, 10**12, MAX - 30])
        self.events: List[Event] = []

    def near(self, at: int, below: int, above: int) -> int:
        """A timestamp near this one, or now and then at an end of the range."""
        return self.dice.choice(ENDS) if self.dice.random() < 0.02 else max(0, at + self.dice.randrange(-below, above))

    def one_of(self, known, other: int) -> int:
        """As a rule one of what there is."""
        return self.dice.choice(sorted(known)) if known and self.dice.random() < 0.9 else other

    def span(self) -> Tuple[Optional[bytes], Optional[bytes]]:
        """Two bounds, as a rule in their order, and as a rule one that isn't there."""
        bounds = [None, None, None] + [key + end for key in self.keys for end in (b"", b"\x00")]
        lo, hi = self.dice.choice(bounds), self.dice.choice(bounds)
        return (hi, lo) if lo and hi and hi < lo and self.dice.random() < 0.8 else (lo, hi)

    def begins(self) -> int:
        """The timestamp of a new transaction, which may be below others."""
        self.now += self.dice.randrange(3)
        return self.near(self.now, 3, 6)

    def argument(self, kind: str):
        """An argument of a command."""
        h = self.events
        draw = {
            "b": self.begins,
            "t": lambda: self.one_of(definitions.undecided(h), self.near(self.now, 8, 4)),
            "o": lambda: self.one_of(sorted(definitions.undecided(h))[:2], self.near(self.now, 8, 4)),
            "c": lambda: self.near(self.now, 8, 2),
            "n": lambda: self.near(max(definitions.closed(h), self.start), 5, 3),
            "k": lambda: self.dice.choice(self.keys),
            "v": lambda: self.dice.choice(self.values),
            "s": self.span,
            "f": lambda: self.one_of(definitions.feeds(h), self.dice.randrange(4)),
            "p": lambda: self.one_of(definitions.protections(h), self.dice.randrange(4)),
            "g": lambda: self.dice.choice(ENDS) if self.dice.random() < 0.1 else self.dice.randrange(7),
            "m": lambda: self.dice.choice([0, 1, 1, 2, 3, 10, 10, 2**64 - 1]),
        }
        return draw[kind]()

    def command(self) -> tuple:
        """A command of one of the history's kinds. Where nobody could make it, it is as a rule a begin."""
        name = self.dice.choices(self.names, [SHARES[name][0] for name in self.names])[0]
        if SHARES[name][1][:1] in ("t", "o") and not definitions.undecided(self.events):
            name = self.dice.choice([name] + 3 * ["begin"])
        return (name, *map(self.argument, SHARES[name][1]))

    def seat(self, cmd: tuple) -> int:
        """As a rule whose transaction or feed it is."""
        kind = SHARES[cmd[0]][1][:1]
        owner = definitions.owners(self.events).get(cmd[1]) if kind in ("t", "o") else None
        feed = definitions.feeds(self.events).get(cmd[1]) if kind == "f" else None
        known = [it for it in (owner, feed and feed.seat) if it is not None]
        return self.one_of(known, self.dice.choice(self.seats))

    def call(self, seat: int, cmd: tuple) -> None:
        """Goes on by a call. One that lacks memory is made again, as a rule at once."""
        reply = definitions.answer_of(self.events, seat, cmd)
        lacks = self.dice.random() < self.wants and definitions.may_lack_memory(self.events, seat, cmd)
        self.events.append(Event(len(self.events), seat, cmd, NO_MEMORY if lacks else reply))
        if lacks and self.dice.random() < 0.7:
            self.call(seat, cmd)

    def history(self, length: int) -> List[Event]:
        """A legal history of about so many events, whose positions may go up to the greatest."""
        while len(self.events) < length:
            cmd = self.command()
            self.call(self.seat(cmd), cmd)
        first = self.dice.choice([0, 0, 7, 2**64 - len(self.events)])
        return [e._replace(position=first + e.position) for e in self.events]
