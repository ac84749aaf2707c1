#!/usr/bin/python3
"""A writer for the correctness load: correct_writer.py PORT NAME SEED LOG makes transactions until it is killed.

Each begins, reads some keys or a span, and writes a few, most of them contended. Every value is its own: no other
transaction ever writes it. LOG gets a line of JSON before the writes are sent, and one after their answer, so that it
is known of each transaction whether it was committed, wasn't, or may have been.

    {"identity": I, "at": TS, "is": "unknown", "reads": [..], "writes": [[KEY, VALUE or null], ..]}
    {"identity": I, "at": TS, "is": "committed", "rows": N}
"""

import itertools
import json
import os
import random
import sys
import time

from handmade import Session, Wire

KEYS, HOT = 240, 15
PATIENCE = 12  # how often a blocked read is asked again


def key_of(number: int) -> str:
    """Keys in eight spans, so that consumers of several spans overlap."""
    return "key/%d/%03d" % (number % 8, number)


def identity_at(port: int) -> str:
    wire = Wire(port, timeout=20)
    wire.ask("GET", "/consumer/nobody")
    status, told = wire.answer()
    wire.close()
    if status != 200:
        raise ConnectionError("%d %s" % (status, told.decode()))
    identity: str = json.loads(told)["identity"]
    return identity


def whole_lines_of(log: str) -> int:
    """Opens a log to write on. A kill may cut a line at a page's end, and what is left of it is dropped."""
    with open(log, "a+b") as file:
        file.seek(0)
        told = file.read()
        file.truncate(told.rfind(b"\n") + 1)
    return os.open(log, os.O_APPEND | os.O_WRONLY)


class Aborted(Exception):
    """The transaction has ended, or is given up."""


class Writer:
    def __init__(self, port: int, name: str, seed: str, log: str):
        self.port, self.name, self.dice = port, name, random.Random(seed)
        self.log = whole_lines_of(log)
        self.serial = itertools.count()

    def note(self, **what: object) -> None:
        os.write(self.log, (json.dumps(what, separators=(",", ":")) + "\n").encode())

    def drawn_key(self) -> str:
        return key_of(self.dice.randrange(HOT) if self.dice.random() < 0.4 else self.dice.randrange(KEYS))

    def drawn_value(self) -> str:
        return "%s.%d.%s" % (self.name, next(self.serial), "x" * self.dice.choice((0, 3, 40)))

    def drawn_reads(self) -> list[str]:
        reads = ["get . %s\n" % self.drawn_key() for _ in range(self.dice.randrange(4))]
        if self.dice.random() < 0.1:
            part = self.dice.randrange(8)
            reads.append("scan . key/%d/ key/%d0\n" % (part, part))
        return reads

    def drawn_writes(self) -> list[tuple[str, str | None]]:
        """The value of the first one is kept, and by it the transaction is found. Others may be overwritten."""
        first, *others = (self.drawn_key() for _ in range(self.dice.randrange(1, 6)))
        drawn = [(key, None if self.dice.random() < 0.25 else self.drawn_value()) for key in others if key != first]
        return [(first, self.drawn_value()), *drawn]

    def read(self, session: Session, line: str) -> list[object]:
        """What a read was answered. It is asked again where an older transaction is in its way."""
        for turn in range(PATIENCE):
            told = session.call(line).rstrip("\n").split("\n")
            answer = told[0].rpartition(" => ")[2].split(" ")
            if answer[0] == "value":
                return [line.split()[2], answer[1]]
            if answer[0] == "none":
                return [line.split()[2], None]
            if answer[0] == "rows":
                rows = [row.split(" ")[1:] for row in told[1:]]
                return [*line.split()[2:4], rows]
            if answer[0] != "blocked":
                break
            time.sleep(0.001 * 2 ** min(turn, 5))
        raise Aborted

    def transaction(self, session: Session, identity: str) -> None:
        at = int(session.call("begin\n").split(" ")[3])
        try:
            reads = [self.read(session, line) for line in self.drawn_reads()]
            if self.dice.random() < 0.03:
                time.sleep(self.dice.random() / 5)
        except Aborted:
            session.call("abort .\n")
            return
        writes = self.drawn_writes()
        lines = ["del . %s\n" % key if value is None else "put . %s %s\n" % (key, value) for key, value in writes]
        self.note(identity=identity, at=at, **{"is": "unknown"}, reads=reads, writes=writes)
        answers = session.call("".join(lines) + "commit .\n").split("\n")
        last = answers[len(lines)].rpartition(" => ")[2].split(" ")
        if last[0] == "committed":
            self.note(identity=identity, at=at, **{"is": "committed"}, rows=int(last[1]))
        elif last[0] == "ended":
            self.note(identity=identity, at=at, **{"is": "aborted"})
        else:
            raise ValueError("the commit was answered %s" % answers[len(lines)])

    def write(self) -> None:
        """Transactions over one session, as long as it stands."""
        identity = identity_at(self.port)
        session = Session(self.port, timeout=60)
        if identity_at(self.port) != identity:  # the server was another one meanwhile
            return
        while True:
            self.transaction(session, identity)
            time.sleep(self.dice.random() * 0.02)


def main(port: str, name: str, seed: str, log: str) -> None:
    writer = Writer(int(port), name, seed, log)
    while True:
        try:
            writer.write()
        except OSError:
            time.sleep(0.1)


if __name__ == "__main__":
    main(*sys.argv[1:])
