"""What transactions, reads, deletes, feeds and protections take, beside what the server counts for them.

While memory is full each kind may grow by a share of `--max-memory`, as it is counted. So no kind may take more than it
counts, and what counts far more than it takes is refused too early.

Each kind is made again and again behind a transaction that nobody decides, so nothing is closed and nothing collected.
Then resident memory is compared with `ripsawbean_memory_growth_bytes`, at several sizes, because tables that double
take most just after they did.
"""

import dataclasses
from collections.abc import Callable

from attack_beside import Scale
from attack_memory import resident
from handmade import Session, fill, is_all_taken
from machine import Room, Server

ROWS = 1 << 16  # that stand there before
EACH = 200  # lines of a transaction
BEGINNING = 4096  # lines that are made before it is measured, for what is laid out once
SIZES = [100_000, 140_000, 200_000, 280_000]  # lines at which it is compared
FEEDS = [size // 10 for size in SIZES]
THERE = [ROWS // 2, ROWS - EACH]
LONG = "x" * 200
OPTIONS = ("--keep", "0", "--keep-bytes", "0", "--max-memory", "0", "--max-age", "86400", "--seat-age", "0",
           "--max-lag", "1000000000", "--max-held", "1000000", "--history", "86400")


@dataclasses.dataclass(frozen=True)
class Kind:
    name: str
    line: str  # with the number of each
    each: int = EACH  # in one transaction
    most: float = 2.0  # times that more may be counted than it takes
    is_held: bool = False  # by the session, beside its transactions
    sizes: list[int] = dataclasses.field(default_factory=lambda: SIZES)


KINDS = [
    Kind("transactions", "", 0),
    Kind("reads of keys that aren't there", "get . absent/%07d\n"),
    Kind("reads of long keys that aren't there", "get . absent/%07d" + LONG + "\n"),
    Kind("one read in each transaction", "get . absent/%07d\n", 1),
    Kind("reads of spans", "scan . span/%07d span/%07d0\n"),
    Kind("reads of spans with long bounds", "scan . span/%07d" + LONG + " span/%07d" + LONG + "0\n"),
    Kind("deletes of keys that aren't there", "del . gone/%07d\n"),
    Kind("deletes of keys of 32 bytes", "del . gone/%07d" + LONG[:20] + "\n"),
    Kind("deletes of long keys that aren't there", "del . gone/%07d" + LONG + "\n"),
    Kind("one delete in each transaction", "del . gone/%07d\n", 1),
    # What is there already is read and deleted for less, and how often each comes isn't known.
    Kind("reads of keys that are there", "get . r%07d\n", most=1000, sizes=THERE),
    Kind("deletes of keys that are there", "del . r%07d\n", most=1000, sizes=THERE),
    Kind("undecided transactions", "begin\n", is_held=True),
    Kind("protections", "protect 0\n", is_held=True),
    Kind("feeds", "open - - 0\n", is_held=True, sizes=FEEDS),
    Kind("feeds of spans with long bounds", "open span/%07d" + LONG + " span/%07d" + LONG + "0 0\n", is_held=True, sizes=FEEDS),
]


def counted(server: Server) -> int:
    lines = server.ask("GET", "/metrics")[1].splitlines()
    return sum(int(line.split()[1]) for line in lines if line.startswith("ripsawbean_memory_growth_bytes{"))


def message(kind: Kind, at: int) -> tuple[str, int]:
    """A message of some transactions behind so many lines, and how many lines stand behind it."""
    if kind.is_held:
        return "".join(kind.line.replace("%07d", "%07d" % one) for one in range(at, at + EACH)), at + EACH
    if not kind.each:
        return "begin\ncommit .\n" * EACH, at + EACH
    text = ""
    end = at + max(kind.each, EACH)
    for first in range(at, end, kind.each):
        lines = (kind.line.replace("%07d", "%07d" % one) for one in range(first, first + kind.each))
        text += "begin\n%scommit .\n" % "".join(lines)
    return text, end


def grow(session: Session, kind: Kind, at: int, to: int) -> int:
    while at < to:
        text, at = message(kind, at)
        answer = session.call(text)
        if not is_all_taken(answer):
            raise ValueError("a line was refused: " + answer[-200:])
    return at


def compare(room: Room, kind: Kind) -> tuple[str, bool]:
    """What is taken and counted for each line, and whether that is well."""
    server = room.start(Server(room.path, *OPTIONS))
    try:
        session, old = Session(server.port), Session(server.port)
        fill(session, "r", ROWS)
        old.call("begin\n")
        at = first = grow(session, kind, 0, BEGINNING)
        taken, count, told, is_well = resident(server), counted(server), [], True
        for size in kind.sizes:
            at = grow(session, kind, at, size)
            each = (resident(server) - taken) / (at - first), (counted(server) - count) / (at - first)
            told.append("%.0f of %.0f" % each)
            is_well = is_well and each[0] <= each[1] <= kind.most * each[0]
        return "%s: %s" % (kind.name, ", ".join(told)), is_well
    finally:
        server.kill()


def test_what_grows_is_counted(room: Room, scale: Scale) -> str:
    """Bytes for each line that resident memory grows by, of those that are counted, at several sizes."""
    found = [compare(room, kind) for kind in KINDS]
    wrong, figures = [told for told, is_well in found if not is_well], "; ".join(told for told, _ in found)
    assert not wrong, "%s; of all: %s" % ("; ".join(wrong), figures)
    return figures


TESTS: list[Callable[[Room, Scale], str]] = [test_what_grows_is_counted]
