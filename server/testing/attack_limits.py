"""Servers that get no more memory: whatever fails, no event is lost, and what is told is true.

A run gives the server's process 250 to 700 MB of addresses, and writers who want more. Meanwhile the transcript is read
along. In the end

    the transcript has each position, up to `Ripsawbean-Next`, and no other
    each answer that a writer got is the event of the transcript at its position, word for word
    no line that was answered with a fault has an event
    /holders tells the same as the database's own report, /state
    the server answers: it may end for want of memory, but never live on and be deaf

A server with `--max-memory` below its limit may not end either. Where the limit lies above it by the reserve that the
server itself tells, it may not end whatever clients hold meanwhile: answers, reports and streams that they don't read,
bodies and messages that they don't end, deletes that aren't collected, reads that aren't closed, and feeds and
protections that sessions hold.

Then comes a control: events are taken from the transcript that is read, and that has to be noticed.
"""

import contextlib
import dataclasses
import itertools
import json
import random
import re
import threading
import time
import zlib
from collections.abc import Callable, Iterator
from typing import Any

from attack_beside import Scale
from handmade import TEXT, Session, Wire, fill, framed, is_all_taken
from machine import LONGEST, Room, Server, wait_for

MEGABYTE = 1 << 20
WRITERS = 4
VALUE = "x" * 16_000
LONG = 200  # characters of a line beyond which a digest stands for it
Report = dict[str, Any]
COUNTED = re.compile(r"(?:rows|messages) (\d+)")  # an answer with so many lines behind it
SECONDS_AT_LIMIT = 2.5  # how long the writers go on at least, once they were told that there is no memory
MESSAGES_AT_LIMIT = 40  # how many more they send at least


def heads_of(text: str) -> list[str]:
    """The first line of each event of a text, and each fault. A digest stands for a long one."""
    lines, found, at = text.split("\n"), [], 0
    while at < len(lines) - 1:
        line = lines[at]
        counted = COUNTED.fullmatch(line.rpartition(" => ")[2])
        at += 1 + (int(counted[1]) if counted else 0)
        if len(line) > LONG:
            line = "%s #%08x => %s" % (line[:80], zlib.crc32(line.encode()), line.rpartition(" => ")[2])
        found.append(line)
    return found


@dataclasses.dataclass
class Writer(threading.Thread):
    """Writes rows of 16,000 bytes, reads, opens, protects. Each row has a key of its own, by which its event is found."""

    server: Server
    number: int
    limit: threading.Event
    over: threading.Event
    told: list[tuple[list[str], list[str]]] = dataclasses.field(default_factory=list)  # lines and answers of messages
    lost: list[list[str]] = dataclasses.field(default_factory=list)  # messages without an answer
    made: int = 0

    def __post_init__(self) -> None:
        super().__init__(daemon=True)
        self.dice = random.Random(self.number)

    def __hash__(self) -> int:
        return self.number

    def message(self) -> list[str]:
        lines = ["begin"]
        for _ in range(self.dice.randrange(1, 12)):
            self.made += 1
            lines.append("put . w%d/%07d %s" % (self.number, self.made, VALUE))
        if self.dice.random() < 0.2:
            lines.append("scan . w%d/%07d w%d0" % (self.number, max(self.made - 20, 0), self.number))
        if self.dice.random() < 0.1:
            lines += ["open - - %d" % self.made, "protect 0"]
        if self.dice.random() < 0.2:
            lines.append("del . w%d/%07d" % (self.number, self.dice.randrange(self.made)))
        return lines + ["commit ."]

    def run(self) -> None:
        while not self.over.is_set():
            try:
                session = Session(self.server.port, timeout=20)
                while not self.over.is_set():
                    self.ask(session, self.message())
            except OSError:
                self.limit.set()
                time.sleep(0.05)

    def messages(self) -> int:
        return len(self.told) + len(self.lost)

    def ask(self, session: Session, lines: list[str]) -> None:
        try:
            answer = session.call("".join(line + "\n" for line in lines))
        except OSError:
            self.lost.append(lines)
            raise
        self.told.append((lines, heads_of(answer)))
        if "nomemory" in answer or "full" in answer:
            self.limit.set()


@dataclasses.dataclass
class Reader(threading.Thread):
    """Reads the transcript along. A control loses one event in `loses`."""

    server: Server
    over: threading.Event
    loses: int = 0
    events: dict[int, str] = dataclasses.field(default_factory=dict)
    next: int = 0
    faults: list[str] = dataclasses.field(default_factory=list)
    dropped: set[int] = dataclasses.field(default_factory=set)  # that the transcript kept no longer

    def __post_init__(self) -> None:
        super().__init__(daemon=True)
        self.dice = random.Random(1)

    def __hash__(self) -> int:
        return id(self)

    def run(self) -> None:
        while not self.over.is_set():
            try:
                self.read()
            except (OSError, EOFError):
                pass
            time.sleep(0.1)

    def read(self) -> bool:
        """Asks for what is new: whether it was told. An answer that was cut is left out, and asked for again."""
        status, headers, text = fetch(self.server, "/transcript?since=%d" % self.next)
        if status == 410:
            first = int(json.loads(text)["first"])
            self.dropped.update(range(self.next, first))
            self.next = first
        if status != 200:
            return False
        heads = [one for one in heads_of(text.removeprefix("mvfeed 2\n"))
                 if not self.loses or self.dice.randrange(self.loses)]
        places = [int(one.split(" ", 1)[0]) for one in heads]
        wanted = list(range(self.next, int(headers["ripsawbean-next"])))
        if places != wanted:
            missing = sorted(set(wanted) - set(places))
            self.faults.append("of %d to Ripsawbean-Next %s, %d events are missing, first %s; %d are there" % (
                self.next, headers["ripsawbean-next"], len(missing), missing[:5], len(places)))
        self.events.update(zip(places, heads))
        self.next = max(int(headers["ripsawbean-next"]), self.next)
        return True


def fetch(server: Server, path: str) -> tuple[int, dict[str, str], str]:
    """One answer, whole, or an OSError."""
    with contextlib.closing(Wire(server.port, timeout=20)) as wire:
        wire.ask("GET", path)
        status, headers = wire.head()
        is_chunked = headers.get("transfer-encoding") == "chunked"
        body = wire.chunks() if is_chunked else wire.exactly(int(headers["content-length"]))
        return status, headers, body.decode()


# ---- what has to be so

def compare_answers(writers: list[Writer], reader: Reader) -> list[str]:
    """Each answer with the event at its position, and each fault with all events."""
    faults, events = [], reader.events
    keys = {words[4] for one in events.values() if len(words := one.split(" ")) > 4 and words[2] == "put"}
    for writer in writers:
        for lines, answers in writer.told:
            if len(lines) != len(answers):
                faults.append("%d answers to %d lines: %s" % (len(answers), len(lines), [one[:80] for one in answers]))
                continue
            for line, answer in zip(lines, answers):
                if answer.startswith("fault "):
                    if line.startswith("put") and line.split(" ")[2] in keys:
                        faults.append("%s of %s, which was made" % (answer, line[:60]))
                elif (at := int(answer.split(" ", 1)[0])) not in reader.dropped and events.get(at) != answer:
                    there = events.get(at)
                    faults.append("told %s, and the transcript has %s" % (answer[:80], there and there[:80]))
    return faults


def reports_of(server: Server) -> tuple[list[Report], dict[str, list[Report]]] | None:
    """/state, and /holders by kind. None where a call was made meanwhile, as by a collection."""
    before = server.holders("server")[0]["next"]
    state = [json.loads(one) for one in server.ask("GET", "/state")[1].splitlines()]
    known = {kind: server.holders(kind) for kind in ("transaction", "protection", "feed", "server")}
    return (state, known) if known["server"][0]["next"] == before else None


def compare_reports(server: Server) -> list[str]:
    """What the server knows, with what the database itself says."""
    faults = []
    state, known = wait_for(lambda: reports_of(server), "a moment without a call")
    for kind, name in (("transaction", "timestamp"), ("protection", "number"), ("feed", "number")):
        ours, theirs = (sorted(one[name] for one in many) for many in (known[kind], (s for s in state if s["kind"] == kind)))
        if ours != theirs:
            faults.append("%ss: /holders has %s, and /state %s" % (kind, ours[:20], theirs[:20]))
    for name in ("closed", "horizon", "limit"):
        if known["server"][0][name] != state[0][name]:
            faults.append("%s: /holders has %s, and /state %s" % (name, known["server"][0][name], state[0][name]))
    return faults


def is_quiet(server: Server) -> bool:
    try:
        first, second = (server.holders("server")[0] for _ in range(2))
        return first["sessions"] == 0 and first["next"] == second["next"] and first["closed"] == first["greatest"]
    except (OSError, ValueError, IndexError):
        return False


def reads_on(reader: Reader) -> bool:
    try:
        return reader.read()
    except OSError:
        return False


Crowd = Callable[[Server], contextlib.AbstractContextManager[object]]


def run_at(room: Room, megabytes: int, has_own_limit: bool) -> tuple[str, list[str]]:
    """How a run ended, and what was wrong."""
    most = megabytes * MEGABYTE // 3 if has_own_limit else 0
    options = ["--keep", "10000000", "--keep-bytes", str(megabytes * MEGABYTE // 3), "--history", "1"]
    options += ["--max-memory", str(most)]
    server = room.start(limited(room, megabytes * MEGABYTE, options))
    return run_on(server, has_own_limit)


def limited(room: Room, addresses: int, options: list[str]) -> Server:
    return Server(room.path, *options, before=("prlimit", "--as=%d" % addresses))


def messages_of(writers: list[Writer]) -> int:
    return sum(one.messages() for one in writers)


def has_come(at_limit: threading.Event, writers: list[Writer]) -> bool:
    """Waits for the limit as long as the writers get on, however slow a busy machine makes them."""
    before = -1
    while not at_limit.wait(LONGEST) and messages_of(writers) > before:
        before = messages_of(writers)
    return at_limit.is_set()


def go_on(server: Server, writers: list[Writer]) -> None:
    """Gives the writers some time, and on a busy machine some messages too, unless the server has ended."""
    before = messages_of(writers)
    time.sleep(SECONDS_AT_LIMIT)
    with contextlib.suppress(TimeoutError):
        wait_for(lambda: server.has_ended() or messages_of(writers) >= before + MESSAGES_AT_LIMIT, "more messages")


def run_on(server: Server, has_own_limit: bool, crowd: Crowd = contextlib.nullcontext,
           loses: int = 0) -> tuple[str, list[str]]:
    """The same of a server that has begun. The crowd comes once there is no memory for more rows."""
    at_limit, over, read_over = threading.Event(), threading.Event(), threading.Event()
    writers = [Writer(server, number, at_limit, over) for number in range(WRITERS)]
    reader = Reader(server, read_over, loses)
    for one in (*writers, reader):
        one.start()
    is_reached = has_come(at_limit, writers)
    with crowd(server):
        go_on(server, writers)
    over.set()
    for one in writers:
        one.join(LONGEST)
    faults = [] if is_reached else ["no limit was reached"]
    if not server.has_ended():
        try:
            wait_for(lambda: server.has_ended() or is_quiet(server), "the server to answer")
        except TimeoutError:
            faults.append("it lives, and is deaf: " + server.tail())
    read_over.set()
    reader.join(LONGEST)
    how = "lives"
    if server.has_ended():
        how = "ended with %d" % server.child.returncode
        if has_own_limit or server.child.returncode == 0:
            faults.append("it has ended: " + server.tail())
    elif not faults:
        try:
            wait_for(lambda: reads_on(reader), "the transcript")
            faults += compare_reports(server) + compare_answers(writers, reader)
        except (TimeoutError, OSError) as why:
            faults.append("it lives, and doesn't answer: %r: %s" % (why, server.tail()))
    faults += reader.faults
    told = sum(len(one.told) for one in writers)
    return "%s after %d events, %d messages, %d without an answer" % (
        how, len(reader.events), told, sum(len(one.lost) for one in writers)), faults


def test_limits(room: Room, scale: Scale, runs: int = 3) -> str:
    """Runs at several limits, of which each second one has --max-memory too."""
    dice, figures = random.Random(1), []
    for run in range(runs):
        megabytes = (250, 450, 700)[run] if run < 3 else dice.randrange(250, 700)
        with Room() as own:
            how, faults = run_at(own, megabytes, run % 2 == 1)
        figures.append("%d MB%s: %s" % (megabytes, " and --max-memory" * (run % 2), how))
        assert not faults, "%s: %s" % (figures[-1], "; ".join(faults[:6]))
    return "; ".join(figures[:6])


# ---- clients that hold all that they may

SMALL = ["--max-message", "262144", "--max-reply", "4000000", "--max-answer", "1000000", "--max-connections", "256",
         "--max-feeds", "48", "--keep-bytes", "8000000", "--history", "1"]
MOST = 100 * MEGABYTE  # of --max-memory
LONG_BODY = 262_143


def peak_of_addresses(server: Server) -> int:
    with open("/proc/%d/status" % server.child.pid) as lines:
        return next(int(line.split()[1]) for line in lines if line.startswith("VmPeak")) << 10


def reserve_of(room: Room, options: list[str]) -> int:
    """What a server with these options may take beside its rows, as it says."""
    server = room.start(Server(room.path, *options))
    lines = server.ask("GET", "/metrics")[1].splitlines()
    server.kill()
    return next(int(line.split()[1]) for line in lines if line.startswith("ripsawbean_memory_reserve_bytes "))


def asked(server: Server, path: str) -> Wire:
    wire = Wire(server.port, little=True, timeout=20)
    wire.ask("GET", path)
    return wire


def unended_body(server: Server) -> Wire:
    wire = Wire(server.port, timeout=20)
    head = "POST /call HTTP/1.1\r\nHost: 127.0.0.1:%d\r\nContent-Length: %d\r\n\r\n" % (server.port, LONG_BODY + 1)
    wire.send(head.encode() + b"x" * LONG_BODY)
    return wire


def unended_message(server: Server) -> Wire:
    session = Session(server.port)
    session.send(framed(b"stats\n" * (LONG_BODY // 6), TEXT)[:-6])
    return session


def unread_answers(server: Server) -> Wire:
    """Some fifty rows of 16,000 bytes, again and again."""
    session = Session(server.port, little=True)
    session.tell("begin\n" + "scan . w0/0000001 w0/0000050\n" * 9)
    return session


@contextlib.contextmanager
def holding(server: Server) -> Iterator[None]:
    kinds: list[tuple[int, Callable[[Server], Wire]]] = [
        (40, unread_answers), (15, unended_message), (60, unended_body), (24, lambda it: asked(it, "/feed")),
        (24, lambda it: asked(it, "/dump")), (20, lambda it: asked(it, "/transcript")),
        (20, lambda it: asked(it, "/rows?limit=10000"))]
    wires = []
    for count, come in kinds:
        for _ in range(count):
            with contextlib.suppress(OSError):  # it may be refused
                wires.append(come(server))
    try:
        yield
    finally:
        for wire in wires:
            wire.reset()


def test_a_reserve_is_enough(room: Room, scale: Scale) -> str:
    """At a limit of --max-memory and the reserve a server lives on, and takes no call back, whoever holds what."""
    options = [*SMALL, "--max-memory", str(MOST)]
    reserve = reserve_of(room, options)
    server = room.start(limited(room, MOST + reserve, options))
    how, faults = run_on(server, True, holding)
    assert not faults, "; ".join(faults[:6])
    figures = "%s; %d MB of addresses at most, of %d MB" % (how, peak_of_addresses(server) >> 20, MOST + reserve >> 20)
    assert peak_of_addresses(server) < MOST + reserve, figures
    return figures


def hold_up(server: Server, over: threading.Event) -> None:
    """A transaction that nobody decides, and a snapshot that nobody reads, again and again."""
    while not over.is_set():
        with contextlib.suppress(OSError):
            session = Session(server.port)
            while not over.is_set():
                session.call("begin\n")
                session.call("protect %s\n" % session.call("stats\n").split(" ")[-2])
                time.sleep(1)


@dataclasses.dataclass
class Growing(threading.Thread):
    """Says a line again and again, of another key each time, in transactions of two hundred."""

    server: Server
    line: str
    over: threading.Event
    made: int = 0
    full: int = 0

    def __post_init__(self) -> None:
        super().__init__(daemon=True)

    def __hash__(self) -> int:
        return id(self)

    def run(self) -> None:
        session = Session(self.server.port)
        for at in itertools.count(step=200):
            if self.over.is_set():
                return
            lines = "".join(self.line % one for one in range(at, at + 200))
            answer = session.call("begin\n%scommit .\n" % lines)
            self.made += answer.count(" => written\n") + answer.count(" => none\n")
            self.full += answer.count(" 67 full ")


class Holding(Growing):
    """Opens feeds and protects, nine hundred of each, and ends them with its session, again and again."""

    def __hash__(self) -> int:
        return id(self)

    def run(self) -> None:
        while not self.over.is_set():
            with contextlib.suppress(OSError):
                session = Session(self.server.port)
                closed = session.call("stats\n").split(" ")[-2]
                answer = session.call("".join(self.line % (at, closed, closed) for at in range(900)))
                self.made += answer.count(" => opened ") + answer.count(" => protected ")
                self.full += answer.count(" 67 full ")
                session.close()


def test_what_is_no_row_has_a_bound_too(room: Room, scale: Scale) -> str:
    """While memory is full, deletes that aren't collected, reads that aren't closed, and what sessions hold are refused
    beyond the reserve, and made again once what holds them up has gone, which is soon."""
    options = [*SMALL, "--max-memory", str(MOST), "--max-age", "3600"]
    reserve = reserve_of(room, options)
    server = room.start(limited(room, MOST + reserve, options))
    session, over = Session(server.port), threading.Event()
    early = [Session(server.port) for _ in range(6)]  # whose feeds were there before it was full
    assert all(is_all_taken(one.call("open - - 0\n" * 1000)) for one in early)
    for at in itertools.count():
        if " 67 full " in session.call("begin\nput . row/%d %s\ncommit .\n" % (at, VALUE)):
            break
    clients = [Growing(server, line, over) for line in ("del . gone/%09d\n", "get . absent/%09d\n") for _ in range(3)]
    held = "openinitial low/%09d" + "x" * 200 + " - %s\nprotect %s\n"
    clients += [Holding(server, held, over) for _ in range(6)]
    threads = [threading.Thread(target=hold_up, args=(server, over), daemon=True), *clients]
    for one in threads:
        one.start()
    wait_for(lambda: all(one.full for one in clients), "each kind to be refused")
    before = [one.made for one in clients]
    wait_for(lambda: all(one.made > made + 2000 for one, made in zip(clients, before)), "each kind to go on")
    over.set()
    for one in threads:
        one.join(LONGEST)
    deletes, reads, holds = (sum(one.made for one in clients[at:to]) for at, to in ((0, 3), (3, 6), (6, 12)))
    figures = "%d deletes, %d reads, %d feeds and protections, %d refused; %d MB of addresses at most, of %d MB" % (
        deletes, reads, holds, sum(one.full for one in clients), peak_of_addresses(server) >> 20, MOST + reserve >> 20)
    assert not server.has_ended() and peak_of_addresses(server) < MOST + reserve, figures
    return figures


def test_a_lost_event_is_noticed(room: Room, scale: Scale) -> str:
    """The control: the same run, whose reader loses one event in five hundred."""
    options = ["--keep", "10000000", "--keep-bytes", str(80 * MEGABYTE), "--history", "1", "--max-memory", str(80 * MEGABYTE)]
    _, faults = run_on(room.start(Server(room.path, *options)), True, loses=500)
    lost = sum("events are missing" in one for one in faults)
    assert lost and len(faults) > lost, "it isn't noticed: %s" % faults[:6]
    return "%d faults" % len(faults)


def test_threads_lay_no_addresses_aside(room: Room, scale: Scale) -> str:
    """A server of few rows takes few addresses, however many of its threads work."""
    server = room.start(Server(room.path))
    for one in [Session(server.port) for _ in range(16)]:
        fill(one, "few/%d/" % one.socket.getsockname()[1], 500)
    found = peak_of_addresses(server)
    assert found < 128 * MEGABYTE, "%d MB" % (found >> 20)
    return "%d MB" % (found >> 20)


TESTS: list[Callable[[Room, Scale], str]] = [
    test_limits, test_a_lost_event_is_noticed, test_a_reserve_is_enough, test_what_is_no_row_has_a_bound_too,
    test_threads_lay_no_addresses_aside]
