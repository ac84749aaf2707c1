"""Correctness under load and kills: `server/test correct`, in some two minutes.

Writers with contention, consumers of several spans, readers of snapshots and recorded feeds are processes of their own.
All of them and the server are killed by kill -9 at random moments, and consumers sleep while a second one of their name
takes their place. In the end all that was told is compared with a serial model that knows the writers' answers alone.

Then comes a control: the same, with a proxy that drops one row in five hundred. It has to be noticed.
"""

import argparse
import base64
import contextlib
import dataclasses
import glob
import json
import random
import signal
import socket
import sqlite3
import time
from collections.abc import Callable
from typing import Any

from correct_consumer import OUTRUN, digest_of
from correct_model import Digests, Model, Stream, Transaction, Version, check_stream, transactions_in
from ledger import Ledger
from machine import LONGEST, Program, Room, Server, free_port, wait_for
from tally import Tally

OPTIONS = ("--history", "3", "--max-age", "5", "--max-connections", "300")
SPANS = (("-", "-"), ("key/0/", "key/00"), ("key/1/", "key/3/"), ("key/2/", "key/6/"), ("key/3/", "-"), ("-", "key/5/"),
         ("key/4/", "key/40"), ("key/6/", "key/8"), ("key/1/100", "key/7/100"), ("key/0/000", "key/0/010"), ("x", "y"))


@dataclasses.dataclass(frozen=True)
class Size:
    writers: int = 20
    consumers: int = 14
    snapshots: int = 3
    feeds: int = 4


@dataclasses.dataclass
class Consumer:
    name: str
    file: str
    span: tuple[str, str]
    command: tuple[str, ...]
    program: Program
    is_own: bool  # by the page alone, and not over the repository's `follow`
    make: Callable[[], Any] | None  # the target of one that isn't its own, as long as it is there
    stored: list[tuple[str, int, int, str]] = dataclasses.field(default_factory=list)  # of a ledger, at its kills


class Load:
    weights = 80, 10, 6, 4  # how often one of each of KINDS is killed
    anew: tuple[str, ...] = ("--anew",)  # each start of the server is another database
    spans = SPANS  # of consumers, the first of all that is compared
    figures = ""  # what else is told of it

    def __init__(self, room: Room, size: Size, seed: int, drops: int = 0):
        self.room, self.size, self.dice, self.kills = room, size, random.Random(seed), dict.fromkeys(KINDS, 0)
        self.faults: list[str] = []
        self.server = room.start(self.make_server())
        self.url, self.port = self.server.url, self.server.port
        if drops:
            self.port = free_port()
            room.start(room.script("dropping", "dropping.py", str(self.port), str(self.server.port), str(drops)))
            self.url = "http://127.0.0.1:%d" % self.port
            wait_for(self.listens, "the proxy")
        self.writers = [self.writer(at) for at in range(size.writers)]
        self.consumers = [self.consumer(at) for at in range(size.consumers)]
        port = str(self.port)
        for at in range(size.feeds):
            span = self.spans[0] if at < 2 else self.spans[at]
            words = (port, room.file("feed%d.told" % at), "feed", str(seed + at), *span, "7" if at % 2 else "0")
            room.start(room.script("feed%d" % at, "correct_watcher.py", *words))
        for at in range(size.snapshots):
            words = (str(self.server.port), room.file("snapshot%d.told" % at), "snapshot", str(seed + at), *self.spans[0])
            room.start(room.script("snapshot%d" % at, "correct_watcher.py", *words))

    def make_server(self) -> Server:
        return Server(self.room.path, *OPTIONS)

    def listens(self) -> bool:
        with contextlib.suppress(OSError):
            socket.create_connection(("127.0.0.1", self.port)).close()
            return True
        return False

    def writer(self, at: int) -> Program:
        name = "w%d.%d" % (at, self.dice.randrange(1 << 30))
        words = (str(self.server.port), name, name, self.room.file("writer%d.told" % at))
        return self.room.start(self.room.script("writer%d" % at, "correct_writer.py", *words))

    def consumer(self, at: int) -> Consumer:
        span, name, is_own = self.spans[at % len(self.spans)], "c%d" % at, at % 2 == 0
        file = self.room.file(name + ".db")
        if is_own:
            command = ("correct_consumer.py", str(self.port), name, file, *span, "events" if at % 4 == 0 else "lines")
        else:
            command = ("ledger.py", self.url, name, file, *span, *self.anew)
        program = self.room.start(self.room.script(name, *command))
        return Consumer(name, file, span, command, program, is_own, lambda: Ledger(file))

    # ---- kills

    def run(self, wanted: int, seconds: float) -> None:
        end = time.monotonic() + seconds
        while sum(self.kills.values()) < wanted and time.monotonic() < end:
            time.sleep(self.dice.uniform(0.02, 0.3))
            kind = self.dice.choices(KINDS, self.weights)[0]
            getattr(self, "kill_" + kind)()
            self.kills[kind] += 1
            self.revive()
        if sum(self.kills.values()) < wanted:
            self.faults.append("only %s kills in %.0f seconds" % (self.kills, seconds))

    def kill_consumer(self) -> None:
        consumer = self.dice.choice(self.consumers)
        consumer.program.kill()
        self.note_stored(consumer)
        consumer.program.start()

    def kill_writer(self) -> None:
        at = self.dice.randrange(len(self.writers))
        self.writers[at].kill()
        self.writers[at] = self.writer(at)

    def kill_twin(self) -> None:
        """A second consumer of the name takes over while the first sleeps. One of them is left."""
        consumer = self.dice.choice(self.consumers)
        first, second = consumer.program, self.room.script(consumer.name + "-twin", *consumer.command)
        first.child.send_signal(signal.SIGSTOP)
        self.room.start(second)
        time.sleep(self.dice.uniform(0.3, 1.5))
        first.child.send_signal(signal.SIGCONT)
        end = time.monotonic() + LONGEST
        while time.monotonic() < end and not (first.has_ended() or second.has_ended()):
            time.sleep(0.05)
        if first.has_ended():
            consumer.program = second
        elif not second.has_ended():
            self.faults.append("%s: two consumers of one name go on side by side: %s" % (consumer.name, self.what_is_known(consumer, second)))
            second.kill()

    def what_is_known(self, consumer: Consumer, second: Program) -> str:
        """Of two that go on: the place that is stored, what the server says of the name, and what both have said last."""
        with contextlib.suppress(Exception):
            held = [one for one in self.server.holders("consumer") if one["name"] == consumer.name]
            feeds = [one for one in self.server.holders("feed") if one["consumer"] == consumer.name]
            words = [one.words()[-200:] for one in (consumer.program, second)]
            cpus = [one.waited_for_a_processor() for one in (consumer.program, second, self.server)]
            return "%s; %s; %s; %s; waited for a processor %s" % (places_of(consumer)[-3:], held, feeds, words, cpus)
        return "and nothing is known of them"

    def kill_server(self) -> None:
        self.server.kill()
        time.sleep(self.dice.uniform(0, 0.5))
        self.server.start()

    def revive(self) -> None:
        """Who has ended by itself begins anew, and is told of where it had no reason."""
        for consumer in self.consumers:
            if consumer.program.has_ended():
                if consumer.program.child.returncode != OUTRUN and "Outrun" not in consumer.program.words():
                    self.faults.append("%s has ended: %s" % (consumer.name, consumer.program.tail()))
                consumer.program.start()
        for at, writer in enumerate(self.writers):
            if writer.has_ended():
                self.faults.append("a writer has ended: " + writer.tail())
                self.writers[at] = self.writer(at)

    def note_stored(self, consumer: Consumer) -> None:
        """What a ledger has at its kill. A consumer of our own keeps a digest for each place by itself."""
        if consumer.is_own or not consumer.make:
            return
        with contextlib.closing(consumer.make()) as target:
            place, rows = target.load(), dict(target.rows())
        if place:
            digest = 0
            for key, value in rows.items():
                digest ^= digest_of(key, value)
            consumer.stored.append((place.identity, place.generation, place.timestamp, "%016x" % digest))

    # ---- the end

    def settle(self) -> dict[bytes, bytes]:
        """Writers end, and each consumer gets to have all. Gives the database's rows."""
        for writer in self.writers:
            writer.kill()
        wait_for(lambda: not self.server.holders("transaction"), "transactions to end")
        last = self.server.holders("server")[0]
        wait_for(lambda: self.server.closed() >= int(last["greatest"]), "all to be closed")
        closed, late = self.server.closed(), list(self.consumers)
        end = time.monotonic() + LONGEST
        while late and time.monotonic() < end:
            late = [one for one in late if not self.has_all(one, closed)]
            time.sleep(0.2)
        self.faults += ["%s has not all that there is: %s" % (one.name, one.program.tail().split("\n")[-1]) for one in late]
        lines = self.server.call("scanat %d %s %s\n" % (closed, *self.spans[0])).split("\n")[1:-1]
        time.sleep(1)
        self.end_programs()
        return {key.encode(): value.encode() for _, key, value in (line.split(" ") for line in lines)}

    def end_programs(self) -> None:
        for program in reversed(self.room.programs):
            program.kill()
        for consumer in self.consumers:
            self.note_stored(consumer)

    def has_all(self, consumer: Consumer, closed: int) -> bool:
        self.revive()
        place = places_of(consumer)[-1:]
        return bool(place) and place[0][0] == self.server.identity and place[0][2] >= closed

    def streams(self) -> list[Stream]:
        found: list[Stream] = []
        for file in glob.glob(self.room.file("feed*.told")):
            with open(file, "rb") as lines:
                for line in lines:
                    message = json.loads(line) if line.endswith(b"\n") else {}
                    if "opened" in message:
                        found.append(Stream(message["opened"]))
                    elif "updated" in message:
                        found[-1].rows.append(version_of(message))
                    elif "resolved" in message:
                        found[-1].resolved.append((len(found[-1].rows), int(message["resolved"])))
        return found


KINDS = ("consumer", "writer", "twin", "server")


def version_of(message: dict[str, str | None]) -> Version:
    after, key = message["after"], base64.b64decode(message["key"] or "").decode()
    return int(message["updated"] or 0), key, None if after is None else base64.b64decode(after).decode()


def places_of(consumer: Consumer) -> list[tuple[str, int, int, str]]:
    """(identity, generation, complete, digest) of all that a consumer has stored and kept, in its order."""
    if consumer.is_own:
        with contextlib.closing(sqlite3.connect(consumer.file, timeout=30)) as db, contextlib.suppress(sqlite3.OperationalError):
            return db.execute("SELECT identity, generation, complete, digest FROM stored ORDER BY at").fetchall()
        return []
    if not consumer.make:
        return consumer.stored
    with contextlib.closing(consumer.make()) as target:
        place = target.load()
    return consumer.stored + ([(place.identity, place.generation, place.timestamp, "")] if place else [])


def values_of(load: Load, streams: list[Stream], transactions: dict[str, dict[int, Transaction]], rows: dict[bytes, bytes]) -> set[str]:
    """Each value that was seen by anyone."""
    seen = {value.decode() for value in rows.values()}
    for stream in streams:
        seen.update(value for _, _, value in stream.rows if value is not None)
    for one in (one for many in transactions.values() for one in many.values()):
        for read in one.reads:
            seen.update([read[1]] if len(read) == 2 else [row[1] for row in read[2]])
    for consumer in load.consumers:
        if not consumer.file:
            continue
        with contextlib.closing(sqlite3.connect(consumer.file)) as db, contextlib.suppress(sqlite3.OperationalError):
            column = "value FROM told" if consumer.is_own else "after FROM told WHERE after IS NOT NULL"
            seen.update(value.decode() for (value,) in db.execute("SELECT " + column))
    return seen


class Verdict:
    """Compares all that was told with the model of each life of the server."""

    def __init__(self, load: Load, rows: dict[bytes, bytes]):
        self.load, self.faults = load, list(load.faults)
        self.transactions = transactions_in(glob.glob(load.room.file("writer*.told")))
        self.all_streams = load.streams()
        seen = values_of(load, self.all_streams, self.transactions, rows)
        self.models = {identity: Model(many, seen) for identity, many in self.transactions.items()}
        self.digests: dict[tuple[str, str, str], Digests] = {}
        self.stores = self.snapshots = 0
        for model in self.models.values():
            self.faults += model.faults
        self.check_last(rows)
        self.check_streams()
        for consumer in load.consumers:
            self.check_places(consumer)
            if consumer.file and not consumer.is_own:
                self.check_told(consumer)
        self.check_snapshots()

    def digest(self, identity: str, span: tuple[str, str], at: int) -> str:
        key = (identity, *span)
        if key not in self.digests:
            self.digests[key] = Digests(self.models.get(identity) or Model({}, set()), *span)
        return self.digests[key].at(at)

    def check_last(self, rows: dict[bytes, bytes]) -> None:
        model = self.models.get(self.load.server.identity) or Model({}, set())
        found = {key.decode(): value.decode() for key, value in rows.items()}
        if found != model.rows:
            self.faults.append("the last scan has %d rows, and not the %d of the model" % (len(found), len(model.rows)))

    def check_streams(self) -> None:
        for stream in self.all_streams:
            self.faults += check_stream(stream, self.models.get(stream.opened["identity"]) or Model({}, set()))

    def check_places(self, consumer: Consumer) -> None:
        """Each digest is the model's, no consumer goes back, an older one stores nothing behind a later one, and none
        returns to an older database."""
        before: list[str] = []
        last = owner = 0
        for identity, generation, complete, digest in places_of(consumer):
            self.stores += bool(digest)
            if digest and digest != self.digest(identity, consumer.span, complete):
                self.faults.append("%s at %d, generation %d: other rows than the model" % (consumer.name, complete, generation))
            if before[-1:] != [identity]:
                if identity in before:
                    self.faults.append("%s has returned to %s" % (consumer.name, identity))
                before.append(identity)
                last = owner = 0
            if complete < last:
                self.faults.append("%s has gone from %d back to %d" % (consumer.name, last, complete))
            if generation < owner:
                self.faults.append("%s of generation %d has stored behind %d" % (consumer.name, generation, owner))
            last, owner = complete, generation

    def check_told(self, consumer: Consumer) -> None:
        """A ledger has each row once: those at its beginning, and then each version above it."""
        with contextlib.closing(Ledger(consumer.file)) as ledger:
            place, told = ledger.load(), ledger.told()
        if place is None or place.identity not in self.models or not told:
            return
        found = [(at, key.decode(), None if value is None else value.decode()) for at, key, value in told]
        model, began = self.models[place.identity], found[0][0]
        later = [one for one in model.within(*consumer.span) if began < one[0] <= place.timestamp]
        seed = [(began, *item) for item in sorted(model.map_at(began, *consumer.span).items())]
        plain = [one for one in model.within(*consumer.span) if one[0] <= place.timestamp]
        if found not in (seed + later, plain):
            self.faults.append("%s was told %d rows, and not the %d of the model" % (consumer.name, len(found), len(seed + later)))

    def check_snapshots(self) -> None:
        for file in glob.glob(self.load.room.file("snapshot*.told")):
            with open(file) as lines:
                for line in lines:
                    if line.endswith("\n"):
                        one = json.loads(line)
                        self.snapshots += 1
                        if one["digest"] != self.digest(one["identity"], self.load.spans[0], one["at"]):
                            self.faults.append("a snapshot at %d has other rows than the model" % one["at"])

    def told(self) -> str:
        models = self.models.values()
        return "%s kills; %d lives, %d transactions committed (%d of them found by value), %d reads; %d streams with %d rows " \
            "and %d resolved; %d stores, %d snapshots%s" % (
                self.load.kills, len(self.models), sum(len(one.committed) for one in models),
                sum(one.found_by_value for one in models), sum(one.reads for one in models), len(self.all_streams),
                sum(len(one.rows) for one in self.all_streams), sum(len(one.resolved) for one in self.all_streams),
                self.stores, self.snapshots, self.load.figures)

    def is_empty(self) -> bool:
        return not (self.stores and self.snapshots and sum(one.reads for one in self.models.values())
                    and any(one.rows and one.resolved for one in self.all_streams))


def judge(size: Size, kills: int, seed: int, seconds: float, drops: int = 0, make: type[Load] = Load) -> Verdict:
    with Room() as room:
        load = make(room, size, seed, drops)
        time.sleep(2)
        load.run(kills, seconds)
        time.sleep(3)  # so that the last life has some transactions
        return Verdict(load, load.settle())


def main(words: list[str]) -> Tally:
    parser = argparse.ArgumentParser(prog="server/test correct", description="Correctness under load and kills.")
    parser.add_argument("--kills", type=int, default=150, metavar="N", help="how many processes are killed (150)")
    parser.add_argument("--seed", type=int, default=int(time.time()), metavar="N", help="draws what is killed when")
    parser.add_argument("--control", type=int, default=20, metavar="N", help="kills beside the wrong proxy; 0 leaves it out (20)")
    parser.add_argument("program", metavar="MVFEED", help="not needed here")
    given, tally = parser.parse_args(words), Tally("correct")
    tally.say("correct: seed %d" % given.seed)
    verdict = judge(Size(), given.kills, given.seed, 120 + 4 * given.kills)
    faults = verdict.faults + ["nothing was compared"] * verdict.is_empty()
    tally.told("%d kills, compared with the serial model" % given.kills, faults, verdict.told())
    if given.control:
        verdict = judge(Size(8, 8, 1, 4), given.control, given.seed + 1, 240, drops=500)
        noticed = [fault for fault in verdict.faults if "row" in fault]
        tally.told("the control: dropped rows are noticed", [] if noticed else ["nothing was noticed"],
                   "%d faults, as %s; %s" % (len(noticed), noticed[:1], verdict.told()))
    return tally
