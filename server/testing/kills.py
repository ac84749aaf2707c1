"""Kills consumers, writers, the server, Redis and PostgreSQL at random moments, and compares what is left.

A consumer that was just killed has to have the rows of the database at the timestamp that it has stored: as `scanat`
tells them, and as the transcript says. The ledger has to have each row of the transcript once, in its order. The
transcript of each server has to be one that `mvfeed check` takes. What a writer was told is committed has to be there,
and each count has to count.
"""

import contextlib
import glob
import os
import random
import subprocess
import time

from history import History
from ledger import Ledger
from machine import Postgres, Redis, Room, Server, wait_for
from ripsawbean import Event
from ripsawbean_consumers.postgres_replica import Table
from ripsawbean_consumers.redis_cache import Cache
from ripsawbean_consumers.search_index import Index

WORDS, PACKAGES, ALL = ("word/", "word0"), ("package/", "package0"), ("-", "-")
WRITERS = 3
# All of a server's life is kept as a transcript. What is old goes soon, so that closing and collecting are seen too.
OPTIONS = ("--keep", "10000000", "--keep-bytes", "4000000000", "--history", "1", "--max-age", "3")


class Consumer:
    """One that follows: its program, its span, how its target is opened from here, and what its target writes to."""

    def __init__(self, room, server, name, script, target, span, make, log):
        self.name, self.span, self.make, self.log = name, span, make, log
        self.program = room.start(room.script(name, script, server.url, name, target, *span, "--anew"))
        self.compared = 0

    def wait_for_write(self):
        """Returns right after its target has written something, or in three seconds."""
        end, before = time.monotonic() + 3, self.written()
        while self.written() == before and time.monotonic() < end:
            time.sleep(0)

    def written(self):
        with contextlib.suppress(FileNotFoundError):  # a log may go while it is looked at
            return [(file, os.stat(file).st_size, os.stat(file).st_mtime_ns) for file in glob.glob(self.log)]

    def stored(self):
        """Place, rows, and the list of what was told where the target is a ledger."""
        target = self.make()
        try:
            return target.load(), dict(target.rows()), target.told() if isinstance(target, Ledger) else None
        finally:
            target.close()

    def bounds(self):
        return [None if bound == "-" else bound.encode() for bound in self.span]


class Life:
    """One server's life: its history, as far as it was read."""

    def __init__(self, server):
        self.server, self.identity, self.history, self.shouts = server, server.identity, History(), 0

    def read(self):
        status, text = self.server.ask("GET", "/transcript?since=%d" % self.history.next)
        self.shouts = self.server.holders("server")[0]["shouts"]
        if status != 200 or not text.startswith("mvfeed 2\n"):
            raise RuntimeError("the transcript: %d %s" % (status, text[:200]))
        self.history.take(text[len("mvfeed 2\n") :])


class Kills:
    def __init__(self, room, program, wanted, seed, until, say):
        self.room, self.program, self.wanted, self.until, self.say = room, program, wanted, until, say
        self.dice = random.Random(seed)
        self.faults, self.kills, self.checked, self.events, self.transactions = [], {}, 0, 0, 0
        self.compared_with_history = self.told_rows = self.acknowledged = 0
        self.server = room.start(Server(room.path, *OPTIONS))
        self.redis, self.postgres = room.start(Redis(room.path)), room.start(Postgres(room.path))
        cache, dsn = self.redis.url, self.postgres.dsn
        index, ledger = room.file("index.db"), room.file("ledger.db")
        self.consumers = [self.consumer(*one) for one in (
            ("cache", "redis", cache, WORDS, lambda: Cache(cache, "cache"), self.redis.log_files),
            ("index", "sqlite", index, PACKAGES, lambda: Index(index), index + "-wal"),
            ("replica", "postgresql", dsn, ALL, lambda: Table(dsn), self.postgres.log_files),
            ("ledger", "ledger.py", ledger, ALL, lambda: Ledger(ledger), ledger + "-wal"),
        )]
        open(room.file("committed"), "w").close()
        self.writers = [self.writer(number) for number in range(WRITERS)]
        self.life = Life(self.server)

    def consumer(self, *words):
        return Consumer(self.room, self.server, *words)

    def writer(self, number):
        words = (self.server.url, str(self.dice.random()), self.room.file("committed"), "0.01")
        return self.room.start(self.room.script("writer%d" % number, "writer.py", *words))

    def fault(self, text):
        self.faults.append(text)
        self.say("WRONG: " + text)

    # ---- the run

    def run(self):
        while self.count() < self.wanted and time.monotonic() < self.until:
            time.sleep(self.dice.uniform(0.02, 0.4))
            self.life.read()
            self.look_for_ended()
            kind = self.dice.choices(("consumer", "writer", "server", "target"), (70, 18, 8, 4))[0]
            getattr(self, "kill_" + kind)()
            self.kills[kind] = self.kills.get(kind, 0) + 1
            if self.count() % 25 == 0:
                self.say("%d kills, %d compared, %d wrong" % (self.count(), self.compared(), len(self.faults)))
        self.settle()

    def look_for_ended(self):
        for program in [one.program for one in self.consumers] + self.writers:
            if program.has_ended():
                self.fault("has ended by itself: %s: %s" % (program.command, program.words()[-500:]))
                program.start()

    def count(self):
        return sum(self.kills.values())

    def compared(self):
        return sum(consumer.compared for consumer in self.consumers)

    def kill_consumer(self):
        """At any moment, or in the middle of its target's transaction, or right after it."""
        consumer = self.dice.choice(self.consumers)
        if self.dice.random() < 0.7:
            consumer.wait_for_write()
            time.sleep(self.dice.choice((0, self.dice.uniform(0, 0.003))))
        consumer.program.kill()
        self.compare(consumer)
        consumer.program.start()

    def kill_writer(self):
        writer = self.dice.choice(self.writers)
        writer.kill()
        writer.command[-3:-2] = [str(self.dice.random())]
        writer.start()

    def kill_server(self):
        """Some consumers die with it. The others have to find the way to the next one by themselves."""
        self.server.kill()
        dead = [consumer for consumer in self.consumers if self.dice.random() < 0.5]
        for consumer in dead:
            consumer.program.kill()
            self.compare(consumer)
        self.end_life()
        self.server.start()
        self.life = Life(self.server)
        for consumer in dead:
            consumer.program.start()

    def kill_target(self):
        target = self.dice.choice((self.redis, self.postgres))
        target.kill()
        time.sleep(self.dice.uniform(0, 0.3))
        target.start()

    # ---- what has to be so

    def compare(self, consumer):
        """A dead consumer's rows, with the scan and with the history at its place."""
        place, rows, told = consumer.stored()
        if place is None or place.identity != self.life.identity:
            return
        where = "%s at %d, generation %d" % (consumer.name, place.timestamp, place.generation)
        if self.server.child:
            scan = Event(self.server.call("scanat %d %s %s\n" % (place.timestamp, *consumer.span)))
            if scan.is_refusal:
                self.fault("%s: scanat is answered %s" % (where, scan.answer))
            elif dict(scan.rows) != rows:
                self.fault("%s: other rows than the scan: %s" % (where, different(dict(scan.rows), rows)))
            consumer.compared += 1
            self.life.read()
        history = self.life.history
        if place.timestamp > history.closed:  # its server died before the history was read so far
            return
        self.compared_with_history += 1
        wanted = history.map_at(place.timestamp, *consumer.bounds())
        if wanted != rows:
            self.fault("%s: other rows than the history: %s" % (where, different(wanted, rows)))
        if told is not None:
            self.compare_told(where, place, told)

    def compare_told(self, where, place, told):
        """The rows of a snapshot, and then each version above it, once and in its order."""
        history, began = self.life.history, told[0][0] if told else place.timestamp
        seed = [(began, key, value) for key, value in sorted(history.map_at(began).items())]
        whole = seed + history.between(began, place.timestamp)
        plain = history.between(0, place.timestamp)  # of a stream that began before there was anything
        self.told_rows += len(told)
        if told not in (whole, plain):
            sizes = (len(told), len(whole), len(plain))
            self.fault("%s: was told %d rows, and not the %d or %d of the history" % (where, *sizes))

    def end_life(self):
        """What a server leaves: a transcript that is right, what writers were told, and counts that count."""
        history = self.life.history
        self.events += history.next
        if self.life.shouts or "Traceback" in self.server.words():
            self.fault("the server wondered: " + self.server.tail())
        verdict = subprocess.run([self.program, "check"], input=history.text(), capture_output=True, text=True)
        self.checked += 1
        if (verdict.returncode, verdict.stdout) != (0, "yes\n"):
            self.fault("the transcript of %s: %s%s" % (self.life.identity, verdict.stdout, verdict.stderr))
        self.transactions += len({row[0] for row in history.rows})
        with open(self.room.file("committed")) as file:
            told = [int(line.split()[1]) for line in file if line.startswith(self.life.identity)]
        lost = [one for one in told if one <= history.closed and not history.has_committed(one)]
        self.acknowledged += len(told)
        if lost:
            self.fault("committed, and lost: %s" % lost[:10])
        counts = {}
        for timestamp, key, value in history.between(0, history.closed, b"count/", b"count0"):
            counts[key] = counts.get(key, 0) + 1
            if value != b"%d" % counts[key]:
                self.fault("%s is %s at %d, and not %d" % (key, value, timestamp, counts[key]))

    def settle(self):
        """Writers end. Then each consumer gets to have all that there is."""
        for writer in self.writers:
            writer.kill()
        for consumer in self.consumers:
            try:
                wait_for(lambda: self.has_all(consumer), consumer.name)
            except TimeoutError as late:
                self.fault("at the end: %s" % late)
            consumer.program.kill()
            self.compare(consumer)
            said = consumer.program.words()
            if "belowhorizon" in said or "notclosed" in said:
                self.fault("%s: nothing was held for it: %s" % (consumer.name, consumer.program.tail()))
        self.end_life()

    def has_all(self, consumer):
        """Whether nothing is left to tell. Closed may move once more after the writers have ended."""
        self.look_for_ended()
        place, rows, _ = consumer.stored()
        if place is None or place.identity != self.life.identity or self.server.holders("transaction"):
            return False
        scan = Event(self.server.call("scanat %d %s %s\n" % (self.server.closed(), *consumer.span)))
        return rows == dict(scan.rows)


def different(wanted, found):
    keys = [key for key in {**wanted, **found} if wanted.get(key) != found.get(key)]
    shown = [(key, wanted.get(key), found.get(key)) for key in keys]
    return "%d of %d keys, as %.200s" % (len(keys), len(wanted), shown)


def kill_and_compare(program, wanted, seed, seconds, say):
    """The faults found, and one line of what was done."""
    began = time.monotonic()
    with Room() as room:
        run = Kills(room, program, wanted, seed, began + seconds, say)
        run.run()
        anew = {one.name: one.program.words().count("begins anew") for one in run.consumers}
    passed = time.monotonic() - began
    say("%d kills in %.0f seconds (%.0f an hour): %s" % (run.count(), passed, 3600 * run.count() / passed, run.kills))
    say("%d transactions with rows, and %d commits of which their writers were told; %d events in %d transcripts" % (
        run.transactions, run.acknowledged, run.events, run.checked))
    say("%d compared with scanat, %d with the history, %d rows of ledgers; begun anew: %s" % (
        run.compared(), run.compared_with_history, run.told_rows, anew))
    if run.count() < wanted:
        run.faults.append("only %d of %d kills within %d seconds" % (run.count(), wanted, seconds))
    return run.faults
