"""Requests with an `Idempotency-Key` over crashes: part of `server/test durable`.

The server ends at each step of the disk in turn, so also between a commit that is durable and its answer. What was
answered is answered again by the same bytes, and what wasn't is done once, whether its commit was durable or not.
"""

import collections
import contextlib
import http.client
import itertools
import json
import random
import threading
import time

import psycopg2
from durable_servers import DurableServer, Pair
from journal_file import Batch, rewrite
from machine import LONGEST, Postgres, Room, Server, wait_for

OPTIONS = ("--history", "1000", "--remember", "600")  # nothing is collected, so each version is seen
REQUESTS = 14
PAUSE = 0.05  # between requests, so that a checkpoint falls between them
LAST_STEPS = 1.0  # how long a checkpoint may take behind the last one

Told = tuple[str, bool]  # an answer, and whether it was given before
Found = tuple[list[str], str]  # faults, and figures


def body_of(number: int) -> str:
    return json.dumps({"then": [{"get": "k0"}, {"put": "k%d" % number, "value": "v" * 300}]})


def ask(server: Server, number: int) -> Told:
    connection = http.client.HTTPConnection("127.0.0.1", server.port, timeout=LONGEST)
    with contextlib.closing(connection):
        connection.request("POST", "/transact", body_of(number), {"Idempotency-Key": "key%d" % number})
        response = connection.getresponse()
        text = response.read().decode()
        if response.status != 200:
            raise ValueError("key%d: %d %s" % (number, response.status, text))
        return text, response.getheader("Idempotent-Replayed") == "true"


def versions_of(server: Server) -> dict[str, list[str]]:
    """The timestamps of each key's versions, by a feed from the beginning."""
    found: dict[str, list[str]] = collections.defaultdict(list)
    closed = server.closed()
    connection = http.client.HTTPConnection("127.0.0.1", server.port, timeout=LONGEST)
    with contextlib.closing(connection):
        connection.request("GET", "/feed?from=0&identity=" + server.identity)
        for line in connection.getresponse():
            message = json.loads(line) if line != b"\n" else {}
            if "updated" in message:
                found[message["key"]].append(message["updated"])
            if int(message.get("resolved", -1)) >= closed:
                break
    return found


def live(server: DurableServer) -> tuple[list[Told], bool]:
    """What it has answered until it has ended, and whether it has."""
    answers: list[Told] = []
    try:
        server.start()
        for number in range(REQUESTS):
            answers.append(ask(server, number))
            time.sleep(PAUSE)
        end = time.monotonic() + LAST_STEPS
        while time.monotonic() < end and not server.has_ended():
            time.sleep(PAUSE)
    except (OSError, http.client.HTTPException, RuntimeError, AssertionError):
        wait_for(server.has_ended, "its end")
    ended = server.has_ended()
    server.kill()
    return answers, ended


def compare(server: DurableServer, answers: list[Told]) -> tuple[list[str], bool]:
    """What is wrong in the next life, and whether the request without an answer had committed."""
    faults = []
    server.keeps_power()
    server.start()
    for number, (text, _) in enumerate(answers):
        if ask(server, number) != (text, True):
            faults.append("key%d was answered %s, and then %s" % (number, text, ask(server, number)))
    _, had_committed = ask(server, len(answers))
    for key, timestamps in versions_of(server).items():
        if len(timestamps) != 1:
            faults.append("%s was written at %s" % (key, timestamps))
    server.kill()
    return faults, had_committed


def test_each_step_of_the_disk(room: Room, dice: random.Random) -> Found:
    """A key's request is done once, wherever the server ends."""
    faults, seen = [], collections.Counter()
    for step in itertools.count(1):
        place = room.file("data%d" % step)
        server = DurableServer(room, place, *OPTIONS, "--checkpoint-bytes", "4000")
        server.loses_power(room, POWERLESS_ENDS=str(step))
        room.programs.append(server)
        answers, has_ended = live(server)
        found, had_committed = compare(server, answers)
        faults += ["step %d: %s" % (step, fault) for fault in found]
        seen[had_committed] += len(answers) < REQUESTS
        if not has_ended:
            break
    if not (seen[True] > REQUESTS // 2 and seen[False] > REQUESTS // 2 and step > 3 * REQUESTS):
        faults.append("too few steps, or ends of one kind")
    return faults, "%d steps; ended %d times behind a commit that was durable and not answered, %d times before" % (
        step, seen[True], seen[False])


def without_keys(batches: list[Batch]) -> list[Batch]:
    """As if no record of a key had been written."""
    for batch in batches:
        batch.lines = [line for line in batch.lines if b" key/" not in line and b" told/" not in line]
    return batches


def test_the_control_keys_that_are_not_kept(room: Room, dice: random.Random) -> Found:
    """Where records of keys are left out, a request is done twice, and that is noticed."""
    for step in range(9, 30):
        server = DurableServer(room, room.file("data%d" % step), *OPTIONS, "--checkpoint-bytes", "100000000")
        server.loses_power(room, POWERLESS_ENDS=str(step))
        room.programs.append(server)
        answers, _ = live(server)
        if answers:
            rewrite(server.place, without_keys)
            twice = [fault for fault in compare(server, answers)[0] if "was written at" in fault]
            if twice:
                return [], "step %d: %s" % (step, twice[0])
    return ["nothing was noticed"], ""


def test_keys_over_a_standby(room: Room, dice: random.Random) -> Found:
    """Each request is asked again until it is answered, by the server that has taken over."""
    postgres = room.start(Postgres(room.path))
    pair = room.start(Pair(room, "postgresql://test@127.0.0.1:%d/postgres" % postgres.port, *OPTIONS))
    answers: list[Told] = []
    is_over = threading.Event()

    def ask_all() -> None:
        for number in itertools.count():
            while not is_over.is_set():
                with contextlib.suppress(OSError, http.client.HTTPException):
                    answers.append(ask(pair, number))
                    break
                time.sleep(PAUSE / 5)
            if is_over.is_set():
                return

    asker = threading.Thread(target=ask_all)
    asker.start()
    with contextlib.closing(psycopg2.connect(postgres.dsn)) as database:
        database.autocommit = True
        for _ in range(12):
            time.sleep(dice.uniform(0.1, 0.4))
            wait_for_row(database)
            pair.fail()
            pair.start()
    time.sleep(1)
    is_over.set()
    asker.join()
    again = sum(was_told for _, was_told in answers)
    versions = versions_of(pair)
    faults = ["%s was written at %s" % one for one in versions.items() if len(one[1]) != 1]
    for number, (text, _) in enumerate(answers):
        if ask(pair, number) != (text, True):
            faults.append("key%d was answered %s, and then %s" % (number, text, ask(pair, number)))
    if not (len(answers) > 20 and again):
        faults.append("too few answers, or none given again")
    return faults, "%d answers over 12 kills, %d of them by the server that has taken over" % (len(answers), again)


def wait_for_row(database: "psycopg2.extensions.connection") -> None:
    """Returns right behind the next batch, which is durable then."""
    with database.cursor() as cursor:
        count = None
        while True:
            cursor.execute("SELECT count(*) FROM ripsawbean_journal")
            before, (count,) = count, cursor.fetchone()
            if before is not None and count > before:
                return


TESTS = (test_each_step_of_the_disk, test_the_control_keys_that_are_not_kept, test_keys_over_a_standby)
