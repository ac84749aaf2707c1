"""Two servers over PostgreSQL, of which one answers at a time: part of `server/test durable`.

The owner is cut off, frozen, killed and told to end, and PostgreSQL is silent, late, or confirms with a warning. `cut_off`
is the control: without a lease the server that was cut off answers what its successor has changed.
"""

import contextlib
import http.client
import json
import os
import random
import select
import shutil
import signal
import socket
import subprocess
import threading
import time

import psycopg2
from durable_damage import loaded
from durable_postgres import Rows
from durable_servers import DurableServer, refused
from machine import Postgres, Program, Room, Server, free_port, wait_for

SLACK = 4.0  # seconds that a busy machine may take


def place_at(*ports: int) -> str:
    return "postgresql://test@%s/postgres" % ",".join("127.0.0.1:%d" % port for port in ports)


class Way(threading.Thread):
    """A way to PostgreSQL that can be cut: what is sent on it arrives nowhere, and no end of it is told."""

    def __init__(self, port: int):
        super().__init__(daemon=True)
        self.to, self.listening = port, socket.create_server(("127.0.0.1", 0))
        self.port, self.is_open = self.listening.getsockname()[1], threading.Event()
        self.is_open.set()
        self.start()

    def run(self) -> None:
        while True:
            client, _ = self.listening.accept()
            threading.Thread(target=self.carry, args=(client,), daemon=True).start()

    def carry(self, client: socket.socket) -> None:
        self.is_open.wait()
        with client, contextlib.suppress(OSError), socket.create_connection(("127.0.0.1", self.to)) as server:
            while True:
                for one in select.select([client, server], [], [])[0]:
                    self.is_open.wait()
                    data = one.recv(65536)
                    if not data:
                        return
                    (server if one is client else client).sendall(data)


class Reader(threading.Thread):
    """Reads `x` of a server again and again, also what it was asked for before the server fell silent."""

    def __init__(self, server: Server):
        super().__init__(daemon=True)
        self.server, self.told, self.is_over = server, [], threading.Event()
        self.start()

    def run(self) -> None:
        while not self.is_over.is_set():
            threading.Thread(target=self.read, daemon=True).start()
            time.sleep(0.05)

    def read(self) -> None:
        begun = time.monotonic()
        with contextlib.suppress(OSError, http.client.HTTPException):
            status, text = self.server.ask("GET", "/key/x")
            self.told.append((begun, time.monotonic(), status, text))


def started(room: Room, *options: str, places: tuple[str, str]) -> tuple[DurableServer, DurableServer]:
    """An owner, and a server that waits."""
    first = room.start(DurableServer(room, places[0], *options))
    second = DurableServer(room, places[1], *options)
    second.log += "2"
    room.programs.append(second)
    Program.start(second)
    wait_for(lambda: "another server has the journal" in second.words(), "the second server's wait")
    return first, second


def serves(server: DurableServer) -> float:
    server.identity = wait_for(server.told_identity, "the server")
    return time.monotonic()


def put(server: Server, value: int) -> None:
    server.call("begin\nput . x %d\ncommit .\n" % value)


def end_owner(dsn: str) -> None:
    with contextlib.closing(psycopg2.connect(dsn)) as database, database.cursor() as cursor:
        cursor.execute("SELECT pg_terminate_backend(pid) FROM pg_locks WHERE locktype = 'advisory' AND granted")
        database.commit()


def test_cut_off(room: Room, dice: random.Random) -> list[str]:
    """A server that is cut off from PostgreSQL answers nothing that its successor may have changed, and says so."""
    postgres = room.start(Postgres(room.path))
    way = Way(postgres.port)
    first, second = started(room, "--patience", "3", places=(place_at(way.port), place_at(postgres.port)))
    put(first, 1)
    reader, faults = Reader(first), []
    way.is_open.clear()
    cut = time.monotonic()
    end_owner(postgres.dsn)
    since = serves(second)
    if since - cut < 2:
        faults.append("the lease was waited for %.1f seconds" % (since - cut))
    put(second, 2)
    changed = time.monotonic()
    told = first.ask("GET", "/healthz")
    if told[0] != 503 or '"lease"' not in told[1]:
        faults.append("it says that it is well: %d %s" % told)
    if first.ask("GET", "/metrics")[0] != 200:
        faults.append("its metrics aren't told")
    time.sleep(3 + SLACK)
    reader.is_over.set()
    late = [one for one in reader.told if one[2] == 200 and one[0] > changed]
    if late or not reader.told:
        faults.append("%d reads are answered as before: %s" % (len(late), late[:1]))
    if any(status == 200 and done > since for _, done, status, _ in reader.told):
        faults.append("two servers have answered at a time")
    refusals = {(status, json.loads(text)["error"]) for _, _, status, text in reader.told if status != 200}
    if refusals != {(503, "lease")}:
        faults.append("its refusals are %s" % refusals)
    way.is_open.set()
    wait_for(first.has_ended, "the first server's end")
    return faults


def test_a_frozen_owner(room: Room, dice: random.Random) -> list[str]:
    """One that stands still is taken for lost after ten seconds. When it goes on it answers nothing, and ends."""
    postgres = room.start(Postgres(room.path))
    first, second = started(room, places=(place_at(postgres.port),) * 2)
    put(first, 1)
    first.child.send_signal(signal.SIGSTOP)
    frozen = time.monotonic()
    reader, faults = Reader(first), []
    time.sleep(1)
    took = serves(second) - frozen
    put(second, 2)
    first.child.send_signal(signal.SIGCONT)
    wait_for(first.has_ended, "the first server's end")
    reader.is_over.set()
    if not 10 < took < 13 + SLACK:
        faults.append("the second one serves after %.1f seconds" % took)
    if told := [one for one in reader.told if one[2] == 200]:
        faults.append("it has answered: %s" % told[:1])
    return faults


def test_a_killed_owner_and_one_that_ends(room: Room, dice: random.Random) -> list[str]:
    """The lease of who was killed is waited for, and not of who says that it ends."""
    postgres, faults = room.start(Postgres(room.path)), []
    for number, least, most in ((signal.SIGKILL, 5, 6), (signal.SIGTERM, 0, 2)):
        first, second = started(room, "--lease", "5", places=(place_at(postgres.port),) * 2)
        put(first, 1)
        begun = time.monotonic()
        first.kill(number)
        ended = time.monotonic()
        took = serves(second) - (begun if least else ended)
        if not least < took < most + SLACK:
            faults.append("after signal %d the second one serves after %.1f seconds" % (number, took))
        if "=> value 1\n" not in second.call("begin\nget . x\n"):
            faults.append("after signal %d a row isn't there" % number)
        second.kill(signal.SIGTERM)
    return faults


def test_a_lease_that_is_longer_than_the_next_one(room: Room, dice: random.Random) -> list[str]:
    """It is the lease of who was the owner that is waited for, and the owner isn't taken for lost meanwhile."""
    postgres = room.start(Postgres(room.path))
    first = room.start(DurableServer(room, place_at(postgres.port), "--lease", "14"))
    put(first, 1)
    first.kill()
    killed = time.monotonic()
    second, third = started_both(room, place_at(postgres.port))
    took = min(serves_any(second, third)) - killed
    faults = [] if 14 < took < 16 + SLACK else ["the next one serves after %.1f seconds" % took]
    for one in (second, third):
        if "is silent" in one.words():
            faults.append("an owner that waits is taken for lost: " + one.tail())
    return faults


def next_one(room: Room, place: str, number: int) -> DurableServer:
    """A server that takes over, with a log of its own."""
    server = DurableServer(room, place)
    server.log += str(number)
    room.programs.append(server)
    Program.start(server)
    return server


def test_who_took_over_is_killed_before_it_answers(room: Room, dice: random.Random) -> list[str]:
    """The longest lease of those that haven't ended is waited for."""
    postgres = room.start(Postgres(room.path))
    place = place_at(postgres.port)
    first = room.start(DurableServer(room, place, "--lease", "14"))
    put(first, 1)
    first.kill()
    killed = time.monotonic()
    second = next_one(room, place, 2)
    with contextlib.closing(psycopg2.connect(place)) as database, database.cursor() as cursor:
        database.autocommit = True

        def is_raised() -> bool:
            cursor.execute("SELECT epoch FROM ripsawbean_owner")
            return cursor.fetchone() == (2,)

        wait_for(is_raised, "the second epoch")
    second.kill()
    took = serves(next_one(room, place, 3)) - killed
    return [] if took > 14 else ["the third one serves after %.1f seconds" % took]


def test_a_reader_of_the_tables_that_takes_long(room: Room, dice: random.Random) -> list[str]:
    """As pg_dump is one: who takes over doesn't wait for it."""
    postgres = room.start(Postgres(room.path))
    place = place_at(postgres.port)
    first = room.start(DurableServer(room, place))
    put(first, 1)
    with contextlib.closing(psycopg2.connect(place)) as database, database.cursor() as cursor:
        cursor.execute("SELECT * FROM ripsawbean_owner, ripsawbean_journal")
        first.kill()
        killed = time.monotonic()
        took = serves(next_one(room, place, 2)) - killed
    return [] if took < 4 + SLACK else ["the next one serves after %.1f seconds" % took]


def started_both(room: Room, place: str) -> list[DurableServer]:
    both = [DurableServer(room, place) for _ in range(2)]
    for at, one in enumerate(both):
        one.log += str(at + 2)
        room.programs.append(one)
        Program.start(one)
    return both


def serves_any(*servers: DurableServer) -> list[float]:
    wait_for(lambda: [one for one in servers if one.told_identity()], "one of the servers")
    return [time.monotonic()]


def test_a_cancelled_wait(room: Room, dice: random.Random) -> list[str]:
    """A commit whose wait for a replica is given up is told to nobody: PostgreSQL confirms it with a warning."""
    postgres, faults, told = room.start(Postgres(room.path)), [], []
    server = room.start(DurableServer(room, place_at(postgres.port)))
    put(server, 1)
    with contextlib.closing(psycopg2.connect(postgres.dsn)) as database:
        database.autocommit = True
        with database.cursor() as cursor:
            cursor.execute("ALTER SYSTEM SET synchronous_standby_names = 'nobody'")
            cursor.execute("SELECT pg_reload_conf()")

            def write() -> None:
                with contextlib.suppress(OSError, http.client.HTTPException):
                    told.append(server.ask("POST", "/call", b"begin\nput . x 2\ncommit .\n"))

            def cancelled() -> bool:
                cursor.execute("SELECT pg_cancel_backend(pid) FROM pg_stat_activity WHERE wait_event = 'SyncRep'")
                return cursor.rowcount > 0

            writer = threading.Thread(target=write, daemon=True)
            writer.start()
            wait_for(cancelled, "a wait for a replica")
            with contextlib.suppress(TimeoutError):
                wait_for(lambda: server.has_ended() or told, "the server's end")
            if told or not server.has_ended() or "warned" not in server.words():
                faults.append("told %s, and said: %s" % (told, server.tail()))
            cursor.execute("ALTER SYSTEM RESET synchronous_standby_names")
            cursor.execute("SELECT pg_reload_conf()")
    return faults


def test_hosts(room: Room, dice: random.Random) -> list[str]:
    """A host that is silent, or isn't there, costs seconds. What won't change ends the server, and all else doesn't."""
    postgres, faults = room.start(Postgres(room.path)), []
    with socket.create_server(("127.0.0.1", 0)) as silent:
        begun = time.monotonic()
        server = room.start(DurableServer(room, place_at(silent.getsockname()[1], free_port(), postgres.port)))
        if (took := time.monotonic() - begun) > 4 + SLACK:
            faults.append("it serves after %.1f seconds" % took)
        loaded(room, server, 3)
        server.kill(signal.SIGTERM)
    for place in ("postgresql://test@127.0.0.1:%d/nothing", "postgresql://nobody@127.0.0.1:%d/postgres"):
        if "does not exist" not in (said := refused(DurableServer(room, place % postgres.port))):
            faults.append("%s: %s" % (place, said))
    postgres.kill()
    Program.start(server)
    time.sleep(2)
    if server.has_ended():
        faults.append("it has ended: " + server.tail())
    else:
        postgres.start()
        serves(server)
        if (count := server.words().count("asked again")) > 3:
            faults.append("it has said %d times that it asks again" % count)
    return faults


def test_postgresql_goes_while_one_waits(room: Room, dice: random.Random) -> list[str]:
    """A server that waits goes on waiting over a restart of PostgreSQL, and over a way that is silent."""
    postgres = room.start(Postgres(room.path))
    way = Way(postgres.port)
    first, second = started(room, places=(place_at(postgres.port), place_at(way.port, postgres.port)))
    put(first, 1)
    way.is_open.clear()
    time.sleep(1)
    first.kill()
    killed = time.monotonic()
    took = serves(second) - killed
    faults = [] if took < 10 + SLACK else ["the second one serves after %.1f seconds" % took]
    third = DurableServer(room, place_at(postgres.port))
    third.log += "3"
    room.programs.append(third)
    Program.start(third)
    wait_for(lambda: "another server has the journal" in third.words(), "the third server's wait")
    postgres.kill()
    wait_for(second.has_ended, "the second server's end")
    time.sleep(1)
    postgres.start()
    serves(third)
    if "=> value 1\n" not in third.call("begin\nget . x\n"):
        faults.append("a row isn't there")
    return faults


def test_who_waits_has_read_what_is_there(room: Room, dice: random.Random) -> list[str]:
    """A server that waits reads along, over checkpoints too. So what it has read may be spoiled behind its back."""
    postgres, faults = room.start(Postgres(room.path)), []
    options = ("--checkpoint-bytes", "9000", "--history", "0.1")
    first, second = started(room, *options, places=(place_at(postgres.port),) * 2)
    rows, number = Rows(postgres.dsn), 0
    with contextlib.closing(rows.database):
        while not any(row[:2] == ("finished", 3) for row in rows.all()):
            put(first, number := number + 1)
        time.sleep(4)
        said = len(second.words())
        with rows.database.cursor() as cursor:
            cursor.execute("UPDATE ripsawbean_journal SET bytes = 'spoiled' WHERE kind <> 'journal' OR (series, piece) <"
                           " (SELECT series, piece FROM ripsawbean_journal WHERE kind = 'journal'"
                           " ORDER BY series DESC, piece DESC OFFSET 1 LIMIT 1)")
            if cursor.rowcount < 3:
                faults.append("%d rows were spoiled" % cursor.rowcount)
        put(first, 10_000)
        first.kill()
        serves(second)
        if "=> value 10000\n" not in second.call("begin\nget . x\n") or "anew" in second.words()[said:]:
            faults.append(second.tail())
        put(second, 10_001)
    return faults


def test_a_postgresql_that_lacks_the_last_batch(room: Room, dice: random.Random) -> list[str]:
    """What a server has read that waits, and a PostgreSQL that takes another's place doesn't have, isn't told."""
    postgres, faults = room.start(Postgres(room.path)), []
    first, second = started(room, places=(place_at(postgres.port),) * 2)
    rows = Rows(postgres.dsn)
    with contextlib.closing(rows.database):
        put(first, 1)
        before = rows.all()
        put(first, 2)
        time.sleep(1)
        second.child.send_signal(signal.SIGSTOP)
        first.kill()
        rows.set(before)
        second.child.send_signal(signal.SIGCONT)
        serves(second)
        if "=> value 1\n" not in second.call("begin\nget . x\n"):
            faults.append("it tells what isn't there: " + second.call("begin\nget . x\n"))
        put(second, 3)
        second.kill(signal.SIGTERM)
    return faults


def certified(room: Room, name: str, authority: str, *more: str) -> str:
    """A key and a certificate of an authority, or one of its own."""
    key, file, asked = (room.file(name + ending) for ending in (".key", ".pem", ".csr"))
    new = ["openssl", "req", "-newkey", "ec", "-pkeyopt", "ec_paramgen_curve:prime256v1", "-nodes", "-keyout", key]
    quiet = {"check": True, "stdout": subprocess.DEVNULL, "stderr": subprocess.DEVNULL}
    if not authority:
        subprocess.run([*new, "-x509", "-out", file, "-days", "9", "-subj", "/CN=" + name], **quiet)
        return file
    subprocess.run([*new, "-out", asked, "-subj", "/CN=" + name], **quiet)
    with open(room.file("more"), "w") as out:
        out.write("\n".join(("basicConstraints = CA:FALSE", *more)))
    above = ["-CA", authority, "-CAkey", authority[:-4] + ".key", "-CAcreateserial", "-extfile", out.name]
    subprocess.run(["openssl", "x509", "-req", "-in", asked, *above, "-out", file, "-days", "9"], **quiet)
    return file


def with_tls(room: Room, postgres: Postgres, authority: str) -> None:
    """From here on it speaks TLS, and believes who has a certificate of this authority."""
    file = certified(room, "server", authority, "subjectAltName = DNS:localhost")
    owner = os.stat(postgres.data)
    for source, name in ((file, "server.crt"), (file[:-4] + ".key", "server.key"), (authority, "root.crt")):
        target = os.path.join(postgres.data, name)
        shutil.copy(source, target)
        os.chmod(target, 0o600)
        os.chown(target, owner.st_uid, owner.st_gid)
    with open(os.path.join(postgres.data, "postgresql.auto.conf"), "a") as out:
        out.write("ssl = on\nssl_ca_file = 'root.crt'\n")
    with open(os.path.join(postgres.data, "pg_hba.conf"), "w") as out:
        out.write("hostssl all test all cert\nhost all other all trust\n")
    postgres.kill()
    postgres.start()


def test_tls(room: Room, dice: random.Random) -> list[str]:
    """A certificate is taken where it is of the authority and names the host, and a client's own is shown."""
    postgres, faults = room.start(Postgres(room.path)), []
    with contextlib.closing(psycopg2.connect(postgres.dsn)) as database, database.cursor() as cursor:
        cursor.execute("CREATE ROLE other SUPERUSER LOGIN")
        database.commit()
    authority, stranger = certified(room, "authority", ""), certified(room, "stranger", "")
    with_tls(room, postgres, authority)
    own = certified(room, "test", authority)
    shown = "&sslcert=%s&sslkey=%s.key" % (own, own[:-4])
    for host, words, why in (
        ("localhost", "sslmode=verify-full&sslrootcert=%s%s" % (authority, shown), ""),
        ("127.0.0.1", "sslmode=verify-ca&sslrootcert=%s%s" % (authority, shown), ""),
        ("127.0.0.1", "sslmode=require" + shown, ""),
        ("localhost", "sslmode=verify-full&sslrootcert=%s%s" % (stranger, shown), "UnknownIssuer"),
        ("127.0.0.1", "sslmode=verify-full&sslrootcert=%s%s" % (authority, shown), "needs the host's name"),
        ("localhost", "sslmode=require", "certificate"),
        ("localhost", "", "no encryption"),
    ):
        server = DurableServer(room, "postgresql://test@%s:%d/postgres?%s" % (host, postgres.port, words))
        server.log += str(len(room.programs))
        room.programs.append(server)
        Program.start(server)
        if why:
            with contextlib.suppress(TimeoutError):
                wait_for(lambda: why in server.words() or server.has_ended(), "a refusal")
            if why not in server.words():
                faults.append("%s, %s: %s" % (host, words, server.tail()))
        else:
            serves(server)
            put(server, 1)
            dsn = postgres.dsn.replace("user=test", "user=other")
            with contextlib.closing(psycopg2.connect(dsn)) as database, database.cursor() as cursor:
                cursor.execute("SELECT bool_and(ssl) FROM pg_stat_ssl JOIN pg_stat_activity USING (pid) WHERE usename = 'test'")
                if cursor.fetchone() != (True,):
                    faults.append("%s, %s: it isn't encrypted" % (host, words))
        server.kill(signal.SIGTERM)
    return faults


TESTS = (test_cut_off, test_a_frozen_owner, test_a_killed_owner_and_one_that_ends, test_a_lease_that_is_longer_than_the_next_one,
         test_who_took_over_is_killed_before_it_answers, test_a_reader_of_the_tables_that_takes_long,
         test_a_cancelled_wait, test_hosts, test_postgresql_goes_while_one_waits, test_who_waits_has_read_what_is_there,
         test_a_postgresql_that_lacks_the_last_batch, test_tls)
