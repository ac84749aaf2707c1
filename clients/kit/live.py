"""A client beside a real server, between which a proxy cuts connections again and again, wherever they are.

What is counted and told has to be exact all the same. Each test is a function of a Ground.
"""

from __future__ import annotations

import base64
import contextlib
import json
import os
import random
import signal
import socket
import subprocess
import tempfile
import threading
import time
from typing import Any, Callable, Dict, Iterator, List, Optional, Tuple

from driver import LONGEST, Driver
from real import Server

TOKEN = "correct-horse-battery"


class Cutter(threading.Thread):
    """A proxy that ends each connection after a drawn number of bytes of answers: before, among or behind their headers."""

    def __init__(self, server: str, least: float, most: float, seed: int = 1):
        super().__init__(daemon=True)
        self.server, self.range, self.dice, self.cuts = server, (least, most), random.Random(seed), 0
        self.listener = socket.create_server(("127.0.0.1", 0))
        self.host = "127.0.0.1:%d" % self.listener.getsockname()[1]
        self.start()

    def run(self) -> None:
        with contextlib.suppress(OSError):
            while True:
                client = self.listener.accept()[0]
                room = int(10 ** self.dice.uniform(*self.range))
                threading.Thread(target=self.carry, args=(client, room), daemon=True).start()

    def carry(self, client: socket.socket, room: int) -> None:
        address, _, port = self.server.partition(":")
        with client, contextlib.suppress(OSError), socket.create_connection((address, int(port))) as server:
            threading.Thread(target=self.ask, args=(client, server), daemon=True).start()
            while room > 0:
                data = server.recv(min(room, 1 << 14))
                if not data:
                    return
                client.sendall(data)
                room -= len(data)
            self.cuts += 1
            for one in (client, server):
                one.shutdown(socket.SHUT_RDWR)

    def ask(self, client: socket.socket, server: socket.socket) -> None:
        with contextlib.suppress(OSError):
            while data := client.recv(1 << 16):
                server.sendall(data.replace(self.host.encode(), self.server.encode()))


class Ground:
    """A server, and as many clients as a test wants."""

    def __init__(self, program: str, command: List[str], *words: str):
        self.command, self.server, self.drivers = command, Server(program, None, *words), []  # type: ignore[var-annotated]

    def __enter__(self) -> "Ground":
        return self

    def __exit__(self, *_: object) -> None:
        for one in self.drivers:
            one.child.kill()
            one.close()
        self.server.close()

    def client(self, host: Optional[str] = None, scheme: str = "http", environment: Dict[str, str] = {}, **options: Any) -> Driver:
        """A client of the server, or of what stands at another address."""
        driver = Driver(self.command, environment)
        self.drivers.append(driver)
        driver.tell({"connect": "%s://%s" % (scheme, host or self.server.host), "timeout": 30, **options})
        return driver

    def consumer(self, name: str) -> Any:
        """What the server says of a consumer."""
        with contextlib.closing(self.server.connect()) as connection:
            connection.request("GET", "/consumer/" + name)
            return json.loads(connection.getresponse().read())

    def cutter(self, least: float, most: float) -> Cutter:
        return Cutter(self.server.host, least, most)


def gives(driver: Driver, call: str, **arguments: Any) -> Any:
    told = driver.ask({"call": call, **arguments})
    assert "gives" in told, (call, arguments, told)
    return told["gives"]


def raises(driver: Driver, kind: str, call: str, **arguments: Any) -> None:
    told = driver.ask({"call": call, **arguments})
    assert told.get("raises") == kind, (call, arguments, kind, told)


def counts_through_cuts(ground: Ground) -> None:
    """Four clients raise one count through a proxy that loses answers. Each raise counts once."""
    proxy = ground.cutter(1.5, 3.5)
    clients = [ground.client(proxy.host) for _ in range(4)]
    failures: List[BaseException] = []

    def work(client: Driver) -> None:
        try:
            for _ in range(25):
                gives(client, "count", key="n")
        except BaseException as why:
            failures.append(why)

    threads = [threading.Thread(target=work, args=(client,)) for client in clients]
    for thread in threads:
        thread.start()
    for thread in threads:
        thread.join()
    assert not failures, failures
    found = gives(ground.client(), "get", key="n")
    assert found == "100" and proxy.cuts > 20, (found, proxy.cuts)


def a_feed_through_cuts(ground: Ground) -> None:
    """A feed that is cut every few rows tells each change once, in order, with what was there before."""
    direct, dice = ground.client(), random.Random(2)
    gives(direct, "put", key="z", value="0")
    place = gives(direct, "feed", take=3)[-1]
    wrote, rows = [], {}  # type: ignore[var-annotated]
    for number in range(300):
        key, value = "k%d" % dice.randrange(30), "v%d" % number
        wrote.append({"key": key, "value": value, "timestamp": gives(direct, "put", key=key, value=value),
                      "before": rows.get(key)})
        rows[key] = value
    proxy = ground.cutter(2.3, 3.5)
    place = {"identity": place["identity"], "timestamp": place["resolved"]}
    told = gives(ground.client(proxy.host), "feed", place=place, before=True, take=300 + 1)
    assert [one for one in told if "key" in one] == wrote[: len([one for one in told if "key" in one])], told
    assert proxy.cuts > 10, proxy.cuts


def a_snapshot_through_cuts(ground: Ground) -> None:
    """The first rows get through, although each connection has room for few of them."""
    direct = ground.client()
    keys = ["%04d" % number for number in range(2000)]
    for at in range(0, len(keys), 500):
        gives(direct, "txn", then=[{"put": key, "value": key * 20} for key in keys[at : at + 500]])
    proxy = ground.cutter(3.2, 4.0)
    told = gives(ground.client(proxy.host), "feed", take=2 + len(keys))
    assert "reset" in told[0] and "resolved" in told[-1], (told[0], told[-1])
    assert [one.get("key") for one in told[1:-1]] == keys
    assert {one["value"] for one in told[1:-1]} == {key * 20 for key in keys} and proxy.cuts > 10, proxy.cuts


def a_consumer_through_cuts(ground: Ground) -> None:
    """A consumer that is stopped and cut at random has the rows of the database, and each change once."""
    direct, dice, proxy = ground.client(), random.Random(3), ground.cutter(2.3, 4.0)
    kept: Dict[str, str] = {}
    place, last = None, 0
    for turn in range(12):
        for _ in range(20):
            key = "k%d" % dice.randrange(25)
            last = int(gives(direct, "delete", key=key) if dice.random() < 0.2 else
                       gives(direct, "put", key=key, value="%d" % dice.randrange(10 ** 6)))
        consumer = ground.client(proxy.host)
        place = consume(consumer, place, kept, last)
        consumer.close()
        ground.drivers.remove(consumer)
    rows = {row["key"]: row["value"] for row in gives(direct, "scan")}
    assert kept == rows, (kept, rows)
    assert proxy.cuts > 5, proxy.cuts


def consume(driver: Driver, place: Any, kept: Dict[str, str], last: int) -> Any:
    """Stores until all up to a timestamp is there. Its driver stops in each store, before that is acknowledged."""
    while place is None or int(place["timestamp"]) < last:
        for batch in gives(driver, "consume", name="c", place=place, stores=1):
            assert batch["was"] == place, (batch, place)
            if batch["reset"]:
                kept.clear()
            for change in batch["changes"]:
                if change["value"] is None:
                    kept.pop(change["key"], None)
                else:
                    kept[change["key"]] = change["value"]
            place = batch["place"]
    return place


def a_place_moves_at_rest(ground: Ground) -> None:
    """A consumer whose span is quiet stores what is closed elsewhere, within some second and some once a second."""
    client, consumer = ground.client(), ground.client()
    gives(client, "put", key="a", value="1")
    batches: List[Any] = []
    span = {"name": "c", "lo": "a", "hi": "b"}
    thread = threading.Thread(target=lambda: batches.extend(gives(consumer, "consume", stores=3, **span)))
    thread.start()
    while ground.consumer("c")["feed"] is None:
        time.sleep(0.02)
    last = gives(client, "put", key="a", value="2")
    while ground.consumer("c")["stored"] != last:
        time.sleep(0.02)
    last, began = gives(client, "put", key="z", value="1"), time.monotonic()
    thread.join(LONGEST)
    took = time.monotonic() - began
    assert took < 5 and batches[-1]["place"]["timestamp"] == last and not batches[-1]["changes"], (took, batches)

    thread = threading.Thread(target=lambda: gives(consumer, "consume", stores=4, place=batches[-1]["place"], **span))
    thread.start()
    began = time.monotonic()
    while thread.is_alive():
        gives(client, "put", key="z", value="1")
    assert 2.9 < time.monotonic() - began < 10, "four places were stored in %.1f seconds" % (time.monotonic() - began)


def a_later_consumer_ends_an_earlier_one(ground: Ground) -> None:
    first, second = ground.client(), ground.client()
    gives(second, "put", key="a", value="1")
    raised: List[Any] = []
    thread = threading.Thread(target=lambda: raised.append(first.ask({"call": "consume", "name": "c", "stores": 9})))
    thread.start()
    while ground.consumer("c")["feed"] is None:  # else the first one may be the later one
        time.sleep(0.05)
    gives(second, "consume", name="c", stores=1)
    thread.join(20)
    assert raised and raised[0].get("raises") == "Outrun", raised


def a_server_that_was_killed(ground: Ground) -> None:
    """The next one has another database, which no write of an old client gets into."""
    client, other = ground.client(timeout=10), ground.client()
    gives(client, "put", key="a", value="1")
    place = gives(client, "feed", take=3)[-1]
    place = {"identity": place["identity"], "timestamp": place["resolved"]}
    ground.server.happen({"world": "restart"})
    # A read comes first, because what a write says into a connection of the killed server may have reached that.
    raises(client, "OtherDatabase", "get", key="a")
    raises(client, "OtherDatabase", "put", key="a", value="2")
    raises(client, "OtherDatabase", "feed", place=place, take=1)
    gives(other, "put", key="a", value="3")
    assert "reset" in gives(other, "feed", place=place, anew=True, take=1)[0]


def a_server_that_keeps_its_data(program: str, command: List[str]) -> None:
    """It is killed by kill -9 every few writes."""
    with tempfile.TemporaryDirectory() as folder, Ground(program, command, *keeping(folder)) as ground:
        goes_on(ground, ground.server.host, lambda: ground.server.happen({"world": "restart"}))


def servers_that_take_over(program: str, command: List[str]) -> None:
    """One of two has the data, until it is killed by kill -9, or freezes and is killed later. Then the other one has them."""
    with tempfile.TemporaryDirectory() as folder, Ground(program, command, *keeping(folder)) as ground:
        server, ports = ground.server, [ground.server.port(), free_port()]
        takes_over = threading.Timer(0, lambda: None)

        def end() -> None:
            nonlocal takes_over
            if takes_over.ident:
                takes_over.join()
            ports.reverse()
            is_frozen = ports[0] < ports[1]
            if is_frozen:
                server.child.send_signal(signal.SIGSTOP)
            takes_over = threading.Timer(4 if is_frozen else 0, server.move, [ports[0]])
            takes_over.start()

        goes_on(ground, ",http://".join("127.0.0.1:" + port for port in ports), end)
        takes_over.join()


def keeping(folder: str) -> Tuple[str, ...]:
    return "--data", os.path.join(folder, "data"), "--history", "60"


def goes_on(ground: Ground, hosts: str, end: Callable[[], None]) -> None:
    """A client, a feed and a consumer go on while the server is ended every few writes, and are told each change once."""
    writer, follower, consumer = (ground.client(hosts) for _ in range(3))
    gives(writer, "put", key="z", value="0")
    place = gives(follower, "feed", take=3)[-1]
    place = {"identity": place["identity"], "timestamp": place["resolved"]}
    stored = gives(consumer, "consume", name="c", stores=1)[0]["place"]
    told: List[Any] = []
    batches: List[Any] = []
    threads = [
        threading.Thread(target=lambda: told.extend(gives(follower, "feed", place=place, take=20))),
        threading.Thread(target=lambda: batches.extend(gives(consumer, "consume", name="c", place=stored, stores=8))),
    ]
    for thread in threads:
        thread.start()
    wrote = written_through_ends(writer, threads, end)
    for found in (told, [change for batch in batches for change in batch["changes"]]):
        found = [one for one in found if "key" in one]
        assert found and found == wrote[: len(found)], (found, wrote)
    assert gives(writer, "get", key="k0") == [one["value"] for one in wrote if one["key"] == "k0"][-1]


def written_through_ends(writer: Driver, threads: List[threading.Thread], end: Callable[[], None]) -> List[Dict[str, Any]]:
    """Writes as long as one of the threads waits for more, and ends the server behind every fifth write."""
    wrote: List[Dict[str, Any]] = []
    while any(thread.is_alive() for thread in threads) and len(wrote) < 200:
        key, value = "k%d" % (len(wrote) % 3), str(len(wrote))
        at = gives(writer, "put", key=key, value=value)
        wrote.append({"key": key, "value": value, "timestamp": at, "before": None})
        if len(wrote) % 5 == 0:
            end()
    return wrote


@contextlib.contextmanager
def another(ground: Ground) -> Iterator[Server]:
    """A second server, which has another database."""
    server = Server(ground.server.program, None)
    try:
        yield server
    finally:
        server.close()


def a_server_that_says_nothing(ground: Ground) -> None:
    """The first of two is frozen: it takes connections, and never answers. All goes by the other one."""
    calls: Dict[str, Dict[str, Any]] = {
        "put": {"key": "a", "value": "1"}, "feed": {"take": 3}, "consume": {"name": "c", "stores": 1},
    }
    with another(ground) as frozen:
        frozen.child.send_signal(signal.SIGSTOP)
        hosts = "%s,http://%s" % (frozen.host, ground.server.host)
        for call, arguments in calls.items():
            client, began = ground.client(hosts), time.monotonic()
            gives(client, call, **arguments)
            first, began = time.monotonic() - began, time.monotonic()
            assert gives(client, "get", key="a") == "1"
            later = time.monotonic() - began
            assert 1 < first < 15 and later < 2, (call, first, later)


def a_stream_that_falls_silent(ground: Ground) -> None:
    """Its server freezes, and the feed goes on at the next address, which has another database here."""
    with another(ground) as other:
        other.happen({"world": "put", "key": "a", "value": "1"})
        feed = ground.client("%s,http://%s" % (other.host, ground.server.host))
        told: List[Any] = []
        thread = threading.Thread(target=lambda: told.extend(gives(feed, "feed", anew=True, take=4)))
        thread.start()
        while metric(other, "ripsawbean_stream_messages_total") < 2:
            time.sleep(0.1)
        time.sleep(1)  # in which the feed takes them
        other.child.send_signal(signal.SIGSTOP)
        began = time.monotonic()
        thread.join(LONGEST)
        took = time.monotonic() - began
        assert ["reset" in one for one in told] == [True, False, False, True], told
        assert told[2]["identity"] == told[0]["identity"] != told[3]["identity"] and 10 < took < 40, (took, told)


def metric(server: Server, name: str) -> int:
    with contextlib.closing(server.connect()) as connection:
        connection.request("GET", "/metrics")
        lines = connection.getresponse().read().decode().splitlines()
    return next(int(line.split()[1]) for line in lines if line.startswith(name + " "))


def free_port() -> str:
    with socket.create_server(("127.0.0.1", 0)) as one:
        return str(one.getsockname()[1])


def nobody_there(ground: Ground) -> None:
    """What was never sent is known not to have happened, and what was sent and not answered isn't."""
    with socket.create_server(("127.0.0.1", 0)) as listener:
        host = "127.0.0.1:%d" % listener.getsockname()[1]
        raises(ground.client(host, timeout=1), "OutcomeUnknown", "put", key="a", value="1")
        raises(ground.client(host, timeout=1), "Unreachable", "get", key="a")
    raises(ground.client(host, timeout=1), "Unreachable", "put", key="a", value="1")


def counts_over_crashes(program: str, command: List[str]) -> None:
    """Four clients raise one count while the server, which keeps its data, is killed again and again. Each raise counts once."""
    with tempfile.TemporaryDirectory() as folder, Ground(program, command, "--data", os.path.join(folder, "data")) as ground:
        clients = [ground.client(timeout=60) for _ in range(4)]
        failures: List[BaseException] = []
        counted, kills = [0] * len(clients), [0]

        def work(which: int) -> None:
            try:
                gives(clients[which], "get", key="n")
                while counted[which] < 50 or kills[0] < 5:
                    gives(clients[which], "count", key="n")
                    counted[which] += 1
            except BaseException as why:
                failures.append(why)

        threads = [threading.Thread(target=work, args=(which,)) for which in range(len(clients))]
        for thread in threads:
            thread.start()
        dice = random.Random(4)
        while any(thread.is_alive() for thread in threads) and kills[0] < 200:
            time.sleep(dice.uniform(0.05, 0.3))
            ground.server.happen({"world": "restart"})
            kills[0] += 1
        for thread in threads:
            thread.join()
        assert not failures, failures
        found = gives(ground.client(), "get", key="n")
        assert found == str(sum(counted)), (found, counted)


def a_write_that_is_lost_with_its_server(ground: Ground) -> None:
    """It named no identity, and the next server may have another database. So it isn't sent to that one."""
    listener = socket.create_server(("127.0.0.1", 0))
    host = "127.0.0.1:%d" % listener.getsockname()[1]

    def end() -> None:
        client = listener.accept()[0]
        client.recv(1 << 16)
        listener.close()
        client.close()

    threading.Thread(target=end, daemon=True).start()
    began = time.monotonic()
    raises(ground.client(host, timeout=60), "OutcomeUnknown", "put", key="a", value="1")
    assert time.monotonic() - began < 40, "it was sent again and again"


def a_write_that_is_lost_before_another_database(ground: Ground) -> None:
    """It named its database, and another one answers when it is sent again. The first may have committed it."""
    listener = socket.create_server(("127.0.0.1", 0))
    host = "127.0.0.1:%d" % listener.getsockname()[1]

    def answer(identity: str, status: str, body: str) -> None:
        client = listener.accept()[0]
        while asked := client.recv(1 << 16):
            if not status:
                break
            head = "HTTP/1.1 %s\r\nRipsawbean-Identity: %s\r\nContent-Length: %d\r\n" % (status, identity, len(body))
            client.sendall((head + "Content-Type: application/json\r\nConnection: close\r\n\r\n" + body).encode())
            break
        client.close()

    def serve() -> None:
        answer("0f3a5b0c1d2e4f60", "404 Not Found", '{"error":"none","why":"the key has no value","timestamp":"1"}')
        answer("", "", "")
        answer("ffffffffffffffff", "412 Precondition Failed", '{"error":"identity","why":"this is another database"}')

    threading.Thread(target=serve, daemon=True).start()
    client = ground.client(host, timeout=60)
    assert gives(client, "get", key="a") is None
    raises(client, "OutcomeUnknown", "put", key="a", value="1")


def tls_and_token(program: str, command: List[str]) -> None:
    """Over TLS with a certificate that the client trusts, and with a token; without either nothing is served."""
    with tempfile.TemporaryDirectory() as folder:
        certificate, key, token = (os.path.join(folder, name) for name in ("certificate", "key", "token"))
        words = ["-newkey", "rsa:2048", "-nodes", "-days", "1", "-subj", "/CN=localhost",
                 "-addext", "subjectAltName=DNS:localhost", "-keyout", key, "-out", certificate]
        subprocess.run(["openssl", "req", "-x509", *words], check=True, capture_output=True)
        with open(token, "w") as file:
            file.write(TOKEN + "\n")
        trusts = {"SSL_CERT_FILE": certificate, "NODE_EXTRA_CA_CERTS": certificate}
        with Ground(program, command, "--token", token, "--tls-cert", certificate, "--tls-key", key) as ground:
            host = "localhost:" + ground.server.host.rpartition(":")[2]
            client = ground.client(host, "https", trusts, token=TOKEN)
            gives(client, "put", key="a", value="1")
            assert gives(client, "get", key="a") == "1"
            told = gives(client, "feed", take=3)
            assert "reset" in told[0] and told[1]["value"] == "1" and "resolved" in told[2], told
            raises(ground.client(host, "https", trusts, token="x" * 16), "Unauthorized", "get", key="a")
            raises(ground.client(host, "https", trusts), "Unauthorized", "put", key="a", value="2")
            raises(ground.client(host, "https", token=TOKEN, timeout=1), "Unreachable", "get", key="a")


TESTS: Tuple[Callable[[Ground], None], ...] = (
    counts_through_cuts, a_feed_through_cuts, a_snapshot_through_cuts, a_consumer_through_cuts, a_place_moves_at_rest,
    a_later_consumer_ends_an_earlier_one, a_server_that_was_killed, nobody_there, a_write_that_is_lost_with_its_server,
    a_write_that_is_lost_before_another_database, a_server_that_says_nothing, a_stream_that_falls_silent,
)


def live(program: str, command: List[str], only: str) -> Iterator[Tuple[str, List[str]]]:
    """Each test with its faults."""
    for test in TESTS:
        name = test.__name__.replace("_", " ")
        if only in name:
            with Ground(program, command, "--history", "60") as ground:
                yield name, faults_of(lambda: test(ground))
    for alone in (a_server_that_keeps_its_data, servers_that_take_over, counts_over_crashes, tls_and_token):
        name = alone.__name__.replace("_", " ")
        if only in name:
            yield name, faults_of(lambda: alone(program, command))


def faults_of(test: Callable[[], None]) -> List[str]:
    try:
        test()
    except (AssertionError, OSError, SystemExit) as why:
        return ["%s: %.1500s" % (type(why).__name__, why)]
    return []
