"""Two servers over the replicated PostgreSQL, and one address before them: part of `server/test failover`.

The address is that of haproxy, by server/standby/haproxy.cfg, and also one that keepalived moves, by keepalived.conf.
What runs on the loopback of the test gets to haproxy by a door of its own, which shows the token.
"""

import contextlib
import http.client
import json
import os
import signal
import threading
import time

from correct_keyed import ASKED_AGAIN
from failover_cluster import Cluster
from failover_machines import Machine, Network, Part, tree_of
from machine import LONGEST, SERVER, TOP, Program, Room, Server, free_port, wait_for

TOKEN = "a-token-of-the-failover-trial"
PORT = 7077
FILES = os.path.join(TOP, "server", "standby")
SHARED = "10.77.0.10"
FRONTS = ("haproxy", "keepalived")
DOOR = """
frontend door
    mode http
    timeout client 75s
    bind 127.0.0.1:%d
    http-request set-header Authorization "Bearer %s"
    default_backend ripsawbean
"""


class Served(Part):
    """A server, which is started again a second after its end, as its unit does."""

    def __init__(self, room: Room, machine: Machine, *options: str):
        self.machine, self.is_over = machine, False
        self.starts: list[float] = []  # by the clock of all processes of this machine
        self.host = "%s:%d" % (machine.address, PORT)
        at = "0.0.0.0" if machine.network.is_real else machine.address
        words = ["--address", at, "--port", str(PORT), "--token", room.file("token"), "--host", self.host, *options]
        self.program = Program(room.path, "server-" + machine.name, [*machine.inside, SERVER, *words],
                               env={**os.environ, "MALLOC_ARENA_MAX": "1"})
        self.thread = threading.Thread(target=self.run, daemon=True)

    def run(self) -> None:
        while not self.is_over:
            self.starts.append(time.monotonic())
            self.program.start()
            self.program.child.wait()
            with open(self.program.log, "a") as log:
                log.write("-- %.2f: its status is %s\n" % (time.monotonic(), self.program.child.returncode))
            time.sleep(1)

    def pids(self) -> list[int]:
        return tree_of(self.program.child.pid)

    def status(self) -> int:
        """What /healthz says, or 0."""
        connection = http.client.HTTPConnection(self.host, timeout=1)
        try:
            connection.request("GET", "/healthz")
            return connection.getresponse().status
        except (OSError, http.client.HTTPException):
            return 0
        finally:
            connection.close()

    def end(self) -> None:
        self.is_over = True
        with contextlib.suppress(ProcessLookupError):
            self.program.child.send_signal(signal.SIGKILL)


def text_of(name: str, machines: list[Machine]) -> str:
    """A file as it stands, but for its addresses."""
    with open(os.path.join(FILES, name)) as file:
        text = file.read()
    for number, one in enumerate(machines, 11):
        text = text.replace("192.0.2.%d" % number, one.address)
    return text.replace("192.0.2.10", SHARED)


class Pair(Server):
    """As one server behind one address, to those who use it."""

    def __init__(self, room: Room, of_first: tuple[str, ...], *options: str):
        self.port, self.shown, self.identity = free_port(), {}, ""
        self.url, self.room = "http://127.0.0.1:%d" % self.port, room
        self.network = Network()
        self.cluster = Cluster(room, self.network)
        with open(room.file("token"), "w") as file:
            file.write(TOKEN + "\n")
        data = "postgresql://test@%s/postgres?target_session_attrs=read-write" % ",".join(self.cluster.addresses())
        machines = [self.network.machine(name) for name in ("one", "two")]
        names = ("--host", "127.0.0.1:%d" % self.port, "--host", "%s:%d" % (SHARED, PORT))
        words = ("--data", data, *names, *options)
        self.servers = {it.name: Served(room, it, *words, *more) for it, more in zip(machines, (of_first, ()))}
        # Machines that are addresses of loopback leave it no port of its own.
        self.own = "bind :7077" if self.network.is_real else "bind 127.0.0.1:%d" % free_port()
        self.front = Program(room.path, "haproxy", ["haproxy", "-db", "-f", self.configured("haproxy.cfg"), "-f", room.file("door")])
        with open(room.file("door"), "w") as file:
            file.write(DOOR % (self.port, TOKEN))
        self.movers = [self.mover(it) for it in machines] if self.network.is_real else []
        self.hosts = [one.host for one in self.servers.values()]
        hosts = ["127.0.0.1:%d" % self.port, "%s:%d" % (SHARED, PORT)]
        self.fronts = dict(zip(FRONTS, hosts if self.movers else hosts[:1]))

    def configured(self, name: str, *swapped: str) -> str:
        machines = [one.machine for one in self.servers.values()]
        path = self.room.file(name + "".join(swapped))
        with open(path, "w") as file:
            file.write(text_of(name, machines if not swapped else machines[::-1]).replace("bind :7077", self.own))
        return path

    def mover(self, machine: Machine) -> Program:
        """keepalived of a machine. The second one's file has the two addresses the other way round."""
        path = self.configured("keepalived.conf", *("2" for _ in [0] if machine.name == "two"))
        words = ["keepalived", "-n", "-l", "-f", path, "-p", path + ".pid", "-r", path + ".vrrp"]
        return Program(self.room.path, "keepalived-" + machine.name, [*machine.inside, *words])

    def start(self) -> None:
        self.cluster.start()
        for program in (self.front, *self.movers):
            program.start()
        for one in self.servers.values():
            one.thread.start()
            self.identity = wait_for(self.told_identity, "a server")

    def ask(self, method: str, path: str, body: bytes | None = None, headers: dict[str, str] = {}) -> tuple[int, str]:
        """A proxy may find no server for a moment."""
        end = time.monotonic() + LONGEST
        while True:
            with contextlib.suppress(OSError, http.client.HTTPException):
                status, text = super().ask(method, path, body, headers)
                if status not in ASKED_AGAIN or time.monotonic() > end:
                    return status, text
            if time.monotonic() > end:
                raise TimeoutError("%s %s: no answer in %d seconds" % (method, path, LONGEST))
            time.sleep(0.1)

    def told_identity(self) -> str | None:
        with contextlib.suppress(OSError, ValueError, KeyError, http.client.HTTPException):
            told: str = json.loads(self.ask("GET", "/consumer/nobody")[1])["identity"]
            return told
        return None

    def owner(self) -> str | None:
        """Which server answers."""
        return next((name for name, one in self.servers.items() if one.status() == 200), None)

    def kill(self, number: int = signal.SIGKILL) -> None:
        for one in self.servers.values():
            one.end()
        for program in (self.front, *self.movers):
            program.kill()
        for part in (*self.cluster.patroni.values(), *self.cluster.postgres.values(), *self.cluster.etcd.values()):
            part.kill()
        self.network.end()

    def words(self) -> str:
        return "".join(one.program.words() for one in self.servers.values())

    def tail(self) -> str:
        return "\n        ".join(one.program.tail() for one in self.servers.values())
