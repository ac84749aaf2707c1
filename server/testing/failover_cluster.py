"""Patroni over three etcd and two PostgreSQL, each on a machine of its own: part of `server/test failover`.

Patroni's settings are those of server/standby/patroni.yml, and what its unit does first is that of patroni.conf.
"""

import contextlib
import glob
import json
import os
import pwd
import re
import urllib.request
from typing import Any

import psycopg2
from failover_machines import Machine, Network, Part
from machine import TOP, Program, Room, wait_for

DATABASE = "dbname=postgres user=test connect_timeout=3 tcp_user_timeout=3000 keepalives_idle=2 keepalives_interval=1 keepalives_count=2"
SETTINGS, UNIT = (os.path.join(TOP, "server", "standby", name) for name in ("patroni.yml", "patroni.conf"))
HERE = """
scope: trial
name: {name}
etcd:
  hosts: {etcds}
restapi:
  listen: {at}:8008
  connect_address: {at}:8008
{settings}
  initdb: [{{encoding: UTF8}}, data-checksums]
  users:
    test:
      options: [superuser]
postgresql:
  listen: {at}:5432
  connect_address: {at}:5432
  data_dir: {data}
  bin_dir: {programs}
  pgpass: {data}.pass
  authentication:
    replication: {{username: replicator, password: x}}
    superuser: {{username: postgres, password: x}}
    rewind: {{username: rewinder, password: x}}
  parameters:
    unix_socket_directories: ""
    shared_buffers: 64MB
    fsync: "off"
  pg_hba:
  - host all all 10.77.0.0/24 trust
  - host all all 127.0.0.0/8 trust
  - host replication all 10.77.0.0/24 trust
  - host replication all 127.0.0.0/8 trust
watchdog:
  mode: "off"
"""


def before_patroni() -> str:
    """What its unit tells pg_ctl before it starts it, but for the place."""
    with open(UNIT) as file:
        return re.findall(r"(?m)^ExecStartPre=-\S+/pg_ctl (.*) -D \S+$", file.read())[0]


class Child(Part):
    """A program of one process, which stays away until it is started again."""

    def __init__(self, machine: Machine, program: Program):
        self.machine, self.program = machine, program

    def pids(self) -> list[int]:
        return [self.program.child.pid] if self.program.child else []

    def kill(self) -> None:
        self.program.kill()

    def start(self) -> None:
        if self.program.child is None or self.program.has_ended():
            self.program.start()


class Postgres(Part):
    """A PostgreSQL that Patroni has started, and starts again."""

    def __init__(self, machine: Machine, data: str):
        self.machine, self.data = machine, data

    def pids(self) -> list[int]:
        """Its first process and those below it, also where that one was killed and they are left."""
        found = []
        for folder in glob.glob("/proc/[0-9]*"):
            with contextlib.suppress(OSError):
                if os.readlink(folder + "/cwd") == self.data and os.readlink(folder + "/exe").endswith("/postgres"):
                    found.append(int(folder.rpartition("/")[2]))
        return found


class Cluster:
    def __init__(self, room: Room, network: Network):
        self.room = room
        self.etcds = {name: network.machine(name) for name in ("etcd1", "etcd2", "etcd3")}
        self.machines = {name: network.machine(name) for name in ("pg1", "pg2")}
        self.etcd = {name: Child(at, self.make_etcd(name)) for name, at in self.etcds.items()}
        self.patroni = {name: Child(at, self.make_patroni(name)) for name, at in self.machines.items()}
        self.postgres = {name: Postgres(at, self.data(name)) for name, at in self.machines.items()}

    def addresses(self) -> list[str]:
        return [one.address for one in self.machines.values()]

    def data(self, name: str) -> str:
        return self.room.file(name)

    def make_etcd(self, name: str) -> Program:
        at = "http://%s" % self.etcds[name].address
        peers = ",".join("%s=http://%s:2380" % (one, it.address) for one, it in self.etcds.items())
        words = ["--name", name, "--data-dir", self.room.file(name), "--initial-cluster", peers, "--listen-client-urls",
                 at + ":2379", "--advertise-client-urls", at + ":2379", "--listen-peer-urls", at + ":2380",
                 "--initial-advertise-peer-urls", at + ":2380", "--enable-v2",
                 # A machine that is busy with other things is no fault.
                 "--heartbeat-interval", "300", "--election-timeout", "3000"]
        return Program(self.room.path, name, [*self.etcds[name].inside, "etcd", *words])

    def make_patroni(self, name: str) -> Program:
        with open(SETTINGS) as file:
            settings = re.sub(r"(?m)^#.*\n", "", file.read()).strip("\n")
        programs = sorted(glob.glob("/usr/lib/postgresql/*/bin"))[-1]
        etcds = json.dumps(["%s:2379" % one.address for one in self.etcds.values()])
        path, at, user = self.room.file(name + ".yml"), self.machines[name], pwd.getpwnam("postgres")
        with open(path, "w") as file:
            file.write(HERE.format(name=name, at=at.address, etcds=etcds, settings=settings, data=self.data(name), programs=programs))
        who = ["setpriv", "--reuid=postgres", "--regid=postgres", "--init-groups"]
        os.chown(self.room.path, user.pw_uid, user.pw_gid)
        first = "%s/pg_ctl %s -D %s" % (programs, before_patroni(), self.data(name))
        words = [*at.inside, *who, "sh", "-c", first + "; exec /usr/bin/python3 /usr/bin/patroni " + path]
        return Program(self.room.path, "patroni-" + name, words, cwd="/", env={**os.environ, "PYTHONPATH": ""})

    def start(self) -> None:
        for one in self.etcd.values():
            one.start()
        self.patroni["pg1"].start()
        wait_for(lambda: self.roles().get("pg1") == "leader", "the first PostgreSQL")
        self.patroni["pg2"].start()
        wait_for(self.is_whole, "the replica")

    def roles(self) -> dict[str, str]:
        """Of each PostgreSQL that runs, as Patroni has it."""
        for one in self.machines.values():
            with contextlib.suppress(OSError, ValueError, KeyError):
                with urllib.request.urlopen("http://%s:8008/cluster" % one.address, timeout=1) as answer:
                    members: list[dict[str, Any]] = json.load(answer)["members"]
                return {it["name"]: it["role"] for it in members if it["state"] in ("running", "streaming")}
        return {}

    def is_whole(self) -> bool:
        """There is a primary, and a replica without which it acknowledges nothing, by what both say."""
        roles = {role: name for name, role in self.roles().items()}
        if sorted(roles) != ["leader", "sync_standby"]:
            return False
        with contextlib.suppress(psycopg2.Error):
            return self.ask(roles["leader"], "SELECT sync_state FROM pg_stat_replication") == [("sync",)]
        return False

    def primary(self) -> str:
        return wait_for(lambda: next((name for name, role in self.roles().items() if role == "leader"), None), "a primary")

    def switch_over(self, primary: str, replica: str) -> None:
        """As `patronictl switchover` asks for it. It is answered once that is done."""
        asked = urllib.request.Request("http://%s:8008/switchover" % self.machines[primary].address, method="POST",
                                       data=json.dumps({"leader": primary, "candidate": replica}).encode())
        urllib.request.urlopen(asked, timeout=60).close()

    def ask(self, name: str, words: str) -> list[tuple[Any, ...]]:
        """What an operator is told by one PostgreSQL."""
        link = psycopg2.connect("host=%s %s" % (self.machines[name].address, DATABASE))
        with contextlib.closing(link):
            link.autocommit = True
            with link.cursor() as cursor:
                cursor.execute(words)
                return cursor.fetchall() if cursor.description else []
