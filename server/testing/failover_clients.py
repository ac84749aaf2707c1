"""Clients that know both servers' addresses, in each language, by the drivers of clients/kit: part of `server/test
failover`.

Each raises a count of its own, whose answer has to be the number behind the last one: so a request whose answer was lost
was asked again by its key, also of the other server, and done once. And each follows all counts as a consumer, which
has to be told each row once.
"""

import os
import subprocess
import sys
import threading
import time
from typing import Any

from failover_pair import TOKEN, Pair
from machine import TOP

CLIENTS = os.path.join(TOP, "clients")
sys.path.append(os.path.join(CLIENTS, "kit"))
from driver import Driver  # noqa: E402

LO, HI = "client/", "client0"
LONGEST = 110  # seconds that a call may take, over a change of servers


def commands(folder: str) -> dict[str, list[str]]:
    """A driver of each language. That of Go is built."""
    go = os.path.join(folder, "go-driver")
    more = {"GOCACHE": os.path.join(folder, "go-cache"), "GOFLAGS": "-mod=mod"}
    subprocess.run(["go", "build", "-o", go, "./driver"], cwd=os.path.join(CLIENTS, "go"), env={**os.environ, **more}, check=True)
    python = [sys.executable, os.path.join(CLIENTS, "python", "tests", "driver.py")]
    return {"Python": python, "asyncio": [*python, "aio"], "Go": [go],
            "JavaScript": ["node", os.path.join(CLIENTS, "javascript", "tests", "driver.js")]}


class Worker(threading.Thread):
    """A driver, and what it does until it is over."""

    def __init__(self, pair: Pair, name: str, command: list[str], faults: list[str]):
        super().__init__(daemon=True)
        self.name, self.faults, self.is_over = name, faults, False
        self.driver = Driver(command)
        hosts = ",".join("http://" + host for host in pair.hosts)
        self.driver.tell({"connect": hosts, "token": TOKEN, "timeout": LONGEST})

    def gives(self, call: str, **arguments: Any) -> Any:
        told = self.driver.ask({"call": call, **arguments})
        if "gives" not in told:
            raise ValueError("%s was told %s" % (call, told))
        return told["gives"]

    def run(self) -> None:
        try:
            while not self.is_over:
                self.work()
        except (OSError, ValueError, SystemExit) as why:
            if not self.is_over:
                self.faults.append("the client %s: %s" % (self.name, why))

    def work(self) -> None:
        raise NotImplementedError

    def end(self) -> None:
        self.is_over = True
        self.driver.child.kill()


class Counter(Worker):
    last = 0

    def work(self) -> None:
        found = int(self.gives("count", key=LO + self.name))
        if found != self.last + 1:
            self.faults.append("the client %s: its count is %d behind %d" % (self.name, found, self.last))
        self.last = found
        time.sleep(0.05)


class Follower(Worker):
    def __init__(self, *given: Any):
        super().__init__(*given)
        self.place: Any = None
        self.rows: dict[str, str] = {}
        self.told: dict[str, int] = {}  # the last timestamp of each key
        self.changes = 0

    def work(self) -> None:
        for batch in self.gives("consume", name="client-" + self.name, lo=LO, hi=HI, place=self.place, stores=2):
            if batch["was"] != self.place:
                self.faults.append("the consumer %s: %s behind %s" % (self.name, batch["was"], self.place))
            if batch["reset"] and self.place:
                self.faults.append("the consumer %s began anew" % self.name)
            for change in batch["changes"]:
                self.take(change["key"], change["value"], int(change["timestamp"]))
            self.place = batch["place"]

    def take(self, key: str, value: str, timestamp: int) -> None:
        if timestamp <= self.told.get(key, 0):
            self.faults.append("the consumer %s was told %s at %d behind %d" % (self.name, key, timestamp, self.told[key]))
        self.rows[key], self.told[key] = value, timestamp
        self.changes += 1


class Clients:
    def __init__(self, pair: Pair, folder: str):
        self.faults: list[str] = []
        self.pair, found = pair, commands(folder)
        self.counters = [Counter(pair, name, command, self.faults) for name, command in found.items()]
        self.followers = [Follower(pair, name, command, self.faults) for name, command in found.items()]
        for one in (*self.counters, *self.followers):
            one.start()

    def settle(self) -> list[str]:
        """All count, and follow, to the end. Gives what wasn't right."""
        for counter in self.counters:
            counter.is_over = True
            counter.join(LONGEST)
            counter.end()
        wanted = {LO + one.name: str(one.last) for one in self.counters}
        end = time.monotonic() + LONGEST
        while any(one.rows != wanted for one in self.followers) and time.monotonic() < end:
            time.sleep(0.2)
        for follower in self.followers:
            follower.end()
            if follower.rows != wanted:
                self.faults.append("the consumer %s has %s, and not %s" % (follower.name, follower.rows, wanted))
        return self.faults

    def told(self) -> str:
        return "clients of both addresses counted to %s, and consumers were told %s changes" % (
            {one.name: one.last for one in self.counters}, {one.name: one.changes for one in self.followers})
