"""The clients' side: a server is asked what the records ask, and has to answer what they have.

Each case has a server of its own, with an empty database. Timestamps and identities are others there, so a recorded one
stands for the one that came in its place: always the same, and in the same order. Why-sentences are free, and resolved
messages may be fewer or more, as long as the last one comes.
"""

from __future__ import annotations

import contextlib
import http.client
import json
import os
import re
import socket
import subprocess
import tempfile
import time
from typing import Any, Dict, Iterator, List, Optional, Tuple
from urllib.parse import quote

from fake import body_of
from records import Case, path_and_query

LONGEST = 30.0
# Members, arguments and headers that have a timestamp, and those that have an identity.
TIMESTAMPS = frozenset("timestamp version updated resolved closed horizon stored by from at unchanged etag "
                       "ripsawbean-timestamp ripsawbean-from".split())
IDENTITIES = frozenset(("identity", "ripsawbean-identity"))
FREE = frozenset(("why",))
SETTLED = 0.1  # seconds in which what was committed is closed


class Different(Exception):
    pass


class Names:
    """What a recorded timestamp or identity stands for."""

    def __init__(self) -> None:
        self.time_of: Dict[int, int] = {0: 0}
        self.identity_of: Dict[str, str] = {}

    def bind(self, name: str, recorded: str, actual: str) -> None:
        if name in IDENTITIES:
            if self.identity_of.setdefault(recorded, actual) != actual:
                raise Different("the identity %s, and not %s" % (actual, self.identity_of[recorded]))
            return
        one, other = int(recorded.strip('"')), int(actual.strip('"'))
        if self.time_of.setdefault(one, other) != other:
            raise Different("%s %d, and not %d (%d)" % (name, other, self.time_of[one], one))
        for was, stands_for in self.time_of.items():
            if (one < was) != (other < stands_for):
                raise Different("%s %d beside %d, and not %d beside %d" % (name, other, stands_for, one, was))

    def actual(self, name: str, recorded: str) -> str:
        """What is to be asked: one that nobody told yet is just below one that was told, or as it stands."""
        if name in IDENTITIES:
            return self.identity_of.get(recorded, recorded)
        if name not in TIMESTAMPS or not recorded.isdigit():
            return recorded
        at = int(recorded)
        below = self.time_of[at + 1] - 1 if at + 1 in self.time_of else at
        return str(self.time_of.get(at, below))

    def request(self, name: str, part: Any) -> Any:
        """A recorded part of a request, as it is to be asked."""
        if isinstance(part, dict):
            return {inner: self.request(inner, one) for inner, one in part.items()}
        if isinstance(part, list):
            return [self.request(name, one) for one in part]
        return self.actual(name, part) if isinstance(part, str) else part

    def target(self, recorded: str) -> str:
        path, _, query = recorded.partition("?")
        pairs = [part.partition("=") for part in query.split("&") if part]
        asked = "&".join(name + "=" + (self.actual(name, value) if name in TIMESTAMPS | IDENTITIES else value)
                         for name, _, value in pairs)
        return path + ("?" + asked if asked else "")

    def same(self, name: str, recorded: Any, actual: Any) -> None:
        """Raises where an answer's part isn't the recorded one."""
        if name in FREE and isinstance(actual, str):
            return
        if name == "next" and isinstance(recorded, str) and isinstance(actual, str):
            return self.same_next(recorded, actual)
        if isinstance(recorded, dict) and isinstance(actual, dict):
            if set(recorded) - set(actual):
                raise Different("%s without %s" % (json.dumps(actual), ", ".join(set(recorded) - set(actual))))
            for inner, one in recorded.items():
                self.same(inner, one, actual[inner])
        elif isinstance(recorded, list) and isinstance(actual, list) and len(recorded) == len(actual):
            for one, other in zip(recorded, actual):
                self.same(name, one, other)
        elif name in TIMESTAMPS | IDENTITIES and isinstance(recorded, str) and isinstance(actual, str):
            self.bind(name, recorded, actual)
        elif recorded != actual:
            raise Different("%s %s, and not %s" % (name, json.dumps(actual), json.dumps(recorded)))

    def same_next(self, recorded: str, actual: str) -> None:
        wanted, told = path_and_query(recorded), path_and_query(actual)
        if wanted[0] != told[0] or not {name for name, _ in wanted[1]} <= {name for name, _ in told[1]}:
            raise Different("next %s, and not %s" % (actual, recorded))
        for name, value in wanted[1]:
            other = dict(told[1])[name]
            if name == "at":
                self.bind(name, value.decode(), other.decode())
            elif value != other:
                raise Different("next %s, and not %s" % (actual, recorded))


class Server:
    """A server that is started anew for each case."""

    def __init__(self, program: str, token: Optional[str], *words: str):
        self.program, self.token = program, token
        self.words = [*words]
        self.held: List[socket.socket] = []
        if token:
            self.file = tempfile.NamedTemporaryFile("w")
            self.file.write(token + "\n")
            self.file.flush()
            self.words += ["--token", self.file.name]
        self.start("0")

    def start(self, port: str) -> None:
        words = [self.program, "--port", port, "--log-level", "error", *self.words]
        self.child = subprocess.Popen(words, stdout=subprocess.PIPE, text=True)
        assert self.child.stdout
        self.host = self.child.stdout.readline().strip().rpartition("//")[2]
        if not self.host:
            raise SystemExit("the server has ended: %s" % " ".join(words))

    def close(self) -> None:
        for one in self.held:
            one.close()
        self.child.kill()
        self.child.wait()
        assert self.child.stdout
        self.child.stdout.close()

    def port(self) -> str:
        return self.host.rpartition(":")[2]

    def move(self, port: str) -> None:
        """It is killed by kill -9, and the next one has this port."""
        self.close()
        self.start(port)

    def happen(self, line: Dict[str, Any]) -> None:
        """What the world does."""
        if line["world"] == "restart":
            self.move(self.port())
        elif line["world"] == "put":
            with contextlib.closing(self.connect()) as other:
                other.request("PUT", "/key/" + quote(line["key"], safe=""), line["value"].encode(), self.shown())
                other.getresponse().read()
        elif line["world"] == "hold":
            self.held.append(undecided(self.host, line["key"]))
        else:
            self.held.pop().close()
        time.sleep(SETTLED)

    def shown(self) -> Dict[str, str]:
        return {"Authorization": "Bearer " + self.token} if self.token else {}

    def connect(self) -> http.client.HTTPConnection:
        return http.client.HTTPConnection(self.host, timeout=LONGEST)


def undecided(host: str, key: str) -> socket.socket:
    """A session by WebSocket that has written a key, and doesn't commit."""
    address, _, port = host.rpartition(":")
    one = socket.create_connection((address, int(port)), timeout=LONGEST)
    one.sendall(b"GET /session HTTP/1.1\r\nHost: %s\r\nConnection: Upgrade\r\nUpgrade: websocket\r\nSec-WebSocket-Version: 13"
                b"\r\nSec-WebSocket-Key: MDEyMzQ1Njc4OWFiY2RlZg==\r\n\r\n" % host.encode())
    told = one.recv(4096)
    lines = b"begin\nput . %s held\n" % key.encode()
    one.sendall(bytes((0x81, 0x80 | len(lines), 0, 0, 0, 0)) + lines)
    while b"=> written" not in told:
        told += one.recv(4096)
    return one


def faults_of(server: Server, case: Case) -> Iterator[str]:
    names = Names()
    keys: Dict[str, str] = {}
    stream: Optional[Stream] = None
    for line in case.lines:
        try:
            if "world" in line:
                server.happen(line)
            elif "ask" in line:
                if stream is not None and "stream" in line:
                    yield from stream.faults(names)
                    stream = None
                if "stream" in line:
                    stream = Stream(server, names, line)
                else:
                    ask(server, names, keys, line)
        except (Different, OSError, http.client.HTTPException, KeyError) as why:
            yield "%s: %s: %s" % (line.get("ask") or line, type(why).__name__, why)
            return
    if stream is not None:
        yield from stream.faults(names)


def headers_of(names: Names, keys: Dict[str, str], line: Dict[str, Any]) -> Dict[str, str]:
    headers = {name: names.actual(name.lower(), value) for name, value in line.get("headers", {}).items()}
    if "Idempotency-Key" in headers:
        headers["Idempotency-Key"] = keys.setdefault(headers["Idempotency-Key"], os.urandom(8).hex())
    return headers


def ask(server: Server, names: Names, keys: Dict[str, str], line: Dict[str, Any]) -> None:
    method, _, target = line["ask"].partition(" ")
    body = json.dumps(names.request("", line["body"])).encode() if "body" in line else None
    with contextlib.closing(server.connect()) as connection:
        connection.request(method, names.target(target), body, headers_of(names, keys, line))
        reply = connection.getresponse()
        data = reply.read()
    time.sleep(SETTLED if method != "GET" else 0)
    if "lost" in line:
        return
    if reply.status != line["status"]:
        raise Different("%d %r, and not %d" % (reply.status, data[:300], line["status"]))
    check_headers(names, line, reply.headers)
    if "answer" in line:
        names.same("", line["answer"], json.loads(data.decode()))
    elif data != body_of(line):
        raise Different("%r, and not %r" % (data, body_of(line)))


def check_headers(names: Names, line: Dict[str, Any], headers: Any) -> None:
    for name, value in line.get("says", {}).items():
        if headers.get(name) is None:
            raise Different("no header %s" % name)
        if name != "Retry-After":
            names.same(name.lower(), value, headers[name])


class Stream:
    """A stream that is open while other requests are asked. Its lines are compared at its end."""

    def __init__(self, server: Server, names: Names, line: Dict[str, Any]):
        self.line, self.connection = line, server.connect()
        target = names.target(line["ask"].partition(" ")[2])
        self.connection.request("GET", target, headers=headers_of(names, {}, line))
        self.reply = self.connection.getresponse()
        if self.reply.status != line["status"]:
            raise Different("%d %r, and not %d" % (self.reply.status, self.reply.read()[:300], line["status"]))
        check_headers(names, line, self.reply.headers)

    def faults(self, names: Names) -> Iterator[str]:
        try:
            self.compare(names)
        except (Different, OSError, http.client.HTTPException, KeyError) as why:
            yield "%s: %s: %s" % (self.line["ask"], type(why).__name__, why)
        self.connection.close()

    def compare(self, names: Names) -> None:
        recorded = [line for line in self.line["stream"] if line and "pause" not in line]
        rows = [line for line in recorded if "resolved" not in line]
        told: List[Any] = []
        while len(told) < len(rows):
            told += [line for line in [self.message()] if "resolved" not in line]
        names.same("", rows, told)
        if recorded and "resolved" in recorded[-1]:
            message = self.message()
            while "resolved" in message and message["resolved"] != names.actual("resolved", recorded[-1]["resolved"]):
                message = self.message()
            names.same("", recorded[-1], message)

    def message(self) -> Any:
        line = b"\n"
        while line == b"\n":
            line = self.reply.readline()
        if not line.endswith(b"\n"):
            raise Different("the stream ends")
        return json.loads(line)


def check(program: str, cases: List[Case]) -> Iterator[Tuple[Case, List[str]]]:
    for case in cases:
        server = Server(program, case.options.get("token"))
        try:
            yield case, list(faults_of(server, case))
        finally:
            server.close()
