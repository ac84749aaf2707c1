"""One client that takes whatever it gets: taker.py KIND PORT TOKEN works until it is killed, and asks from 127.0.0.2.

It writes `ready` once it has asked for all of it. Each KIND of `KINDS` has so many connections, and what each asks again
and again, behind the answer to what it asked before. What is refused is asked again.
"""

import dataclasses
import json
import pathlib
import selectors
import socket
import sys
import time
from collections.abc import Callable

sys.path.append(str(pathlib.Path(__file__).resolve().parent.parent / "testing"))
from handmade import Session  # noqa: E402

HOME = "127.0.0.2"
HOLDER = "sessions of which one has always begun"
HOLDS = 5.0  # seconds for which each has begun
SOON = 0.02  # seconds until a connection that was cut comes again
ROWS = "lo=k&hi=l"
KEYS = ["k%06d" % at for at in range(700)]


def request(method: str, path: str, body: str = "", more: str = "") -> bytes:
    head = "%s %s HTTP/1.1\r\nHost: localhost:%d\r\nAuthorization: Bearer %s\r\n%s" % (method, path, PORT, TOKEN, more)
    length = "Content-Length: %d\r\n" % len(body) if body else ""
    return (head + length + "\r\n" + body).encode()


def transaction(steps: object, more: str = "") -> bytes:
    return request("POST", "/transact", json.dumps(steps), more)


@dataclasses.dataclass(frozen=True)
class Kind:
    """What is asked, by the number of the connection and of the request."""

    connections: int
    ask: Callable[[int, int], bytes]
    most: int = 1 << 30  # bytes of an answer behind which it is left, and asked for anew
    reads: bool = True  # whether it reads answers


def keyed(connection: int, number: int) -> bytes:
    scan = {"then": [{"scan": ["k", "l"], "limit": 6000}]}
    return transaction(scan, "Idempotency-Key: %d.%d.%d\r\n" % (time.monotonic_ns(), connection, number))


KINDS = {
    "transactions of 700 gets": Kind(380, lambda *_: transaction({"then": [{"get": key} for key in KEYS]})),
    "transactions of 700 conditions": Kind(380, lambda *_: transaction({"if": [{"key": key, "absent": False} for key in KEYS]})),
    "pages of 1000 rows": Kind(47, lambda *_: request("GET", "/rows?%s&limit=1000" % ROWS)),
    "calls that scan": Kind(47, lambda *_: request("POST", "/call", "begin\nscan . k k000900\nabort .\n")),
    "feeds opened anew": Kind(180, lambda *_: request("GET", "/feed?" + ROWS), most=400_000),
    "transactions of 30,000 rows": Kind(62, lambda *_: transaction({"then": [{"scan": ["k", "l"], "limit": 10_000}] * 3})),
    "answers that aren't read": Kind(70, lambda *_: request("GET", "/rows?%s&limit=5000" % ROWS), reads=False),
    "long reads with keys": Kind(40, keyed),
    "reports of all that holds": Kind(380, lambda *_: request("GET", "/holders")),
    "small reads": Kind(560, lambda *_: request("GET", "/key/k000001")),
}


class Asker:
    """A connection that asks, and leaves what is answered."""

    def __init__(self, kind: Kind, number: int, chosen: selectors.BaseSelector):
        self.kind, self.number, self.chosen = kind, number, chosen
        self.asked, self.at, self.socket = 0, 0.0, None
        self.comes()

    def comes(self) -> None:
        self.socket = socket.create_connection(("127.0.0.1", PORT), source_address=(HOME, 0))
        self.socket.setsockopt(socket.IPPROTO_TCP, socket.TCP_NODELAY, 1)
        if self.kind.reads:
            self.chosen.register(self.socket, selectors.EVENT_READ, self)
        self.asks()

    def asks(self) -> None:
        self.head, self.left, self.had = b"", -1, 0
        self.asked += 1
        self.socket.setblocking(True)
        self.socket.sendall(self.kind.ask(self.number, self.asked))
        self.socket.setblocking(False)

    def goes(self) -> None:
        self.chosen.unregister(self.socket)
        self.socket.close()
        self.socket, self.at = None, time.monotonic() + SOON

    def reads(self) -> None:
        """Reads what has come. Behind a whole answer it asks again."""
        try:
            data = self.socket.recv(1 << 18)
        except OSError:
            data = b""
        self.had += len(data)
        if not data or self.had > self.kind.most:
            return self.goes()
        if self.left < 0:
            self.head += data
            head, mark, data = self.head.partition(b"\r\n\r\n")
            if not mark:
                return None
            length = next((line for line in head.lower().split(b"\r\n") if line.startswith(b"content-length:")), None)
            self.left = int(length.split(b":")[1]) if length else 1 << 60
        self.left -= len(data)
        if self.left == 0:
            try:
                self.asks()
            except OSError:
                self.goes()
        return None


def holds_closed() -> None:
    """Two sessions, of which one has always begun."""
    one, other = Session(PORT, TOKEN), Session(PORT, TOKEN)
    print("ready", flush=True)
    while True:
        one.call("begin\n")
        other.call("abort .\n")
        time.sleep(HOLDS)
        one, other = other, one


def main(kind: Kind) -> None:
    chosen = selectors.DefaultSelector()
    askers = [Asker(kind, number, chosen) for number in range(kind.connections)]
    print("ready", flush=True)
    while True:
        for key, _ in chosen.select(0.05):
            key.data.reads()
        for one in askers:
            if one.socket is None and time.monotonic() > one.at:
                try:
                    one.comes()
                except OSError:
                    one.at = time.monotonic() + SOON


if __name__ == "__main__":
    PORT, TOKEN = int(sys.argv[2]), sys.argv[3]
    if sys.argv[1] == HOLDER:
        holds_closed()
    else:
        main(KINDS[sys.argv[1]])
