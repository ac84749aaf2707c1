"""The client for programs with threads, which may share one. It needs nothing but Python."""

from __future__ import annotations

import http.client
import ssl
import time
from collections import deque
from typing import Any, Callable, Deque, Generator, Iterator, List, NoReturn, Optional, Tuple, TypeVar, Union, cast

from . import values
from .addresses import CONNECTING, Address
from .core import PAGE, Answer, Core, Effect, Follow, Pause, Read, Run, Running, Send, Steps, Tell, TransactionCore
from .errors import Lost
from .feeds import Consumer, Feed
from .values import Batch, Condition, Done, Message, Page, Place, Row, Step, Text

T = TypeVar("T")
FRESH = 5.0  # seconds for which an idle connection is used again: the server ends it a little later
FAILURES = (OSError, http.client.HTTPException)


class Transaction(TransactionCore):
    """What `transact` gives to its work."""

    def __init__(self, client: "Client"):
        super().__init__(client)
        self._client = client

    def get(self, key: Text) -> Optional[bytes]:
        return self._client._run(self._get(key))

    def scan(self, lo: Optional[Text] = None, hi: Optional[Text] = None) -> List[Row]:
        return self._client._run(self._scan(lo, hi))


class Client(Core):
    """See `connect`."""

    def __init__(self, url: str, token: Optional[str] = None, timeout: float = 20.0, identity: Optional[str] = None,
                 context: Optional[ssl.SSLContext] = None):
        super().__init__(url, token, timeout, identity)
        is_secure = any(address.scheme == "https" for address in self.addresses.all)
        self._context = context or (ssl.create_default_context() if is_secure else None)
        self._idle: Deque[Tuple[float, Address, http.client.HTTPConnection]] = deque()

    def __enter__(self) -> "Client":
        return self

    def __exit__(self, *_: object) -> None:
        self.close()

    def close(self) -> None:
        """Closes the idle connections. Later calls open new ones."""
        while self._idle:
            self._idle.pop()[2].close()

    # ---- calls

    def get(self, key: Text, at: Optional[int] = None) -> Optional[bytes]:
        """The value of a key, now or at a timestamp, or None where it is absent."""
        return self.row(key, at).value

    def row(self, key: Text, at: Optional[int] = None) -> Row:
        """The key with its value and version."""
        return self._run(self._read(key, at))[1]

    def put(self, key: Text, value: Text, if_: Optional[Condition] = None) -> int:
        """Writes a value, where a condition holds if there is one. The timestamp is the row's version."""
        return self._run(self._write(values.put(key, value), if_))

    def delete(self, key: Text, if_: Optional[Condition] = None) -> int:
        return self._run(self._write(values.delete(key), if_))

    def txn(self, then: List[Step], if_: Optional[List[Condition]] = None, else_: Optional[List[Step]] = None) -> Done:
        """One transaction: `then` where all conditions hold, else `else_`. Without that it raises ConditionFailed."""
        return self._run(self._txn(then, if_ or [], else_))

    def transact(self, work: Callable[[Transaction], T]) -> T:
        """Runs `work(transaction)`, anew until what it has read is unchanged at its commit. So it has no effects of its own."""
        return cast(T, self._run(self._transact(lambda: Transaction(self), work)))

    def page(self, lo: Optional[Text] = None, hi: Optional[Text] = None, at: Optional[int] = None, limit: int = PAGE,
             hold: Optional[int] = None) -> Page:
        """Rows at or above `lo` and below `hi`. Where more follow, the snapshot can be read for 30 seconds, or `hold`."""
        return self._run(self._page(lo, hi, at, limit, hold))

    def scan(self, lo: Optional[Text] = None, hi: Optional[Text] = None, at: Optional[int] = None,
             page: int = PAGE) -> Iterator[Row]:
        """All rows of a span, of one snapshot."""
        start = lo
        while True:
            found = self.page(start, hi, at, page)
            yield from found.rows
            if found.next is None:
                return
            start, at = found.next, found.timestamp

    def feed(self, lo: Optional[Text] = None, hi: Optional[Text] = None, place: Optional[Place] = None, before: bool = False,
             anew: bool = False) -> Iterator[Message]:
        """Reset, Change and Resolved, for ever, each once. From a place on, or else with the rows that are there now.

        Where the server has another database, or the place can't be read any longer, it raises, or begins `anew`.
        """
        return self._told(Running(Feed(self, lo, hi, place, before, anew).steps()))

    def consume(self, name: str, load: Callable[[], Optional[Place]], store: Callable[[Batch], None], lo: Optional[Text] = None,
                hi: Optional[Text] = None, before: bool = False, anew: bool = False) -> NoReturn:
        """Keeps rows elsewhere in step, for ever: `load()` gives the Place that is stored there, and `store(batch)` stores.

        It ends where either raises, and with Outrun where a later consumer has the name.
        """
        self._run(Consumer(self, name, load, store, lo, hi, before, anew).steps())
        raise AssertionError("a feed has no end")

    # ---- what the core wants to be done

    def _run(self, steps: Steps[T]) -> T:
        running = Running(steps)
        for _ in self._told(running):
            pass
        return running.value

    def _told(self, running: Running[Any]) -> Generator[Any, None, None]:
        stream: Optional[_Stream] = None
        effect = running.next()
        try:
            while effect is not None:
                try:
                    if isinstance(effect, Tell):
                        yield effect.message
                        reply: Any = None
                    elif isinstance(effect, Follow):
                        if stream:
                            stream.close()
                        stream = _Stream(self._new_connection(effect.address))
                        reply = stream.open(effect)
                    else:
                        reply = self._do(effect, stream)
                except Exception as why:
                    effect = running.next(why=why)
                else:
                    effect = running.next(reply)
        finally:
            if stream:
                stream.close()

    def _do(self, effect: Effect, stream: Optional["_Stream"]) -> Any:
        if isinstance(effect, Send):
            return self._send(effect)
        if isinstance(effect, Read):
            assert stream
            return stream.line()
        if isinstance(effect, Pause):
            return time.sleep(effect.seconds)
        assert isinstance(effect, Run)
        return effect.function(*effect.arguments)

    def _send(self, asked: Send) -> Answer:
        connection, was_sent = self._connection(asked.address), False
        try:
            if connection.sock is None:
                connection.connect()
            assert connection.sock
            connection.sock.settimeout(asked.patience)
            was_sent = True
            connection.request(asked.method, asked.path, asked.body, asked.headers)
            reply = connection.getresponse()
            answer = Answer(reply.status, reply.headers, reply.read())
        except FAILURES as why:
            connection.close()
            self.close()  # the server may have ended the others as well
            raise Lost(why, was_sent) from why
        self._idle.append((time.monotonic(), asked.address, connection))
        return answer

    def _connection(self, address: Address) -> http.client.HTTPConnection:
        """An idle connection that isn't old, or one to open."""
        while self._idle:
            since, other, connection = self._idle.pop()
            if other is address and time.monotonic() - since < FRESH:
                return connection
            connection.close()
        return self._new_connection(address)

    def _new_connection(self, address: Address) -> http.client.HTTPConnection:
        connection: http.client.HTTPConnection
        if address.scheme == "https":
            connection = http.client.HTTPSConnection(address.host, timeout=CONNECTING, context=self._context)
        else:
            connection = http.client.HTTPConnection(address.host, timeout=CONNECTING)
        connection.response_class = _Reply
        return connection


class _Reply(http.client.HTTPResponse):
    """An answer whose headers are whole. Without this one that is cut among its headers is taken for one with fewer."""

    def begin(self) -> None:
        file = self.fp
        self.fp = _WholeLines(file)  # type: ignore[assignment]
        try:
            super().begin()
        finally:
            self.fp = file


class _WholeLines:
    def __init__(self, file: Any):
        self.file = file

    def readline(self, limit: int) -> Any:
        line = self.file.readline(limit)
        if not line.endswith(b"\n"):
            raise http.client.RemoteDisconnected("cut among its headers")
        return line


class _Stream:
    """The lines of a stream, on a connection of its own."""

    def __init__(self, connection: http.client.HTTPConnection):
        self.connection, self.rest = connection, b""
        self.lines: Deque[bytes] = deque()

    def open(self, asked: Follow) -> Answer:
        try:
            self.connection.connect()
            socket = self.connection.sock
            socket.settimeout(asked.patience)
            self.connection.request("GET", asked.path, headers=asked.headers)
            self.reply = self.connection.getresponse()
            socket.settimeout(asked.silence)
            body = b"" if self.reply.status == 200 else self.reply.read()
        except FAILURES as why:
            raise Lost(why) from why
        return Answer(self.reply.status, self.reply.headers, body)

    def line(self) -> bytes:
        while not self.lines:
            try:
                data = self.reply.read1(1 << 16)
            except FAILURES as why:
                raise Lost(why) from why
            if not data:
                return b""
            *whole, self.rest = (self.rest + data).split(b"\n")
            self.lines.extend(whole)
        return self.lines.popleft() + b"\n"

    def close(self) -> None:
        self.connection.close()


def connect(url: str = "http://127.0.0.1:7077", token: Optional[str] = None, timeout: float = 20.0,
            identity: Optional[str] = None, context: Optional[ssl.SSLContext] = None) -> Client:
    """A client of the server at the url: several threads may use it at once, and a `with` closes it.

    The url may be several, with commas between them, of servers of which one has the database at a time.
    `timeout` is how many seconds a call may take, with all that is tried again. The client is for one database: the one
    with this identity, or else the one that answers first. `context` says which certificates are trusted.
    """
    return Client(url, token, timeout, identity, context)
