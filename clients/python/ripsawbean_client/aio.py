"""The client for programs with asyncio. It needs aiohttp 3.8 or later.

    from ripsawbean_client.aio import connect

    async with connect("http://127.0.0.1:7077") as db:
        await db.get("apple")

All is as in `client.py`: calls are awaited, `scan` and `feed` are gone over by `async for`, and what is given to
`transact` and `consume` may be coroutine functions.
"""

from __future__ import annotations

import asyncio
import inspect
import ssl
import sys
from typing import Any, AsyncGenerator, AsyncIterator, Awaitable, Callable, List, NoReturn, Optional, TypeVar, Union, cast

import aiohttp
import yarl

from . import values
from .addresses import CONNECTING, Address
from .core import PAGE, Answer, Core, Effect, Follow, Pause, Read, Run, Running, Send, Steps, Tell, TransactionCore
from .errors import Lost
from .feeds import Consumer, Feed
from .values import Batch, Condition, Done, Message, Page, Place, Row, Step, Text

if sys.version_info >= (3, 11):
    from asyncio import timeout as within
else:
    from async_timeout import timeout as within  # which aiohttp needs there

T = TypeVar("T")
LONGEST = 1 << 20  # bytes of a line, at most: three texts of base64
FAILURES = (OSError, asyncio.TimeoutError, aiohttp.ClientError)


class Transaction(TransactionCore):
    """What `transact` gives to its work."""

    def __init__(self, client: "Client"):
        super().__init__(client)
        self._client = client

    async def get(self, key: Text) -> Optional[bytes]:
        return await self._client._run(self._get(key))

    async def scan(self, lo: Optional[Text] = None, hi: Optional[Text] = None) -> List[Row]:
        return await self._client._run(self._scan(lo, hi))


class Client(Core):
    """See `client.Client`."""

    def __init__(self, url: str, token: Optional[str] = None, timeout: float = 20.0, identity: Optional[str] = None,
                 context: Optional[ssl.SSLContext] = None):
        super().__init__(url, token, timeout, identity)
        self._context = context
        self._session: Optional[aiohttp.ClientSession] = None

    async def __aenter__(self) -> "Client":
        return self

    async def __aexit__(self, *_: object) -> None:
        await self.close()

    async def close(self) -> None:
        if self._session:
            await self._session.close()
            self._session = None

    # ---- calls

    async def get(self, key: Text, at: Optional[int] = None) -> Optional[bytes]:
        return (await self.row(key, at)).value

    async def row(self, key: Text, at: Optional[int] = None) -> Row:
        return (await self._run(self._read(key, at)))[1]

    async def put(self, key: Text, value: Text, if_: Optional[Condition] = None) -> int:
        return await self._run(self._write(values.put(key, value), if_))

    async def delete(self, key: Text, if_: Optional[Condition] = None) -> int:
        return await self._run(self._write(values.delete(key), if_))

    async def txn(self, then: List[Step], if_: Optional[List[Condition]] = None, else_: Optional[List[Step]] = None) -> Done:
        return await self._run(self._txn(then, if_ or [], else_))

    async def transact(self, work: Callable[[Transaction], Awaitable[T]]) -> T:
        return cast(T, await self._run(self._transact(lambda: Transaction(self), work)))

    async def page(self, lo: Optional[Text] = None, hi: Optional[Text] = None, at: Optional[int] = None, limit: int = PAGE,
                   hold: Optional[int] = None) -> Page:
        return await self._run(self._page(lo, hi, at, limit, hold))

    async def scan(self, lo: Optional[Text] = None, hi: Optional[Text] = None, at: Optional[int] = None,
                   page: int = PAGE) -> AsyncIterator[Row]:
        start = lo
        while True:
            found = await self.page(start, hi, at, page)
            for row in found.rows:
                yield row
            if found.next is None:
                return
            start, at = found.next, found.timestamp

    def feed(self, lo: Optional[Text] = None, hi: Optional[Text] = None, place: Optional[Place] = None, before: bool = False,
             anew: bool = False) -> AsyncGenerator[Message, None]:
        return self._told(Running(Feed(self, lo, hi, place, before, anew).steps()))

    async def consume(self, name: str, load: Callable[[], Union[Optional[Place], Awaitable[Optional[Place]]]],
                      store: Callable[[Batch], Optional[Awaitable[None]]], lo: Optional[Text] = None, hi: Optional[Text] = None,
                      before: bool = False, anew: bool = False) -> NoReturn:
        await self._run(Consumer(self, name, load, store, lo, hi, before, anew).steps())
        raise AssertionError("a feed has no end")

    # ---- what the core wants to be done

    async def _run(self, steps: Steps[T]) -> T:
        running = Running(steps)
        async for _ in self._told(running):
            pass
        return running.value

    async def _told(self, running: Running[Any]) -> AsyncGenerator[Any, None]:
        stream: Optional[aiohttp.ClientResponse] = None
        effect = running.next()
        try:
            while effect is not None:
                try:
                    if isinstance(effect, Tell):
                        yield effect.message
                        reply: Any = None
                    elif isinstance(effect, Follow):
                        if stream:
                            stream.close()
                        stream = await self._follow(effect)
                        reply = Answer(stream.status, stream.headers, b"" if stream.status == 200 else await stream.read())
                    else:
                        reply = await self._do(effect, stream)
                except FAILURES as why:
                    effect = running.next(why=self._lost(why, effect))
                except Exception as why:
                    effect = running.next(why=why)
                else:
                    effect = running.next(reply)
        finally:
            if stream:
                stream.close()

    @staticmethod
    def _lost(why: Exception, effect: Effect) -> Exception:
        """A failure of the connection is `Lost`, and what the caller's function raises is the caller's."""
        was_connecting = isinstance(why, aiohttp.ServerTimeoutError) and str(why).startswith("Connection timeout")
        was_sent = not (was_connecting or isinstance(why, aiohttp.ClientConnectorError))
        return why if isinstance(effect, Run) else Lost(why, was_sent)

    async def _do(self, effect: Effect, stream: Optional[aiohttp.ClientResponse]) -> Any:
        if isinstance(effect, Send):
            return await self._send(effect)
        if isinstance(effect, Read):
            assert stream
            return await stream.content.readline()
        if isinstance(effect, Pause):
            return await asyncio.sleep(effect.seconds)
        assert isinstance(effect, Run)
        reply = effect.function(*effect.arguments)
        return await reply if inspect.isawaitable(reply) else reply

    async def _send(self, asked: Send) -> Answer:
        timeout = aiohttp.ClientTimeout(total=asked.seconds, sock_connect=CONNECTING, sock_read=asked.patience)
        async with self._open().request(
            asked.method, url_of(asked.address, asked.path), data=asked.body, headers=asked.headers, allow_redirects=False,
            skip_auto_headers=("Content-Type",), timeout=timeout,
        ) as reply:
            return Answer(reply.status, reply.headers, await reply.read())

    async def _follow(self, asked: Follow) -> aiohttp.ClientResponse:
        timeout = aiohttp.ClientTimeout(total=None, sock_connect=CONNECTING, sock_read=asked.silence)
        url, headers = url_of(asked.address, asked.path), asked.headers
        async with within(asked.patience):
            return await self._open().get(url, headers=headers, allow_redirects=False, timeout=timeout, read_bufsize=LONGEST)

    def _open(self) -> aiohttp.ClientSession:
        if self._session is None:
            connector = aiohttp.TCPConnector(limit=0, ssl=self._context) if self._context else aiohttp.TCPConnector(limit=0)
            self._session = aiohttp.ClientSession(connector=connector, auto_decompress=False)
        return self._session


def url_of(address: Address, path: str) -> yarl.URL:
    return yarl.URL("%s://%s%s" % (address.scheme, address.host, path), encoded=True)


def connect(url: str = "http://127.0.0.1:7077", token: Optional[str] = None, timeout: float = 20.0,
            identity: Optional[str] = None, context: Optional[ssl.SSLContext] = None) -> Client:
    """See `client.connect`."""
    return Client(url, token, timeout, identity, context)
