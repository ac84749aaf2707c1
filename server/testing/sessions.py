"""Transactions over one WebSocket of the server, which stay open between lines: the loops for `toolate` and `blocked`.

    async with connect("http://127.0.0.1:7077") as session:

        async def raise_count(session):
            count = (await session.ask("get", ".", b"count")).value or b"0"
            await session.ask("put", ".", b"count", b"%d" % (int(count) + 1))

        await transact(session, raise_count)

It needs Debian's python3-aiohttp.
"""

import asyncio
import contextlib
import os
import random
import sys

import aiohttp

sys.path.append(os.path.join(os.path.dirname(os.path.abspath(__file__)), "..", "..", "embed", "python"))
from ripsawbean import Event, spell  # noqa: E402

AGAIN = frozenset(("toolate", "ended"))  # the transaction is aborted, by this answer or before it
SHORT, LONG = 0.001, 0.1                 # seconds between two tries


class Again(Exception):
    """The transaction is aborted: begin anew, at a greater timestamp."""


class Session:
    """A seat at the server."""

    def __init__(self, socket):
        self.socket = socket

    async def ask(self, command, *arguments):
        """The event of a command. Keys and values are bytes, None is no bound, "." the transaction begun last."""
        words = [spell(word) if isinstance(word, bytes) else "-" if word is None else str(word) for word in arguments]
        wait = SHORT
        while True:
            await self.socket.send_str(" ".join([command, *words]) + "\n")
            message = await self.socket.receive()
            if message.type is not aiohttp.WSMsgType.TEXT:
                raise ConnectionError("the session has ended")
            if " => " not in message.data:
                raise ValueError(message.data.strip())
            event = Event(message.data)
            answer = event.answer.split(" ")[0]
            if answer in AGAIN:
                raise Again(answer)
            if answer != "blocked":
                return event
            # An older transaction is in the way. Only an older one can be, so two never wait for each other.
            await asyncio.sleep(wait)
            wait = min(2 * wait, LONG)


@contextlib.asynccontextmanager
async def connect(server):
    """A session, for as long as the block runs. At its end the server aborts what isn't decided."""
    async with aiohttp.ClientSession() as client:
        async with client.ws_connect(server + "/session", max_msg_size=0) as socket:
            yield Session(socket)


async def transact(session, work):
    """Runs `work(session)` in a transaction, anew until it commits. Returns its timestamp."""
    wait = SHORT
    while True:
        with contextlib.suppress(Again):
            began = await session.ask("begin")
            await work(session)
            await session.ask("commit", ".")
            return int(began.text.split(" ")[3])
        # Two that begin anew at once read past each other again, so each waits for a while of its own.
        await asyncio.sleep(random.uniform(0, wait))
        wait = min(2 * wait, LONG)
