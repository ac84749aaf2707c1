"""A database under load: feeds of old, cancelled ones, long keys, and 700 events a second."""

import asyncio
import contextlib
import json
import time

import aiohttp

from .scene import ask, closed, store

RATE = 700  # events a second, the server's own among them
TICK = 0.05
KEYS = (
    "stock/libghc-aeson-dev/bookworm-security", "stock/libghc-aeson-doc/bookworm-security",
    "stock/~sold-2026-11-28T23:10:11/0001", "stock/~sold-2026-11-28T23:10:11/0002",
    "price/apple", "order/1/total", "meta/checked",
)
LONG = '{"section":%20"net",%20"description":%20"' + "the%20same%20words,%20again%20and%20again,%20" * 8 + 'the%20end"}'


class Load:
    """What the block of `load` is given."""

    def __init__(self, client, sessions):
        self.client, self.sessions, self.made, self.rate = client, sessions, 0, 0.0

    async def calls(self):
        return json.loads((await (await self.client.get("/holders")).text()).splitlines()[0])["calls"]

    async def memory(self):
        """Resident megabytes."""
        lines = (await (await self.client.get("/metrics")).text()).splitlines()
        return next(float(it.split()[1]) for it in lines if it.startswith("ripsawbean_memory_bytes ")) / 1e6

    async def stall(self):
        """A transaction that begins and doesn't end."""
        return await ask(self.sessions[-1], "begin\nput . stalled 1\n")

    async def end_stall(self):
        return await ask(self.sessions[-1], "commit .\n")

    async def transaction(self, session):
        self.made += 1
        key, other = KEYS[self.made % len(KEYS)], KEYS[self.made * 3 % len(KEYS)]
        value = LONG if self.made % 9 == 0 else str(self.made)
        puts = "put . %s %s\nput . %s %d\n" % (key, value, other, self.made)
        await ask(session, "begin\nget . %s\n%scommit .\n" % (other, puts))

    async def run(self, rate):
        """As many transactions in each tick as make so many events a second, whatever the server adds of its own. A
        machine that was busy for a while gets no more of them afterwards."""
        a_tick, owed, began, calls, made = 5.0, 0.0, time.monotonic(), await self.calls(), self.made
        while True:
            tick_ends = time.monotonic() + TICK
            owed += a_tick
            while owed >= 1:
                owed -= 1
                await self.transaction(self.sessions[self.made % 3])
            if time.monotonic() - began > 1:
                now = await self.calls()
                self.rate = (now - calls) / (time.monotonic() - began)
                a_tick = rate * TICK * max(self.made - made, 1) / max(now - calls, 1)
                began, calls, made = time.monotonic(), now, self.made
            await asyncio.sleep(max(0, tick_ends - time.monotonic()))


@contextlib.asynccontextmanager
async def load(base, rate=RATE):
    """It goes on for as long as the block runs."""
    async with aiohttp.ClientSession(base, timeout=aiohttp.ClientTimeout(total=None)) as client:
        sessions = [await client.ws_connect("/session") for _ in range(5)]
        begun = Load(client, sessions)
        await feeds_of_old(client, sessions[3])
        streams = [await client.get("/feed?consumer=cache"), await client.get("/feed?lo=order/&hi=order0")]
        await store(client, "cache", streams[0].headers, await closed(client))
        readers = [asyncio.ensure_future(read(one)) for one in streams]
        for _ in range(400):  # more events than the page asks for
            await begun.transaction(sessions[0])
        running = asyncio.ensure_future(begun.run(rate))
        try:
            yield begun
        finally:
            for task in (running, *readers):
                task.cancel()
            await asyncio.gather(running, *readers, return_exceptions=True)


async def feeds_of_old(client, session):
    """Four that are cancelled after they have told something, one of a span that lags, and a consumer that is down."""
    opened = await ask(session, "open - - 0\n" * 4 + "open meta/ meta0 0\n")
    numbers = [line.split()[-1] for line in opened.splitlines()]
    await ask(session, "begin\nput . meta/old 1\nput . order/0 1\ncommit .\n")
    search = await client.get("/feed?consumer=search")
    await store(client, "search", search.headers, await closed(client))
    search.close()
    for number in numbers[:4]:
        await ask(session, "poll %s 100\ncancel %s\n" % (number, number))
    await ask(session, "poll %s 1\n" % numbers[4])


async def read(stream):
    async for _ in stream.content:
        pass
