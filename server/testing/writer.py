#!/usr/bin/python3
"""A writer for the test: writer.py SERVER SEED LOG PAUSE makes transactions until it is killed.

Each reads a count and raises it, and puts and deletes words, or edits the descriptions of Debian packages. Now and then
one waits in its middle, reads the whole span of words, or leaves while it is undecided. Once the server has said that a
transaction is committed, LOG gets a line with the database's identity and the timestamp.
"""

import asyncio
import json
import os
import random
import sys

import aiohttp

sys.path.append(os.path.join(os.path.dirname(os.path.abspath(__file__)), "..", "..", "examples"))
from packages import descriptions  # noqa: E402
from sessions import connect, transact  # noqa: E402

WORDS, COUNTS = 400, 3


class Writer:
    def __init__(self, server, seed, log, pause):
        self.server, self.dice, self.log, self.pause = server, random.Random(seed), log, pause
        self.documents = list(descriptions())

    def drawn(self):
        """The writes of one transaction."""
        if self.dice.random() < 0.5:
            name, about = self.dice.choice(self.documents)
            after = None if self.dice.random() < 0.3 else about + b" \xc2\xb7 edit %d" % self.dice.randrange(1000)
            return {b"package/" + name: after}
        keys = [b"word/%d" % self.dice.randrange(WORDS) for _ in range(self.dice.randrange(1, 20))]
        return {key: None if self.dice.random() < 0.2 else self.dice.randbytes(self.dice.randrange(40)) for key in keys}

    async def work(self, session):
        count = b"count/%d" % self.dice.randrange(COUNTS)
        before = (await session.ask("get", ".", count)).value
        for key, after in self.drawn().items():
            await (session.ask("del", ".", key) if after is None else session.ask("put", ".", key, after))
        if self.dice.random() < 0.05:
            await session.ask("scan", ".", b"word/", b"word0")
        if self.dice.random() < 0.05:
            await asyncio.sleep(self.dice.random() / 20)
        if self.dice.random() < 0.005:
            raise ConnectionError("leaves in the middle of a transaction")
        await session.ask("put", ".", count, b"%d" % (int(before or b"0") + 1))

    async def identity(self):
        async with aiohttp.request("GET", self.server + "/consumer/nobody") as response:
            return json.loads(await response.text())["identity"]

    async def write(self):
        before = await self.identity()
        async with connect(self.server) as session:
            if await self.identity() != before:
                return
            while True:
                timestamp = await transact(session, self.work)
                self.log.write("%s %d\n" % (before, timestamp))
                self.log.flush()
                await asyncio.sleep(self.dice.random() * 2 * self.pause)


async def main(server, seed, log, pause):
    with open(log, "a") as file:
        writer = Writer(server, seed, file, float(pause))
        while True:
            try:
                await writer.write()
            except (aiohttp.ClientError, OSError):
                await asyncio.sleep(0.05)


if __name__ == "__main__":
    asyncio.run(main(*sys.argv[1:]))
