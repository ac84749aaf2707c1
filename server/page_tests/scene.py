"""A database with something to see: two consumers, one of them down, a session's feed that lags, undecided writes."""

import asyncio
import contextlib
import json

import aiohttp


async def ask(socket, lines):
    await socket.send_str(lines)
    return (await socket.receive()).data


async def store(client, name, headers, stored):
    identity, generation = headers["Ripsawbean-Identity"], headers["Ripsawbean-Generation"]
    query = "identity=%s&generation=%s&stored=%s" % (identity, generation, stored)
    reply = await client.post("/consumer/%s?%s" % (name, query))
    assert reply.status == 200, await reply.text()


async def closed(client):
    await asyncio.sleep(0.1)
    return json.loads((await (await client.get("/holders")).text()).splitlines()[0])["closed"]


@contextlib.asynccontextmanager
async def scene(base):
    """It stands for as long as the block runs."""
    async with aiohttp.ClientSession(base, timeout=aiohttp.ClientTimeout(total=None)) as client:
        one, two = await client.ws_connect("/session"), await client.ws_connect("/session")
        await ask(one, "begin 10\nput . apple 3\nput . kiwi 8\ncommit .\n")
        await closed(client)
        search = await client.get("/feed?consumer=search")
        await closed(client)
        await store(client, "search", search.headers, 10)
        search.close()
        await ask(two, "open k q 10\n")
        cache = await client.get("/feed?consumer=cache")
        await ask(one, "begin 14\nput . pear 5\n")
        await ask(two, "begin 18\nput . kiwi 9\ncommit .\n")
        await ask(one, "commit .\n")
        await closed(client)
        await ask(two, "poll 2 1\n")
        await ask(one, "begin 22\nput . apple 4\ncommit .\n")
        await closed(client)
        await ask(two, "begin 26\nget . pear\ndel . kiwi\ncommit .\n")
        await store(client, "cache", cache.headers, await closed(client))
        await ask(one, "begin 30\n")
        await ask(two, "begin 34\nscan . a b\nput . plum 6\n")
        assert "=> toolate" in await ask(one, "put . apple 7\n")
        await asyncio.sleep(2)  # the stream of `search` is found to be gone, and closed has moved
        yield client
