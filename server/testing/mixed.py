"""Sessions, transactions by JSON, keys, pages and a feed with `before`, all at once on few keys.

Afterwards the whole transcript is judged by `mvfeed check`, the feed's rows are compared with the rows that are there,
and money that was moved is counted. `main` runs it.
"""

import asyncio
import base64
import collections
import json
import random
import subprocess

import aiohttp
from machine import LONGEST, Server

ACCOUNTS, KEYS, MONEY = 8, 8, 100
OPTIONS = ("--keep", "100000000", "--keep-bytes", "4000000000", "--history", "1", "--max-age", "1")


def coded(text):
    return base64.b64encode(text.encode()).decode()


class Load:
    def __init__(self, client, seed, seconds):
        self.client, self.drawn, self.seen = client, random.Random(seed), collections.Counter()
        self.end = asyncio.get_running_loop().time() + seconds

    def goes_on(self):
        return asyncio.get_running_loop().time() < self.end

    async def transact(self, body, query="", **headers):
        async with self.client.post("/transact" + query, data=json.dumps(body), headers=headers) as reply:
            answer = json.loads(await reply.text())
            self.seen["transact %d %s" % (reply.status, answer.get("error", ""))] += 1
            assert reply.status in (200, 409, 503), (reply.status, answer)
            return reply.status, answer

    def line(self):
        forms = ("get . k%d\n", "put . k%d v\n", "del . k%d\n", "put . k%d\n", "scan . k%d -\n")
        return self.drawn.choice(forms) % self.drawn.randrange(KEYS)

    async def sessions(self):
        while self.goes_on():
            async with self.client.ws_connect("/session") as socket:
                for _ in range(self.drawn.randrange(1, 12)):
                    await socket.send_str("begin\n" + "".join(self.line() for _ in range(self.drawn.randrange(1, 6))))
                    await socket.receive()
                    await asyncio.sleep(self.drawn.choice([0, 0, 0.01, 0.05, 0.3]))
                    if self.drawn.random() < 0.85:
                        await socket.send_str(self.drawn.choice(["commit .\n", "commit .\n", "abort .\n"]))
                        answer = (await socket.receive()).data.rpartition(" => ")[2].split(" ")[0].strip()
                        self.seen["session " + answer] += 1

    async def movers(self):
        """Money goes from one account to another, where neither has changed since it was read."""
        while self.goes_on():
            keys = ["acc/%d" % at for at in self.drawn.sample(range(ACCOUNTS), 2)]
            _, answer = await self.transact({"then": [{"get": key} for key in keys]})
            if "results" not in answer:
                continue
            rows = answer["results"]
            changed = [{"put": row["key"], "value": str(int(row["value"]) + by)} for row, by in zip(rows, (-1, 1))]
            same = [{"key": row["key"], "version": row["version"]} for row in rows]
            marked = [{"put": "k%d" % self.drawn.randrange(KEYS), "value": "m"}]
            query = self.drawn.choice(["", "?wait=0", "?wait=3"])
            key = {"Idempotency-Key": "%x" % self.drawn.getrandbits(64)}
            await self.transact({"if": same, "then": changed + marked}, query, **key)

    async def keys(self):
        while self.goes_on():
            path = "/key/k%d" % self.drawn.randrange(KEYS)
            async with self.client.get(path + self.drawn.choice(["", "?wait=0"])) as reply:
                tag = reply.headers.get("ETag")
                self.seen["get %d" % reply.status] += 1
                assert reply.status in (200, 404, 503), (reply.status, await reply.text())
            method = self.drawn.choice(["PUT", "PUT", "DELETE"])
            headers = {"If-Match": tag} if tag and self.drawn.random() < 0.7 else {}
            async with self.client.request(method, path + "?wait=0.2", data=b"p" if method == "PUT" else None,
                                           headers=headers) as reply:
                self.seen["%s %d" % (method, reply.status)] += 1
                assert reply.status in (200, 404, 412, 503), (reply.status, await reply.text())

    async def pages(self):
        """A walk is of one snapshot: no money is missing in any."""
        while self.goes_on():
            path, total, at = "/rows?lo=acc/&hi=acc0&limit=3", 0, set()
            while path:
                async with self.client.get(path) as reply:
                    page = json.loads(await reply.text())
                assert reply.status == 200, page
                total, path = total + sum(int(row["value"]) for row in page["rows"]), page["next"]
                at.add(page["timestamp"])
                await asyncio.sleep(self.drawn.choice([0, 0.01, 0.4]))
            assert (total, len(at)) == (ACCOUNTS * MONEY, 1), (total, at)
            self.seen["walks"] += 1

    async def spans(self):
        """Whether nothing was moved since a snapshot is told exactly: then its rows are the same."""
        while self.goes_on():
            at = self.drawn.randrange(ACCOUNTS)
            lo, hi = "acc/%d" % at, self.drawn.choice(["acc/%d" % (at + 1), "acc0"])
            async with self.client.get("/rows?lo=%s&hi=%s&hold=5" % (lo, hi)) as reply:
                page = json.loads(await reply.text())
            await asyncio.sleep(self.drawn.choice([0, 0, 0.002]))
            body = {"if": [{"span": [lo, hi], "unchanged": page["timestamp"]}],
                    "then": [{"scan": [lo, hi]}, {"put": "sum", "value": page["timestamp"]}]}
            status, answer = await self.transact(body, "?wait=3")
            if status == 200:
                told, then = ([(row["key"], row["value"]) for row in rows] for rows in
                              (answer["results"][0]["rows"], page["rows"]))
                assert told == then, (told, then)
            self.seen["unchanged %d" % status] += 1


async def follow(client, ready):
    """What a feed leaves, where each row's `before` is what the feed told last."""
    rows, last = {}, coded("end")
    async with client.get("/feed?before=1") as reply:
        ready.set()
        async for line in reply.content:
            message = json.loads(line) if line != b"\n" else {}
            if "key" in message:
                assert message["before"] == rows.get(message["key"]), message
                rows[message["key"]] = message["after"]
                if message["key"] == last:
                    return {key: value for key, value in rows.items() if value is not None}


async def work(server, seed, seconds):
    timeout = aiohttp.ClientTimeout(total=None)
    connector = aiohttp.TCPConnector(limit=0)
    async with aiohttp.ClientSession(server.url, connector=connector, timeout=timeout, read_bufsize=1 << 20) as client:
        load, ready = Load(client, seed, seconds), asyncio.Event()
        following = asyncio.ensure_future(follow(client, ready))
        await ready.wait()
        await load.transact({"then": [{"put": "acc/%d" % at, "value": str(MONEY)} for at in range(ACCOUNTS)]})
        await asyncio.gather(*(load.sessions() for _ in range(10)), *(load.movers() for _ in range(6)),
                             *(load.keys() for _ in range(4)), *(load.pages() for _ in range(2)), load.spans())
        await asyncio.sleep(1.5)
        await load.transact({"then": [{"put": "end", "value": ""}]}, "?wait=5")
        rows = await asyncio.wait_for(following, LONGEST)
        async with client.get("/rows?limit=10000") as reply:
            there = {coded(row["key"]): coded(row["value"]) for row in json.loads(await reply.text())["rows"]}
        assert there == rows, (there, rows)
        money = sum(int(base64.b64decode(value)) for key, value in rows.items() if base64.b64decode(key)[:4] == b"acc/")
        assert money == ACCOUNTS * MONEY, money
        for what in ("transact 200 ", "transact 409 condition", "session committed", "walks", "unchanged 200", "unchanged 409"):
            assert load.seen[what], (what, load.seen)
        return load.seen


def run_mixed(room, program, seed, seconds):
    """A line of figures, and what was wrong."""
    server = room.start(Server(room.path, *OPTIONS))
    seen = asyncio.run(work(server, seed, seconds))
    text = server.ask("GET", "/transcript")[1]
    told = subprocess.run([program, "check"], input=text, capture_output=True, text=True)
    faults = [] if (told.returncode, told.stdout) == (0, "yes\n") else [told.stdout[-500:], told.stderr[-500:]]
    if "\nripsawbean_shouts_total 0\n" not in server.ask("GET", "/metrics")[1]:
        faults.append("the server has shouted: " + server.tail())
    events = text.count(" => ")
    figures = "%d events, %d transactions" % (events, sum(seen[one] for one in seen if one.startswith("transact 200")))
    return figures, faults
