"""1,500 random plans, and reads beside them, compared with a model of the database that is written for this test alone.

The model keeps every version of every key. A session's transactions commit below later ones meanwhile, and a feed with
`before` follows. `server/test` runs it, and so does `server/python testing/test_plans.py` in server/.
"""

import asyncio
import base64
import bisect
import json
import os
import random
import sys
import unittest
from urllib.parse import quote

import aiohttp

sys.path[:0] = [os.path.dirname(os.path.abspath(__file__))]
from test_served import served  # noqa: E402

PLANS = 1500
KEYS = [b"a", b"b", b"a b", b"a/b", b"-", b"\xff", "\u00fc".encode(), b"w"]
VALUES = [b"", b"-", b"x", b"\xfe", b"10 EUR", b'"\n']
BOUNDS = [None, None, b"a", b"a!", b"b", b"\xff"]
SEED = 7


class Model:
    """Every version of every key: {key: [(timestamp, value or None)]}, timestamps rising."""

    def __init__(self):
        self.versions = {}

    def write(self, timestamp, key, value):
        bisect.insort(self.versions.setdefault(key, []), (timestamp, value), key=lambda one: one[0])

    def at(self, key, timestamp):
        """(value, version), both None where there is no value."""
        all = self.versions.get(key, [])
        at = bisect.bisect_right(all, timestamp, key=lambda one: one[0]) - 1
        return (all[at][1], all[at][0]) if at >= 0 and all[at][1] is not None else (None, None)

    def rows(self, lo, hi, timestamp):
        keys = sorted(key for key in self.versions if (not lo or key >= lo) and (not hi or key < hi))
        found = [(key, *self.at(key, timestamp)) for key in keys]
        return [row for row in found if row[1] is not None]

    def changes(self):
        return sorted((timestamp, key, value) for key, all in self.versions.items() for timestamp, value in all)


class Session:
    """A session that may be silent for as long as the other requests take.

    The server lets go of a session whose client answers no ping. aiohttp answers them only while somebody receives.
    """

    def __init__(self, socket):
        self.socket, self.came = socket, asyncio.Queue()
        self.listening = asyncio.ensure_future(self.listen())

    async def listen(self):
        while not self.socket.closed:
            self.came.put_nowait(await self.socket.receive())

    async def ask(self, lines):
        sent = await asyncio.gather(self.socket.send_str(lines), return_exceptions=True)
        message = await self.came.get()
        assert message.type is aiohttp.WSMsgType.TEXT, "the session has ended: %s; sent: %s" % (message, sent)
        return message.data


class Run:
    """One run of the test: what is drawn, and what the server should say."""

    def __init__(self, client, session):
        self.client, self.talk, self.drawn, self.model = client, session, random.Random(SEED), Model()
        self.last, self.undecided, self.checks = 0, None, 0

    # ---- bytes in JSON

    def spelled(self, data):
        """Bytes as a request may have them."""
        coded = {"base64": base64.b64encode(data).decode()}
        try:
            return data.decode() if self.drawn.random() < 0.7 else coded
        except UnicodeDecodeError:
            return coded

    @staticmethod
    def told(data, only_base64):
        """Bytes as an answer has them."""
        if data is None:
            return None
        if not only_base64:
            try:
                return data.decode()
            except UnicodeDecodeError:
                pass
        return {"base64": base64.b64encode(data).decode()}

    def row(self, key, value, version, only_base64):
        version = None if version is None else str(version)
        return {"key": self.told(key, only_base64), "value": self.told(value, only_base64), "version": version}

    # ---- one plan

    def condition(self):
        """A condition, its key or span, and what tells whether it holds once the request is sent."""
        def now():
            return self.model.at(key, self.last)

        key, kind = self.drawn.choice(KEYS), self.drawn.randrange(4)
        value, version = self.model.at(key, self.last)
        if kind == 0:
            wanted = self.drawn.choice([value or b"", self.drawn.choice(VALUES)])
            return {"key": self.spelled(key), "value": self.spelled(wanted)}, key, lambda: now()[0] == wanted
        if kind == 1:
            absent = self.drawn.random() < 0.5
            return {"key": self.spelled(key), "absent": absent}, key, lambda: absent == (now()[0] is None)
        if kind == 2:
            wanted = self.drawn.choice([version or 0, version or 0, self.drawn.randrange(self.last + 1)])
            return {"key": self.spelled(key), "version": str(wanted)}, key, lambda: wanted == (now()[1] or 0)
        lo, hi = self.drawn.choice(BOUNDS), self.drawn.choice(BOUNDS)
        since = self.drawn.randrange(max(self.last - 30, 0), self.last + 1)
        def holds():
            then, now = (self.model.rows(lo, hi, at) for at in (since, self.last))
            return [row[:2] for row in then] == [row[:2] for row in now]

        bounds = [bound and self.spelled(bound) for bound in (lo, hi)]
        return {"span": bounds, "unchanged": str(since)}, (lo, hi), holds

    def step(self):
        key, kind = self.drawn.choice(KEYS), self.drawn.randrange(5)
        if kind < 2:
            value = self.drawn.choice(VALUES)
            return {"put": self.spelled(key), "value": self.spelled(value)}, ("write", key, value)
        if kind == 2:
            return {"del": self.spelled(key)}, ("write", key, None)
        if kind == 3:
            return {"get": self.spelled(key)}, ("get", key)
        lo, hi, limit = self.drawn.choice(BOUNDS), self.drawn.choice(BOUNDS), self.drawn.randrange(1, 8)
        return {"scan": [bound and self.spelled(bound) for bound in (lo, hi)], "limit": limit}, ("scan", lo, hi, limit)

    def results(self, steps, timestamp, only_base64):
        """What steps tell, and the model with their writes."""
        work, results, written = Model(), [], {}
        work.versions = {key: list(all) for key, all in self.model.versions.items()}
        for kind, *words in steps:
            if kind == "write":
                key, value = words
                work.versions[key] = [one for one in work.versions.get(key, []) if one[0] != timestamp]
                work.write(timestamp, key, value)
                written[key] = value
                results.append(None)
            elif kind == "get":
                results.append(self.row(words[0], *work.at(words[0], timestamp), only_base64))
            else:
                lo, hi, limit = words
                rows = work.rows(lo, hi, timestamp)
                told = [self.row(*row, only_base64) for row in rows[:limit]]
                results.append({"rows": told, "more": len(rows) > limit})
        return results, written, work

    def blocks(self):
        """Whether the version to be read of w is an undecided one: no later write hides it."""
        newest = self.model.versions.get(b"w", [(0, None)])[-1][0]
        return self.undecided is not None and newest < self.undecided

    def is_read(self, places):
        """Whether the undecided key is among these keys and spans."""
        def has(place):
            return place == b"w" if isinstance(place, bytes) else (not place[0] or b"w" >= place[0]) and (
                not place[1] or b"w" < place[1])

        return self.blocks() and any(map(has, places))

    async def plan(self):
        conditions = [self.condition() for _ in range(self.drawn.choice([0, 0, 1, 2]))]
        then, other = ([self.step() for _ in range(self.drawn.randrange(6))] for _ in range(2))
        has_else = bool(conditions) and self.drawn.random() < 0.4
        body = {"if": [one[0] for one in conditions], "then": [one[0] for one in then]}
        if has_else:
            body["else"] = [one[0] for one in other]
        only_base64 = self.drawn.random() < 0.2
        # Snapshots are asked of that are closed.
        for one in body["if"]:
            if "unchanged" in one:
                await self.until_closed(int(one["unchanged"]))
        # While that was waited for, the session may have decided what it had written.
        conditions = [(one, place, holds()) for one, place, holds in conditions]
        path = "/transact?wait=0" + ("&bytes=base64" if only_base64 else "")
        reply = await self.client.post(path, data=json.dumps(body))
        answer = json.loads(await reply.text())
        await self.compare(conditions, then, other if has_else else None, only_base64, reply.status, answer, body)

    async def compare(self, conditions, then, other, only_base64, status, answer, body):
        failed = [(at, place) for at, (_, place, holds) in enumerate(conditions) if not holds]
        steps = [one[1] for one in (then if not failed else other or [])]
        # A scan reads no further than it tells, so a key that is undecided behind it may block or not.
        scans = [tuple(step[1:3]) for step in steps if step[0] == "scan"]
        gets = [step[1] for step in steps if step[0] == "get"]
        sure = self.is_read([place for _, place, _ in conditions if isinstance(place, bytes)] + gets)
        maybe = self.is_read(scans + [place for _, place, _ in conditions if not isinstance(place, bytes)])
        own = [step[1] for step in steps if step[0] == "write"]
        if status == 503:
            assert answer["error"] == "blocked" and answer["by"] == str(self.undecided), (body, answer)
            assert sure or maybe or b"w" in own, (body, answer)
            return
        if self.is_read([place for _, place, _ in conditions if isinstance(place, bytes)]):
            raise AssertionError("it isn't blocked: %s %s" % (body, answer))
        if self.blocks() and b"w" in gets and b"w" not in own:
            raise AssertionError("it isn't blocked: %s %s" % (body, answer))
        timestamp = int(answer["timestamp"])
        assert timestamp > self.last, (timestamp, self.last)
        if failed and other is None:
            found = [{"if": at, **(self.row(place, *self.model.at(place, self.last), only_base64)
                                   if isinstance(place, bytes) else {})} for at, place in failed]
            expected = {"error": "condition", "why": answer["why"], "timestamp": str(timestamp), "found": found}
            assert (status, answer) == (409, expected), (body, answer, expected)
        else:
            results, written, work = self.results(steps, timestamp, only_base64)
            expected = {"timestamp": str(timestamp), "branch": "else" if failed else "then", "written": len(written),
                        "results": results}
            assert (status, answer) == (200, expected), (body, answer, expected)
            self.model = work
        self.last, self.checks = timestamp, self.checks + 1

    # ---- what goes on beside it

    async def until_closed(self, at):
        reply = await self.client.get("/rows?limit=1&wait=0&at=%d" % at)
        while reply.status == 503:
            await asyncio.sleep(0.002)
            if self.undecided is not None:
                await self.session()
            reply = await self.client.get("/rows?limit=1&wait=0&at=%d" % at)
        assert reply.status == 200, await reply.text()

    async def session(self):
        """A session writes w, and decides it once others have gone on."""
        if self.undecided is None:
            value = self.drawn.choice([b"1", b"2", None])
            line = "del . w\n" if value is None else "put . w %s\n" % value.decode()
            text = await self.talk.ask("begin\n" + line)
            assert "written" in text, text
            self.undecided, self.value = int(text.split(" ")[3]), value
            self.last = self.undecided
        else:
            commits = self.drawn.random() < 0.7
            text = await self.talk.ask("commit .\n" if commits else "abort .\n")
            assert ("committed 1" if commits else "aborted") in text, text
            if commits:
                self.model.write(self.undecided, b"w", self.value)
            self.undecided = None

    async def key(self):
        """Reads a key as it is, or as it was."""
        key, only_now = self.drawn.choice(KEYS[:-1]), self.drawn.random() < 0.5
        path = "/key/" + quote(key, safe=self.drawn.choice(["", "/"]))
        if not only_now:
            at = self.drawn.randrange(1, self.last + 1)
            await self.until_closed(at)
            path += "?at=%d" % at
        reply = await self.client.get(path, headers={"Accept": self.drawn.choice(["*/*", "application/json"])})
        data, timestamp = await reply.read(), int(reply.headers.get("Ripsawbean-Timestamp", 0))
        if reply.status == 404:
            timestamp = int(json.loads(data)["timestamp"])
        value, version = self.model.at(key, self.last if only_now else at)
        assert only_now or timestamp == at
        if only_now and timestamp > self.last:
            self.last = timestamp
        assert (reply.status == 200) == (value is not None), (path, reply.status, value)
        if value is not None:
            assert reply.headers["ETag"] == '"%d"' % version, (path, reply.headers["ETag"], version)
            if reply.content_type == "application/json":
                expected = {"timestamp": str(timestamp), **self.row(key, value, version, False)}
                assert json.loads(data) == expected, (data, expected)
            else:
                assert data == value, (path, data, value)
        self.checks += 1

    async def write_key(self):
        key, value, is_put = self.drawn.choice(KEYS[:-1]), self.drawn.choice(VALUES), self.drawn.random() < 0.7
        now, version = self.model.at(key, self.last)
        headers, holds = {}, True
        if self.drawn.random() < 0.6:
            wanted = self.drawn.choice([version or 1, self.drawn.randrange(1, self.last + 2)])
            headers, holds = {"If-Match": '"%d", "0"' % wanted}, version == wanted
        method = "PUT" if is_put else "DELETE"
        reply = await self.client.request(method, "/key/" + quote(key, safe=""), headers=headers,
                                          data=value if is_put else None)
        answer = json.loads(await reply.text())
        is_done = holds and (is_put or now is not None)
        status = 200 if is_done else 404 if not is_put and not headers else 412
        assert reply.status == status, (method, key, headers, version, answer)
        timestamp = int(answer["timestamp"])
        assert timestamp > self.last
        if is_done:
            self.model.write(timestamp, key, value if is_put else None)
        elif status == 412:
            assert answer["version"] == (None if version is None else str(version)), (answer, version)
        self.last, self.checks = timestamp, self.checks + 1

    async def pages(self):
        """All pages of a span are those of one snapshot, whatever is written meanwhile."""
        lo, hi, limit = self.drawn.choice(BOUNDS), self.drawn.choice(BOUNDS), self.drawn.randrange(1, 5)
        at = self.drawn.randrange(1, self.last + 1)
        await self.until_closed(at)
        path, found = "/rows?lo=%s&hi=%s&limit=%d&at=%d" % (quote(lo or b""), quote(hi or b""), limit, at), []
        while path:
            reply = await self.client.get(path)
            answer = json.loads(await reply.text())
            assert reply.status == 200 and answer["timestamp"] == str(at), (path, answer)
            assert len(answer["rows"]) == limit or answer["next"] is None, (path, answer)
            assert ("Link" in reply.headers) == (answer["next"] is not None)
            found += answer["rows"]
            path = answer["next"]
            if self.drawn.random() < 0.5:
                await self.write_key()
        expected = [self.row(*row, False) for row in self.model.rows(lo, hi, at)]
        assert found == expected, (lo, hi, at, found, expected)
        self.checks += 1


async def followed(client, ready, until):
    """The rows of a feed, each with its value before as the row told last has it."""
    reply = await client.get("/feed?from=0&before=1&identity=" + client.identity)
    assert reply.status == 200, await reply.text()
    ready.set()
    rows, last = [], {}
    async for line in reply.content:
        message = json.loads(line) if line != b"\n" else {}
        if "key" in message:
            assert list(message) == ["after", "before", "key", "updated"], message
            assert message["before"] == last.get(message["key"]), (message, last.get(message["key"]))
            last[message["key"]] = message["after"]
            after = None if message["after"] is None else base64.b64decode(message["after"])
            rows.append((int(message["updated"]), base64.b64decode(message["key"]), after))
            if rows[-1][1] == until:
                return rows


class Plans(unittest.IsolatedAsyncioTestCase):
    async def test_random_plans_beside_a_model(self):
        async with served("--history", "3600") as client, client.ws_connect("/session") as socket:
            client.identity = json.loads(await (await client.get("/consumer/x")).text())["identity"]
            ready = asyncio.Event()
            following = asyncio.ensure_future(followed(client, ready, b"end"))
            await ready.wait()
            run = Run(client, Session(socket))
            await run.plan()
            for _ in range(PLANS):
                await run.plan()
                kind = run.drawn.random()
                if kind < 0.3:
                    await run.key()
                elif kind < 0.4:
                    await run.write_key()
                elif kind < 0.5:
                    await run.pages()
                elif kind < 0.6:
                    await run.session()
            if run.undecided is not None:
                await run.session()
            reply = await client.put("/key/end", data=b"")
            run.model.write(int(json.loads(await reply.text())["timestamp"]), b"end", b"")
            rows = await asyncio.wait_for(following, 30)
            self.assertEqual(rows, run.model.changes())
            self.assertGreater(run.checks, PLANS)
            metrics = await (await client.get("/metrics")).text()
            self.assertIn("\nripsawbean_shouts_total 0\n", metrics)


if __name__ == "__main__":
    unittest.main()
