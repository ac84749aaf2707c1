"""Each refusal in the table of server/API.md is got by a request, or by a test that is named here.

`server/test` runs it, and so does `server/python testing/test_refusals.py` in server/.
"""

import asyncio
import inspect
import json
import os
import sys
import tempfile
import unittest

sys.path[:0] = [os.path.dirname(os.path.abspath(__file__))]
import durable_lease  # noqa: E402
import test_api  # noqa: E402
from handmade import Wire  # noqa: E402
from test_reference import listed  # noqa: E402
from test_served import served  # noqa: E402

TOKENS = "reader read - - reader-0123456789\nsome read,write b d some-0123456789abcdef\n"
LONG = 200_000  # bytes of a message, at most
MANY = 80       # bodies that aren't whole, which together are more than those of one client may be
AHEAD = 50      # requests that are sent before their answers are read
# What a client can't bring about, or takes long for: the tests that see it.
TESTS_OF = {
    (503, "full"): test_api.Memory.test_where_it_is_full_keys_are_deleted_alone,
    (503, "holds"): test_api.Rows.test_snapshots_that_are_held_are_bounded,
    (503, "connections"): test_api.Memory.test_connections_that_wait_leave_room_to_others,
    (503, "answers"): test_api.Memory.test_slow_readers_of_long_answers_are_bounded,
    (503, "lease"): durable_lease.test_cut_off,
}
# Where the library has no memory, which `server/unit` brings about.
OF_MEMORY = {(503, "nomemory"), (500, "unwritten"), (500, "unexpected")}


class Asker:
    """Asks, and notes each refusal."""

    def __init__(self, client, seen):
        self.client, self.seen = client, seen

    async def __call__(self, method, path, body=None, **headers):
        """Status and error of the answer: what is refused with 503 may be asked again."""
        headers = {name.replace("_", "-"): value for name, value in headers.items()}
        reply = await self.client.request(method, path, data=body, headers=headers)
        told = await reply.read()
        error = json.loads(told)["error"] if reply.status >= 400 else None
        assert reply.status != 503 or reply.headers["Retry-After"].isdigit(), (path, error)
        self.seen.add((reply.status, error))
        return reply.status, error

    async def transact(self, body, query="", **headers):
        return await self("POST", "/transact" + query, body if isinstance(body, str) else json.dumps(body), **headers)


async def see_what_is_wrong(ask):
    """Statuses 400, 403, 404, 413, 415 and 422."""
    for method, path, body, headers, wanted in (
        ("POST", "/transact", "{", {}, (400, "json")), ("GET", "/rows?x=1", None, {}, (400, "argument")),
        ("GET", "/rows?limit=0", None, {}, (400, "number")), ("GET", "/key/a?bytes=x", None, {}, (400, "bytes")),
        ("PUT", "/key/", "x", {}, (400, "keylength")), ("PUT", "/key/a", "x", {"If_Match": "1"}, (400, "etag")),
        ("PUT", "/key/a", "x", {"Idempotency_Key": "a b"}, (400, "idempotencykey")),
        ("GET", "/key/a", None, {"Host": "evil.example"}, (403, "host")),
        ("GET", "/key/a", None, {"Origin": "http://evil.example"}, (403, "origin")),
        ("GET", "/key/none", None, {}, (404, "none")), ("POST", "/transact", "x" * (LONG + 1), {}, (413, "toolong")),
        ("PUT", "/key/a", "x" * 65_537, {}, (413, "valuelength")),
        ("PUT", "/key/a", "x", {"Content_Encoding": "gzip"}, (415, "encoding")),
        ("POST", "/transact", '{"fi":[]}', {}, (422, "member")),
        ("POST", "/transact", '{"then":[{"get":""}]}', {}, (422, "keylength")),
        ("POST", "/transact", '{"then":[{"put":"a","value":"%s"}]}' % ("x" * 65_537), {}, (422, "valuelength")),
        ("PUT", "/key/a", "1", {"Idempotency_Key": "k"}, (200, None)),
        ("PUT", "/key/a", "2", {"Idempotency_Key": "k"}, (422, "idempotencykey")),
    ):
        told = await ask(method, path, body, **headers)
        assert told == wanted, (method, path, told, wanted)


async def see_what_fails(ask):
    """Statuses 409, 410 and 412. What is collected takes a while."""
    for value in range(3):
        await ask("PUT", "/key/a", str(value))
    for _ in range(200):
        if await ask("GET", "/key/a?at=1") != (200, None):
            break
        await asyncio.sleep(0.1)
    for method, path, body, headers, wanted in (
        ("POST", "/transact", '{"if":[{"key":"a","value":"x"}]}', {}, (409, "condition")),
        ("POST", "/transact", '{"if":[{"span":[null,null],"unchanged":"9999"}]}', {}, (409, "notclosed")),
        ("GET", "/rows?at=9999", None, {}, (409, "notclosed")), ("GET", "/key/a?at=1", None, {}, (410, "belowhorizon")),
        ("PUT", "/key/a", "x", {"If_Match": '"1"'}, (412, "condition")),
        ("DELETE", "/key/a", None, {"If_Match": '"1"'}, (412, "condition")),
        ("GET", "/key/a", None, {"Ripsawbean_Identity": "another"}, (412, "identity")),
    ):
        told = await ask(method, path, body, **headers)
        assert told == wanted, (method, path, told, wanted)


async def see_undecided(client, ask):
    """A session's write is in the way, and so is a request that waits for it."""
    async with client.ws_connect("/session") as session:
        await session.send_str("begin\nput . b 2\n")
        await session.receive()
        assert await ask("GET", "/key/b?wait=0") == (503, "blocked")
        later = json.loads(await (await client.put("/key/c", data="1")).text())["timestamp"]
        assert await ask("GET", "/rows?wait=0&at=" + later) == (503, "notclosed")
        read = {"then": [{"get": "b"}]}
        first = asyncio.ensure_future(ask.transact(read, "?wait=20", Idempotency_Key="r"))
        while (told := await ask.transact(read, "?wait=0", Idempotency_Key="r")) == (503, "blocked"):
            await asyncio.sleep(0.01)  # the first one hasn't come yet
        assert told == (503, "running"), told
        await session.send_str("commit .\n")
        assert await first == (200, None)


async def see_slow_bodies(client, seen):
    """Bodies that come for too long, and so many that there is no room for one more."""
    wires = [Wire(client.port) for _ in range(MANY)]
    for wire in wires:
        wire.ask("POST", "/transact", "Content-Length: %d\r\n" % LONG)
        await asyncio.to_thread(wire.send, b"x" * (LONG - 1))
    found = set()
    for wire in wires:
        status, headers = await asyncio.to_thread(wire.head)
        found.add((status, json.loads(wire.exactly(int(headers["content-length"])))["error"]))
        assert status != 503 or headers["retry-after"].isdigit()
        wire.close()
    assert found == {(408, "slow"), (503, "bodies")}, found
    seen |= found


async def see_other_codings(client, seen):
    """A body that isn't in chunks alone ends its connection."""
    wire = Wire(client.port)
    wire.ask("POST", "/transact", "Transfer-Encoding: gzip, chunked\r\n")
    wire.send(b"0\r\n\r\n")
    status, headers = await asyncio.to_thread(wire.head)
    seen.add((status, json.loads(wire.exactly(int(headers["content-length"])))["error"]))
    assert await asyncio.to_thread(wire.ends_within, 20)
    wire.close()


async def see_tokens(ask):
    for who, method, path, wanted in (
        ("nobody", "GET", "/rows", (401, "token")), ("reader", "PUT", "/key/c", (403, "right")),
        ("some", "GET", "/key/a", (403, "keys")), ("some", "GET", "/rows", (403, "keys")),
    ):
        shown = {"reader": "reader-0123456789", "some": "some-0123456789abcdef"}.get(who, who)
        told = await ask(method, path, None, Authorization="Bearer " + shown)
        assert told == wanted, (who, method, path, told)


async def see_too_much(ask):
    """A transaction reads too many rows, or tells too many bytes."""
    for at in range(0, 10_000, 2000):
        rows = [{"put": "k%05d" % row, "value": "v"} for row in range(at, at + 2000)]
        assert await ask.transact({"then": rows}) == (200, None)
    assert await ask("GET", "/rows?limit=1&at=5&wait=20") == (200, None)  # it is closed
    assert await ask.transact({"if": [{"span": [None, None], "unchanged": "5"}] * 11}) == (422, "toomuch")
    assert await ask.transact({"then": [{"scan": [None, None], "limit": 10_000}]}) == (422, "replytoolong")


def refused_key(port, body):
    """How a request with one key more than there is room for is refused, of many that are sent ahead."""
    wire = Wire(port)
    for first in range(0, 1_000_000, AHEAD):
        for key in range(first, first + AHEAD):
            wire.ask("POST", "/transact", "Idempotency-Key: k%d\r\n" % key, body)
        for status, answer in [wire.answer() for _ in range(AHEAD)]:
            if status != 200:
                wire.close()
                return status, json.loads(answer)["error"]


async def see_remembered(client, ask):
    """Answers are remembered until their client's share is full. They are told again all the same."""
    body = json.dumps({"then": [{"put": "a", "value": "v" * 3900}, {"get": "a"}]})
    told = await asyncio.to_thread(refused_key, client.port, body.encode())
    assert told == (503, "remembered"), told
    assert await ask.transact(body, Idempotency_Key="k0") == (200, None)
    assert await ask.transact(body, Idempotency_Key="new") == (503, "remembered")


async def see_draining(client, ask):
    """The server is told to end, and waits for an undecided transaction. It takes no new connection."""
    async with client.ws_connect("/session") as session:
        await session.send_str("begin\nput . b 2\n")
        await session.receive()
        assert await ask.transact('{"then":[]}') == (200, None)
        client.process.terminate()
        while (told := await ask.transact('{"then":[]}')) == (200, None):
            await asyncio.sleep(0.01)
        assert told == (503, "draining"), told
        await session.send_str("commit .\n")
        assert "committed 1" in (await session.receive()).data


class Refusals(unittest.IsolatedAsyncioTestCase):
    async def test_each_refusal_of_the_page_is_seen(self):
        seen = set()
        async with served("--history", "0", "--max-message", str(LONG)) as client:
            ask = Asker(client, seen)
            await see_what_is_wrong(ask)
            await see_what_fails(ask)
            await see_undecided(client, ask)
            await see_slow_bodies(client, seen)
            await see_other_codings(client, seen)
        with tempfile.NamedTemporaryFile("w") as file:
            file.write(TOKENS)
            file.flush()
            async with served("--tokens", file.name) as client:
                await see_tokens(Asker(client, seen))
        async with served("--max-reply", "100000", "--history", "60") as client:
            await see_too_much(Asker(client, seen))
        async with served() as client:
            await see_remembered(client, Asker(client, seen))
        async with served("--drain", "20") as client:
            await see_draining(client, Asker(client, seen))
        for refusal, test in TESTS_OF.items():
            self.assertIn('(%d, "%s")' % refusal, inspect.getsource(test))
        refusals = {(status, error) for status, error in seen if status >= 400}
        self.assertEqual(refusals | set(TESTS_OF) | OF_MEMORY, listed())


if __name__ == "__main__":
    unittest.main()
