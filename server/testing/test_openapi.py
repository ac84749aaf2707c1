"""What /openapi.json says is compared with what the server answers.

Each documented status is got by a request, each answer is of the documented form, and 3,000 random bodies are taken by
the server exactly where their schema takes them. `server/test` runs it, and so does `server/python
testing/test_openapi.py` in server/. It needs python3-jsonschema.
"""

import asyncio
import json
import os
import random
import sys
import tempfile
import unittest

import jsonschema
from multidict import CIMultiDict

sys.path[:0] = [os.path.dirname(os.path.abspath(__file__))]
from test_served import served  # noqa: E402

TOKEN = "0123456789abcdef"
BODIES = 3000
SLOW = 60  # seconds that the answer to a body may take, of which the server lets pass ten


class Documented:
    """Asks, and compares each answer with the document."""

    def __init__(self, client, document):
        self.client, self.document, self.seen = client, document, set()
        components = {"components": document["components"]}
        self.schemas = {name: jsonschema.Draft202012Validator({"$ref": "#/components/schemas/" + name, **components})
                        for name in document["components"]["schemas"]}

    async def ask(self, method, path, body=None, shown=TOKEN, **headers):
        headers = {name.replace("_", "-"): value for name, value in headers.items()}
        if shown:
            headers["Authorization"] = "Bearer " + shown
        reply = await self.client.request(method, path, data=body, headers=headers)
        data = await reply.read()
        self.compare(method, path, reply.status, reply.headers, data)
        return reply.status, data

    async def ask_by_hand(self, method, path, rest):
        """Sends a body, with lines before it, that no client sends, and waits for the answer."""
        reader, writer = await asyncio.open_connection("127.0.0.1", self.client.port)
        head = "%s %s HTTP/1.1\r\nHost: 127.0.0.1:%d\r\nAuthorization: Bearer %s\r\n%s"
        writer.write((head % (method, path, self.client.port, TOKEN, rest)).encode())
        first, *lines = (await asyncio.wait_for(reader.readuntil(b"\r\n\r\n"), SLOW)).decode().split("\r\n")[:-2]
        headers = CIMultiDict(tuple(line.split(": ", 1)) for line in lines)
        data = await reader.readexactly(int(headers["Content-Length"]))
        self.compare(method, path, int(first.split(" ")[1]), headers, data)
        writer.close()

    def compare(self, method, path, status, headers, data):
        """Notes an answer, which has to be a documented one."""
        place = path.partition("?")[0]
        place = "/key/{key}" if place.startswith("/key/") else place
        self.seen.add((place, method, status))
        said = self.document["paths"][place][method.lower()]["responses"].get(str(status))
        assert said is not None, (method, path, status, data[:200])
        if "$ref" in said:
            said = self.document["components"]["responses"][said["$ref"].rpartition("/")[2]]
        if data:
            kind, kinds = headers["Content-Type"].partition(";")[0], said.get("content", {})
            assert kind in kinds, (method, path, status, kind)
            schema = kinds[kind].get("schema")
            if schema:
                self.schemas[schema["$ref"].rpartition("/")[2]].validate(json.loads(data))
        for name in said.get("headers", {}):
            assert name in headers or name == "Link", (method, path, status, name)

    def documented(self):
        return {(path, method.upper(), int(status)) for path, methods in self.document["paths"].items()
                for method, one in methods.items() if method != "parameters" for status in one["responses"]}


async def see_transact(ask):
    async def transact(body, query="", **more):
        return await ask("POST", "/transact" + query, body if isinstance(body, str) else json.dumps(body), **more)

    await transact({"then": [{"put": "a", "value": "1"}, {"get": "a"}, {"scan": [None, None]}, {"del": "b"}]})
    await transact({"then": [{"get": "a"}]}, "?bytes=base64&wait=0.5", Idempotency_Key="t")
    await transact({"then": [{"get": "b"}]}, Idempotency_Key="t")
    for body in ("{", {"if": [{"key": "a", "value": "2"}]}, {"then": [{"put": "a", "value": 1}]}, "x" * 300_000):
        await transact(body)
    await transact("{}", shown=None)
    await transact("{}", Origin="http://x")
    await transact("{}", Content_Encoding="gzip")
    for value in range(3):
        await ask("PUT", "/key/a", "v%d" % value)
    await asyncio.sleep(2.3)
    for since in ("1", "99999"):
        await transact({"if": [{"span": [None, None], "unchanged": since}]})


async def see_keys(ask):
    _, data = await ask("GET", "/key/a", Accept="application/json")
    tag = '"%s"' % json.loads(data)["version"]
    for method in ("GET", "HEAD"):
        for path in ("/key/a", "/key/none", "/key/a?at=x", "/key/a?at=1", "/key/a?at=999999"):
            await ask(method, path)
        await ask(method, "/key/a", If_None_Match=tag)
    await ask("PUT", "/key/a", "x", If_Match='"1"')
    await ask("PUT", "/key/a", "x", If_Match="1")
    await ask("PUT", "/key/a", "x" * 70_000)
    await ask("PUT", "/key/a", "x", Content_Encoding="gzip")
    await ask("DELETE", "/key/a", If_Match='"1"')
    await ask("DELETE", "/key/")
    await ask("DELETE", "/key/none")
    await ask("PUT", "/key/a", "x", Idempotency_Key="q")
    await ask("PUT", "/key/a", "y", Idempotency_Key="q")
    await ask("DELETE", "/key/a", Idempotency_Key="q")
    await ask("DELETE", "/key/a")
    for method in ("GET", "HEAD", "PUT", "DELETE"):
        await ask(method, "/key/a", shown=None)
        await ask(method, "/key/a", Origin="http://x")


async def see_rows(ask):
    for at in range(3):
        await ask("PUT", "/key/a%d" % at, b"\xff")
    for method in ("GET", "HEAD"):
        for query in ("?limit=2", "", "?limit=0", "?at=1", "?at=99999"):
            await ask(method, "/rows" + query)
        await ask(method, "/rows", shown=None)
        await ask(method, "/rows", Origin="http://x")


async def see_identity(ask):
    """Another database is named: nothing is done."""
    for method, path, body in (
        ("POST", "/transact", '{"then":[{"put":"other","value":"1"}]}'), ("PUT", "/key/other", "1"),
        ("DELETE", "/key/a", None), ("GET", "/key/a", None), ("HEAD", "/key/a", None), ("GET", "/rows", None),
        ("HEAD", "/rows", None),
    ):
        status, _ = await ask(method, path, body, Ripsawbean_Identity="of another database")
        assert status == 412, (method, path, status)
    assert (await ask("GET", "/key/other"))[0] == 404


async def see_odd_bodies(ask_by_hand):
    """Less than what is said, and more codings than one."""
    odd = ("Content-Length: 9\r\n\r\nx", "Transfer-Encoding: gzip, chunked\r\n\r\n0\r\n\r\n")
    writes = (("POST", "/transact"), ("PUT", "/key/a"))
    await asyncio.gather(*(ask_by_hand(*write, rest) for write in writes for rest in odd))


async def see_blocked(client, ask):
    async with client.ws_connect("/session", headers={"Authorization": "Bearer " + TOKEN}) as session:
        await session.send_str("begin\nput . a1 2\n")
        await session.receive()
        await ask("POST", "/transact?wait=0", '{"then":[{"get":"a1"}]}')
        for method in ("GET", "HEAD"):
            await ask(method, "/key/a1?wait=0")
        await ask("PUT", "/key/a1?wait=0", "x", If_Match="*")
        await ask("DELETE", "/key/a1?wait=0")
        _, data = await ask("PUT", "/key/q", "x")
        for method in ("GET", "HEAD"):
            await ask(method, "/rows?wait=0&at=" + json.loads(data)["timestamp"])


class Bodies:
    """Random bodies, most of which are taken."""

    def __init__(self, seed):
        self.drawn = random.Random(seed)

    def one_in(self, count):
        return self.drawn.randrange(count) == 0

    def bytes(self):
        odd = ["a", "", "b c", "\u00fc", "-", "k" * 256, "k" * 257, {"base64": "/w=="}, {"base64": ""}, {"base64": "x"},
               {"base64": "_w=="}, {"base64": "/x=="}, 3, None, True, {"base64": 1}, {}, ["a"], {"base64": "YQ==", "x": 1}]
        return self.drawn.choice(odd if self.one_in(4) else ["a", "b", {"base64": "/w=="}])

    def timestamp(self):
        return self.drawn.choice(["0", "1", "01", "-1", 1, "x", None, "9" * 20]) if self.one_in(5) else "0"

    def condition(self):
        key = self.bytes()
        absent = self.drawn.choice([True, False, 1, None]) if self.one_in(3) else True
        return self.drawn.choice([
            {"key": key, "value": self.bytes()}, {"key": key, "absent": absent}, {"key": key, "version": self.timestamp()},
            {"span": [None, self.bytes()], "unchanged": "0"}, {"key": key}, {"key": key, "value": "", "absent": True}, 3])

    def step(self):
        limit = self.drawn.choice([1, 5, 0, 10001, 2.5, 2.0, "1", True, None]) if self.one_in(2) else 3
        return self.drawn.choice([
            {"put": self.bytes(), "value": self.bytes()}, {"del": self.bytes()}, {"get": self.bytes()},
            {"scan": [self.drawn.choice([None, self.bytes()]), None]}, {"scan": [None, None], "limit": limit},
            *([{"put": "a"}, {"get": "a", "x": 1}, {"scan": [None]}, None] if self.one_in(5) else [])])

    def body(self):
        body = {}
        if self.one_in(2):
            body["if"] = [self.condition() for _ in range(self.drawn.randrange(3))]
        if not self.one_in(5):
            body["then"] = [self.step() for _ in range(self.drawn.randrange(4))]
        if self.one_in(3):
            body["else"] = [self.step() for _ in range(self.drawn.randrange(2))]
        if self.one_in(30):
            body["x"] = 1
        return self.drawn.choice([[], 3, None, "x"]) if self.one_in(50) else body


class OpenApi(unittest.IsolatedAsyncioTestCase):
    async def test_what_is_documented_is_what_is_answered(self):
        with tempfile.NamedTemporaryFile("w") as token:
            token.write(TOKEN + "\n")
            token.flush()
            async with served("--history", "0", "--token", token.name, "--max-message", "200000") as client:
                reply = await client.get("/openapi.json", headers={"Authorization": "Bearer " + TOKEN})
                document = json.loads(await reply.text())
                for schema in document["components"]["schemas"].values():
                    jsonschema.Draft202012Validator.check_schema(schema)
                asking = Documented(client, document)
                await see_transact(asking.ask)
                await see_keys(asking.ask)
                await see_rows(asking.ask)
                await see_identity(asking.ask)
                await see_blocked(client, asking.ask)
                await see_odd_bodies(asking.ask_by_hand)
                self.assertEqual(asking.documented() - asking.seen, set())
                await self.compare_bodies(asking)

    async def compare_bodies(self, asking):
        bodies, taken = Bodies(3), 0
        for _ in range(BODIES):
            body = bodies.body()
            is_valid = asking.schemas["Transaction"].is_valid(body)
            status, data = await asking.ask("POST", "/transact", json.dumps(body))
            # The horizon moves, so a snapshot may be gone.
            self.assertEqual(is_valid, status in (200, 409, 410), (body, status, data[:200]))
            self.assertIn(status, (200, 409, 410, 422), (body, data[:200]))
            taken += is_valid
        self.assertTrue(BODIES // 5 < taken < BODIES * 4 // 5, taken)


if __name__ == "__main__":
    unittest.main()
