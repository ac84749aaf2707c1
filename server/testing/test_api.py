"""POST /transact, /key, /rows, Idempotency-Key, strict lines and feeds with `before`: a server of its own for each test.

`server/test` runs them, and so does `server/python testing/test_api.py` in server/.
"""

import asyncio
import contextlib
import json
import os
import random
import sys
import time
import unittest

sys.path[:0] = [os.path.dirname(os.path.abspath(__file__))]
import aiohttp  # noqa: E402

from machine import LONGEST  # noqa: E402
from test_served import SHARE, refusal, served, told  # noqa: E402


async def transact(client, body, query="", **headers):
    """Status, answer and headers."""
    headers = {name.replace("_", "-"): value for name, value in headers.items()}
    reply = await client.post("/transact" + query, data=body if isinstance(body, (str, bytes)) else json.dumps(body),
                              headers=headers)
    return reply.status, json.loads(await reply.text()), reply.headers


def put(*pairs):
    return {"then": [{"put": key, "value": value} for key, value in pairs]}


@contextlib.asynccontextmanager
async def undecided(client, lines):
    """A session whose transaction isn't decided."""
    async with client.ws_connect("/session") as socket:
        await socket.send_str(lines)
        await socket.receive()
        yield socket


ACCOUNTS = ["acc/%d" % at for at in range(4)]
MOVES = 20  # of each client
LONGEST_PAUSE = 0.01  # seconds


class Mover:
    """A client that moves money between accounts. Behind a lost race it waits for a while that is drawn: those that have
    met would else meet again and again, and the one that always comes second would never win."""

    def __init__(self, client, draw):
        self.client, self.dice = client, random.Random(draw)
        self.moves, self.lost = [], 0  # timestamp, balances as they were read, balances as they were written

    async def move(self, end):
        while len(self.moves) < MOVES and time.monotonic() < end:
            accounts = self.dice.sample(ACCOUNTS, 2)
            rows = (await transact(self.client, {"then": [{"get": account} for account in accounts]}))[1]["results"]
            read = {row["key"]: int(row["value"]) for row in rows}
            written = {account: read[account] + step for account, step in zip(accounts, (-1, 1))}
            same = [{"key": row["key"], "version": row["version"]} for row in rows]
            pairs = ((account, str(balance)) for account, balance in written.items())
            status, answer, _ = await transact(self.client, {"if": same, **put(*pairs)})
            if status == 200:
                self.moves.append((int(answer["timestamp"]), read, written))
            elif (status, answer["error"]) == (409, "condition"):
                self.lost += 1
                await asyncio.sleep(self.dice.random() * LONGEST_PAUSE)
            else:
                raise AssertionError("%d %s" % (status, answer))


def at_address(client, address):
    """Another client of the same server."""
    base, connector = "http://127.0.0.1:%d" % client.port, aiohttp.TCPConnector(local_addr=(address, 0))
    return aiohttp.ClientSession(base, connector=connector)


class Transactions(unittest.IsolatedAsyncioTestCase):
    async def test_a_transaction_is_all_or_nothing(self):
        async with served() as client:
            status, answer, _ = await transact(client, {"then": [{"put": "a", "value": "3"}, {"get": "a"}]})
            expected = {"timestamp": "1", "branch": "then", "written": 1,
                        "results": [None, {"key": "a", "value": "3", "version": "1"}]}
            self.assertEqual((status, answer), (200, expected))
            body = {"if": [{"key": "a", "value": "2"}], **put(("a", "4"), ("b", "5"))}
            status, answer, _ = await transact(client, body)
            self.assertEqual((status, answer["error"], answer["found"]),
                             (409, "condition", [{"if": 0, "key": "a", "value": "3", "version": "1"}]))
            self.assertEqual((await client.get("/key/b")).status, 404)
            status, answer, _ = await transact(client, {**body, "else": [{"get": "a"}]})
            self.assertEqual((status, answer["branch"], answer["written"]), (200, "else", 0))

    async def test_what_is_no_plan_is_refused_and_begins_nothing(self):
        async with served("--max-message", "1000") as client:
            for body, expected in (
                ("{", (400, "json", None)), ('{"then":[],"then":[]}', (400, "json", None)),
                ('{"then":[{"get":NaN}]}', (400, "json", None)), ("{}".encode("utf-16"), (400, "json", None)),
                ('{"fi":[]}', (422, "member", "/fi")),
                ('{"then":[{"put":"x","value":1}]}', (422, "member", "/then/0/value")),
                ('{"then":[{"get":""}]}', (422, "keylength", "/then/0/get")),
                ("x" * 1001, (413, "toolong", None)),
            ):
                status, answer, _ = await transact(client, body)
                self.assertEqual((status, answer["error"], answer.get("member")), expected, body)
            for query, error in (("?wait=31", "number"), ("?wait=nan", "number"), ("?bytes=hex", "bytes"),
                                 ("?x=1", "argument")):
                status, answer, _ = await transact(client, "{}", query)
                self.assertEqual((status, answer["error"]), (400, error), query)
            status, answer, _ = await transact(client, "{}", Content_Encoding="gzip")
            self.assertEqual((status, answer["error"]), (415, "encoding"))
            self.assertIn("\nripsawbean_calls_total 0\n", await (await client.get("/metrics")).text())

    async def test_it_waits_for_the_decision_of_who_blocks_it(self):
        body = {"then": [{"get": "a"}, {"put": "b", "value": "1"}]}
        for end, value in (("commit .\n", "new"), ("abort .\n", None)):
            async with served() as client, undecided(client, "begin\nput . a new\n") as socket:
                asked = asyncio.ensure_future(transact(client, body, "?wait=20"))
                await asyncio.sleep(0.2)
                self.assertFalse(asked.done())
                await socket.send_str(end)
                status, answer, _ = await asked
                self.assertEqual((status, answer["results"][0]["value"]), (200, value))

    async def test_what_is_blocked_for_too_long_leaves_nothing(self):
        async with served() as client, undecided(client, "begin\nput . a new\n") as socket:
            body = {"then": [{"put": "b", "value": "1"}, {"get": "a"}]}
            for query in ("?wait=0", "?wait=0.1"):
                status, answer, headers = await transact(client, body, query)
                self.assertEqual((status, answer["error"], answer["by"], headers["Retry-After"]),
                                 (503, "blocked", "1", "1"))
            self.assertEqual(await refusal(await client.get("/key/a?wait=0")), (503, "blocked"))
            self.assertEqual(await refusal(await client.get("/key/b")), (404, "none"))
            self.assertEqual(await refusal(await client.get("/key/a?at=0")), (404, "none"))
            self.assertEqual(await refusal(await client.get("/rows?at=2&wait=0")), (503, "notclosed"))
            self.assertEqual(await refusal(await client.get("/rows?at=900&wait=20")), (409, "notclosed"))
            kinds = [json.loads(line)["kind"] for line in (await (await client.get("/holders")).text()).splitlines()]
            self.assertEqual(kinds.count("transaction"), 1)
            await socket.send_str("commit .\n")
            await socket.receive()
            self.assertEqual(await (await client.get("/key/a")).text(), "new")

    async def test_no_seat_is_taken(self):
        async with served() as client, contextlib.AsyncExitStack() as sessions:
            for _ in range(SHARE):
                await sessions.enter_async_context(client.ws_connect("/session"))
            self.assertEqual(await refusal(await client.post("/call", data="stats")), (503, "seats"))
            self.assertEqual((await transact(client, put(("a", "1"))))[0], 200)
            self.assertEqual((await client.get("/key/a")).status, 200)
            self.assertEqual((await client.get("/rows")).status, 200)

    async def test_money_stays_where_many_move_it_at_once(self):
        """Read, compare and write, by several clients at once: what is lost to a race is refused, and is read anew."""
        async with served() as client:
            await transact(client, put(*((account, "100") for account in ACCOUNTS)))
            end = time.monotonic() + LONGEST
            movers = [Mover(client, draw) for draw in range(8)]
            await asyncio.gather(*(mover.move(end) for mover in movers))
            # In their order each has read what those before it have left, so none was lost and none counts twice.
            balances = dict.fromkeys(ACCOUNTS, 100)
            for timestamp, read, written in sorted(sum((mover.moves for mover in movers), []), key=lambda move: move[0]):
                self.assertEqual(read, {account: balances[account] for account in read}, timestamp)
                balances.update(written)
            rows = json.loads(await (await client.get("/rows?lo=acc/&hi=acc0")).text())["rows"]
            self.assertEqual({row["key"]: int(row["value"]) for row in rows}, balances)
            self.assertEqual(sum(balances.values()), 400)
            self.assertEqual({len(mover.moves) for mover in movers}, {MOVES}, [mover.lost for mover in movers])
            self.assertTrue(any(mover.lost for mover in movers), "none has met another one")


class Remembered(unittest.IsolatedAsyncioTestCase):
    async def test_a_key_commits_once(self):
        async with served("--remember", "1") as client:
            body = put(("a", "1"))
            answers = await asyncio.gather(*(transact(client, body, Idempotency_Key="k") for _ in range(20)))
            self.assertEqual({(status, answer["timestamp"]) for status, answer, _ in answers}, {(200, "1")})
            self.assertEqual(sum("Idempotent-Replayed" in headers for _, _, headers in answers), 19)
            status, answer, _ = await transact(client, {"then": []}, Idempotency_Key="k")
            self.assertEqual((status, answer["error"]), (422, "idempotencykey"))
            # What failed has done nothing, and is run again.
            failed = {"if": [{"key": "z", "value": "1"}], **put(("y", "1"))}
            self.assertEqual((await transact(client, failed, Idempotency_Key="f"))[0], 409)
            await transact(client, put(("z", "1")))
            self.assertEqual((await transact(client, failed, Idempotency_Key="f"))[0], 200)
            await asyncio.sleep(1.1)
            status, answer, headers = await transact(client, body, Idempotency_Key="k")
            self.assertEqual((status, "Idempotent-Replayed" in headers), (200, False))
            status, answer, _ = await transact(client, body, Idempotency_Key="a b")
            self.assertEqual((status, answer["error"]), (400, "idempotencykey"))

    async def test_a_key_stands_for_all_that_is_asked(self):
        async with served() as client:
            async def ask(method, path, data=None, **headers):
                headers = {"Idempotency-Key": "k", **{name.replace("_", "-"): one for name, one in headers.items()}}
                reply = await client.request(method, path, data=data, headers=headers)
                return reply.status, reply.headers.get("ETag"), "Idempotent-Replayed" in reply.headers

            self.assertEqual(await ask("PUT", "/key/a", "1"), (200, '"1"', False))
            self.assertEqual(await ask("PUT", "/key/a", "1"), (200, '"1"', True))
            self.assertEqual(await ask("PUT", "/key/a", "2"), (422, None, False))
            self.assertEqual(await ask("PUT", "/key/b", "1"), (422, None, False))
            self.assertEqual(await ask("PUT", "/key/a", "1", If_Match='"1"'), (422, None, False))
            self.assertEqual(await ask("DELETE", "/key/a"), (422, None, False))


class Keys(unittest.IsolatedAsyncioTestCase):
    async def test_versions_are_etags(self):
        async with served() as client:
            async def ask(method, value=None, **headers):
                headers = {name.replace("_", "-"): one for name, one in headers.items()}
                reply = await client.request(method, "/key/a", data=value, headers=headers)
                return reply.status, reply.headers.get("ETag")

            for method, value, headers, expected in (
                ("PUT", "1", {"If_Match": '"1"'}, (412, None)), ("PUT", "1", {"If_Match": "*"}, (412, None)),
                ("PUT", "1", {"If_None_Match": "*"}, (200, '"3"')), ("PUT", "1", {"If_None_Match": "*"}, (412, None)),
                ("PUT", "2", {"If_Match": '"2", "3"'}, (200, '"5"')), ("PUT", "2", {"If_Match": 'W/"5"'}, (412, None)),
                ("PUT", "2", {"If_Match": "5"}, (400, None)), ("PUT", "2", {"If_None_Match": '"5"'}, (412, None)),
                ("GET", None, {"If_None_Match": 'W/"5"'}, (304, '"5"')), ("GET", None, {}, (200, '"5"')),
                ("HEAD", None, {}, (200, '"5"')), ("DELETE", None, {"If_Match": '"3"'}, (412, None)),
                ("DELETE", None, {"If_Match": '"5"'}, (200, None)), ("DELETE", None, {}, (404, None)),
                ("DELETE", None, {"If_Match": "*"}, (412, None)),
            ):
                self.assertEqual(await ask(method, value, **headers), expected, (method, value, headers))

    async def test_any_bytes_are_a_key(self):
        async with served() as client:
            reader, writer = await asyncio.open_connection("127.0.0.1", client.port)

            async def ask(method, path, body=b""):
                head = b"%b %b HTTP/1.1\r\nHost: 127.0.0.1:%d\r\nContent-Length: %d\r\n\r\n"
                writer.write(head % (method, path, client.port, len(body)) + body)
                answer = await reader.readuntil(b"\r\n\r\n")
                length = next(line for line in answer.split(b"\r\n") if line.lower().startswith(b"content-length:"))
                return answer.split(b" ")[1], await reader.readexactly(int(length.split(b":")[1]))

            for path, same in ((b"/key/a/b", b"/key/a%2Fb"), (b"/key/%00%fF", b"/key/%00%FF"), (b"/key/%2E%2E", b"/key/.."),
                               (b"/key//", b"/key/%2f"), (b"/key/a+b", b"/key/a%2Bb"), (b"/key/%3F", b"/key/%3f?wait=1")):
                self.assertEqual((await ask(b"PUT", path, path))[0], b"200", path)
                self.assertEqual(await ask(b"GET", same), (b"200", path), same)
            self.assertEqual((await ask(b"PUT", b"/key/" + b"k" * 256))[0], b"200")
            for path in (b"/key/" + b"k" * 257, b"/key/"):
                status, body = await ask(b"PUT", path)
                self.assertEqual((status, json.loads(body)["error"]), (b"400", "keylength"))
            writer.close()

    async def test_values_are_any_bytes_as_they_are(self):
        async with served() as client:
            for value in (b"", b"\x00\xff\r\n", b"x" * 65536):
                self.assertEqual((await client.put("/key/a", data=value)).status, 200)
                reply = await client.get("/key/a")
                self.assertEqual((await reply.read(), reply.content_type), (value, "application/octet-stream"))
            self.assertEqual(await refusal(await client.put("/key/a", data=b"x" * 65537)), (413, "valuelength"))
            self.assertEqual(await refusal(await client.put("/key/a", data=b"", headers={"Content-Encoding": "br"})),
                             (415, "encoding"))

    async def test_what_is_deleted_where_it_is_absent_is_told_to_no_feed(self):
        async with served() as client:
            reply = await client.get("/feed")
            self.assertEqual(await refusal(await client.delete("/key/none")), (404, "none"))
            await client.put("/key/a", data="1")
            rows = await told(reply, lambda message: "key" in message)
            self.assertEqual([row["key"] for row in rows if "key" in row], ["YQ=="])


class Rows(unittest.IsolatedAsyncioTestCase):
    async def test_pages_stay_on_one_snapshot_while_rows_change_and_are_collected(self):
        async with served("--history", "0") as client:
            await transact(client, put(*(("k%03d" % at, "old") for at in range(300))))
            path, found = "/rows?limit=37", []
            while path:
                page = json.loads(await (await client.get(path)).text())
                found, path = found + page["rows"], page["next"]
                change = put(*(("k%03d" % at, "new") for at in range(0, 300, 2)))
                change["then"] += [{"del": "k%03d" % at} for at in range(1, 300, 2)]
                await transact(client, change)
                await asyncio.sleep(0.3)
            self.assertEqual(found, [{"key": "k%03d" % at, "value": "old", "version": "1"} for at in range(300)])
            self.assertEqual(await refusal(await client.get("/key/k000?at=0")), (410, "belowhorizon"))

    async def test_a_hold_ends(self):
        async with served("--history", "0") as client:
            await client.put("/key/a", data="1")
            self.assertEqual((await client.get("/key/a?at=1&hold=2")).status, 200)
            await client.put("/key/a", data="2")
            await asyncio.sleep(1.2)
            self.assertEqual(await (await client.get("/key/a?at=1")).text(), "1")

            async def is_gone():
                return (await client.get("/key/a?at=1")).status == 410

            for _ in range(200):
                if await is_gone():
                    return
                await asyncio.sleep(0.1)
            self.fail("it is held for ever")

    async def test_what_lags_too_far_is_held_no_longer(self):
        """A walk whose snapshot was let go is refused: it is never told rows of another one."""
        async with served("--history", "0", "--max-lag", "100") as client:
            await transact(client, put(*(("k%03d" % at, "old") for at in range(50))))
            page = json.loads(await (await client.get("/rows?limit=10&hold=300")).text())
            for _ in range(30):
                await transact(client, put(*(("k%03d" % at, "new") for at in range(50))))
                reply = await client.get(page["next"])
                if reply.status == 410:
                    self.assertEqual(await refusal(reply), (410, "belowhorizon"))
                    return
                self.assertEqual({row["value"] for row in json.loads(await reply.text())["rows"]}, {"old"})
                await asyncio.sleep(0.2)
            self.fail("it is held for ever")

    async def test_snapshots_that_are_held_are_bounded(self):
        """One address holds its share, and all together the whole. Who holds nothing is told all the same."""
        async with served("--history", "600") as client, at_address(client, "127.0.0.2") as second, \
                at_address(client, "127.0.0.3") as third:
            await client.put("/key/b", data="1")
            for at in range(257):
                await client.put("/key/a", data="%d" % at)

            async def hold(who, first, last):
                return {(await who.get("/key/a?hold=300&at=%d" % at)).status for at in range(first, last + 1)}

            async def refused_to(who, path):
                reply = await who.get(path)
                self.assertEqual(await refusal(reply), (503, "holds"))
                self.assertTrue(100 < int(reply.headers["Retry-After"]) <= 300, reply.headers)
                return json.loads(await reply.text())["of"]

            self.assertEqual(await hold(client, 2, 197), {200})
            for path in ("/key/a?hold=300&at=198", "/rows?limit=1", "/rows?hold=1"):
                self.assertEqual(await refused_to(client, path), "client", path)
            self.assertEqual(await hold(client, 2, 3), {200})
            self.assertEqual((await client.get("/rows")).status, 200)
            self.assertEqual(await hold(second, 2, 2) | await hold(second, 198, 256), {200})
            self.assertEqual(await hold(third, 257, 257), {200})
            self.assertEqual(await refused_to(third, "/key/a?hold=300&at=258"), "all")
            self.assertEqual(await hold(third, 2, 197), {200, 503})

    async def test_a_page_that_holds_nothing(self):
        """It is told, and so is the next one, as long as the snapshot is there."""
        async with served("--history", "0") as client:
            await transact(client, put(("a", "1"), ("b", "1"), ("c", "1")))
            page = json.loads(await (await client.get("/rows?limit=1&hold=0")).text())
            self.assertEqual(page["next"], "/rows?lo=b&at=1&limit=1&hold=0")
            self.assertEqual((await client.get("/key/a?hold=0")).status, 200)
            self.assertNotIn('"protection"', await (await client.get("/holders")).text())
            self.assertEqual((await client.get(page["next"])).status, 200)
            await client.put("/key/a", data="2")
            for _ in range(100):
                reply = await client.get(page["next"])
                if reply.status != 200:
                    break
                await asyncio.sleep(0.1)
            self.assertEqual(await refusal(reply), (410, "belowhorizon"))

    async def test_a_hold_without_a_timestamp_is_of_what_was_read(self):
        async with served("--history", "0") as client, undecided(client, "begin\nput . other 1\n") as socket:
            await client.put("/key/a", data="1")
            asked = asyncio.ensure_future(client.get("/key/a?hold=100&wait=20"))
            await asyncio.sleep(0.2)
            await socket.send_str("commit .\n")
            reply = await asked
            self.assertEqual((reply.status, await reply.text()), (200, "1"))
            await client.put("/key/a", data="2")
            await asyncio.sleep(1.5)
            at = reply.headers["Ripsawbean-Timestamp"]
            self.assertEqual(await (await client.get("/key/a?at=" + at)).text(), "1")


class Tokens(unittest.IsolatedAsyncioTestCase):
    async def test_rights_and_keys_are_asked_of_each_step(self):
        tokens = b"reader read - - reader-0123456789\nsome read,write b d writer-0123456789\n"
        with contextlib.ExitStack() as files:
            file = files.enter_context(__import__("tempfile").NamedTemporaryFile())
            file.write(tokens)
            file.flush()
            async with served("--tokens", file.name) as client:
                async def ask(who, method, path, body=None):
                    shown = {"Authorization": "Bearer %s-0123456789" % who}
                    reply = await client.request(method, path, data=body, headers=shown)
                    return reply.status, (await reply.json(content_type=None)).get("error") if reply.status >= 400 else None

                writes = json.dumps(put(("c", "1")))
                for who, method, path, body, expected in (
                    ("reader", "POST", "/transact", '{"then":[{"get":"a"}]}', (200, None)),
                    ("reader", "POST", "/transact", writes, (403, "right")),
                    ("reader", "PUT", "/key/c", "1", (403, "right")), ("reader", "DELETE", "/key/c", None, (403, "right")),
                    ("reader", "GET", "/rows", None, (200, None)),
                    ("writer", "POST", "/transact", writes, (200, None)),
                    ("writer", "POST", "/transact", json.dumps(put(("c", "1"), ("d", "1"))), (403, "keys")),
                    ("writer", "POST", "/transact", '{"then":[{"scan":["b",null]}]}', (403, "keys")),
                    ("writer", "POST", "/transact", '{"if":[{"span":["a","c"],"unchanged":"0"}]}', (403, "keys")),
                    ("writer", "GET", "/key/a", None, (403, "keys")), ("writer", "PUT", "/key/c", "2", (200, None)),
                    ("writer", "GET", "/rows", None, (403, "keys")), ("writer", "GET", "/rows?lo=b&hi=d", None, (200, None)),
                    ("nobody", "GET", "/rows", None, (401, "token")),
                ):
                    self.assertEqual(await ask(who, method, path, body), expected, (who, method, path, body))


class Lines(unittest.IsolatedAsyncioTestCase):
    async def test_a_failed_line_ends_its_transaction(self):
        async with served() as client:
            async def call(text, query=""):
                reply = await client.post("/call" + query, data=text)
                lines = (await reply.text()).splitlines()
                return reply.status, [" ".join(line.split(" ")[:4]) if line.startswith("fault")
                                      else line.rpartition(" => ")[2] for line in lines]

            faulty = ["started", "fault 2 1 wordcount", "fault 3 71 skipped", "aborted"]
            for query, status in (("", 200), ("?strict=1", 422), ("?strict=0", 200)):
                self.assertEqual(await call("begin\nput . k 10 EUR\nput . p yes\ncommit .\n", query), (status, faulty))
            self.assertEqual((await client.get("/key/p")).status, 404)
            self.assertEqual(await call("begin\nput . k 1\ncommit .", "?strict=1"),
                             (200, ["started", "written", "committed 1"]))
            async with undecided(client, "begin\nput . count 5\n"):
                status, answers = await call("begin\nget . count\nput . count 6\ncommit .\n", "?strict=1")
                self.assertEqual((status, answers[0], answers[2:]), (409, "started", ["fault 3 71 skipped", "aborted"]))
            self.assertEqual((await client.post("/call?strict=yes", data="stats")).status, 400)

    async def test_messages_of_a_session_are_each_for_itself(self):
        async with served() as client, client.ws_connect("/session") as socket:
            async def say(text):
                await socket.send_str(text)
                return (await socket.receive()).data

            self.assertIn("fault 2 1 wordcount put takes TS KEY VALUE", await say("begin\nput . k\n"))
            self.assertIn("=> committed 1", await say("put . k 1\ncommit .\n"))


class Before(unittest.IsolatedAsyncioTestCase):
    async def test_a_feed_tells_what_was_there(self):
        async with served() as client:
            await client.put("/key/a", data="1")
            reply = await client.get("/feed?before=1")
            plain = await client.get("/feed?before=0")
            await client.put("/key/a", data="2")
            await client.delete("/key/a")
            rows = [row for row in await told(reply, lambda row: row.get("after", "") is None) if "key" in row]
            self.assertEqual([(row["before"], row["after"]) for row in rows],
                             [(None, "MQ=="), ("MQ==", "Mg=="), ("Mg==", None)])
            rows = await told(plain, lambda row: row.get("after", "") is None)
            self.assertFalse(any("before" in row for row in rows))
            self.assertEqual(await refusal(await client.get("/feed?before=yes")), (400, "argument"))

    async def test_a_browsers_events_have_it_too(self):
        async with served() as client:
            reply = await client.get("/feed?before=1", headers={"Accept": "text/event-stream"})
            await client.put("/key/a", data="1")
            async for line in reply.content:
                if b'"key"' in line:
                    row = json.loads(line.removeprefix(b"data: "))
                    self.assertEqual((row["before"], row["after"]), (None, "MQ=="))
                    return


class Memory(unittest.IsolatedAsyncioTestCase):
    async def test_connections_that_wait_leave_room_to_others(self):
        """Of eight one address has six that are busy, and another one is served."""
        async with served("--max-connections", "8") as client, at_address(client, "127.0.0.2") as other, \
                client.ws_connect("/session") as session:
            await session.send_str("begin\n")
            begun = (await session.receive()).data.split(" ")[3]
            waiting = [asyncio.ensure_future(client.get("/key/a?wait=30&at=" + begun)) for _ in range(5)]
            for _ in range(100):
                reply = await client.get("/key/a")
                if reply.status == 503:
                    break
                await asyncio.sleep(0.05)
            self.assertEqual(await refusal(reply), (503, "connections"))
            self.assertTrue(reply.headers["Retry-After"].isdigit())
            self.assertEqual((await other.put("/key/b", data="1")).status, 200)
            await session.send_str("abort .\n")
            self.assertEqual({one.status for one in await asyncio.gather(*waiting)}, {404})

    async def test_where_it_is_full_keys_are_deleted_alone(self):
        async with served("--max-memory", "1") as client:
            await asyncio.sleep(1.2)
            self.assertEqual(await refusal(await client.put("/key/a", data="1")), (503, "full"))
            self.assertEqual((await transact(client, {"then": [{"del": "a"}]}))[0], 200)

    async def test_slow_readers_of_long_answers_are_bounded(self):
        """As many long answers as there are places wait for their readers. Short ones are let by."""
        async with served() as client:
            for at in range(40):
                await client.put("/key/%d" % at, data=b"x" * 65000)
            asked = b"GET /rows HTTP/1.1\r\nHost: 127.0.0.1:%d\r\n\r\n" % client.port
            slow = []
            for _ in range(64):
                reader, writer = await asyncio.open_connection("127.0.0.1", client.port, limit=1)
                # The kernel takes the first ones.
                writer.write(asked * 8)
                slow.append(writer)
            for _ in range(100):
                reply = await client.get("/rows?limit=1")
                if reply.status == 503:
                    break
                await asyncio.sleep(0.05)
            self.assertEqual(await refusal(reply), (503, "answers"))
            self.assertEqual((await client.get("/key/1")).status, 200)
            self.assertEqual((await transact(client, put(("a", "1"))))[0], 200)
            for writer in slow:
                writer.close()
            for _ in range(100):
                if (await client.get("/rows?limit=1")).status == 200:
                    return
                await asyncio.sleep(0.05)
            self.fail("the places aren't given back")


if __name__ == "__main__":
    unittest.main()
