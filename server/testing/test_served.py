"""A server of its own for each test: streams, names, refusals, lines, and who may speak.

`server/test` runs them, and so does `server/python -m unittest -v testing/test_served.py` in server/, where SERVER names
another server/run to test.
"""

import asyncio
import contextlib
import json
import os
import sys
import tempfile
import unittest

import aiohttp

sys.path[:0] = [os.path.dirname(os.path.abspath(__file__))]
from machine import LONGEST, SERVER  # noqa: E402  it adds the folders of what follows
from ripsawbean import Database  # noqa: E402

END_SECONDS = 10
SHARE = 49  # of 64 sessions: what one client has that may operate
ROW = "begin\nput . %s %s\ncommit .\n"


@contextlib.asynccontextmanager
async def served(*words):
    """A client of a server that has just started. What a test leaves open is closed without a word."""
    asyncio.get_running_loop().set_debug(False)
    process = await asyncio.create_subprocess_exec(
        SERVER, "--port", "0", "--log-level", "error", *words, stdout=asyncio.subprocess.PIPE)
    try:
        first = (await asyncio.wait_for(process.stdout.readline(), LONGEST)).decode()
        base = first.split(" on ")[1].strip()
        async with aiohttp.ClientSession(base, connector=aiohttp.TCPConnector(limit=0)) as client:
            client.port, client.process = int(base.rsplit(":", 1)[1]), process
            yield client
    finally:
        if process.returncode is None:
            process.terminate()
            await asyncio.wait_for(process.wait(), END_SECONDS)


async def told(reply, until):
    """The messages of a stream up to the first for which `until` holds."""
    found = []
    async for line in reply.content:
        if line != b"\n":
            found.append(json.loads(line))
            if until(found[-1]):
                return found
    return found


async def refusal(reply):
    return reply.status, (await reply.json())["error"]


async def call(client, lines):
    """The answers to lines, read to their end. Where nobody reads a long one, aiohttp may stop reading its connection, and
    send a later request there all the same: that one's answer is never read."""
    return await (await client.post("/call", data=lines)).text()


async def delete_many_rows(client):
    """Leaves nothing to be seen, and much to look through: a name holds the horizon."""
    identity = (await (await client.get("/consumer/c")).json(content_type=None))["identity"]
    await client.post("/consumer/c?identity=%s&generation=0&stored=0" % identity)
    for command in ("put . %d x\n", "del . %d\n"):
        rows = "".join(command % row for row in range(20000))
        await call(client, "begin\n%scommit .\n" % rows)


class Streams(unittest.IsolatedAsyncioTestCase):
    async def test_rows_are_pushed_once_they_are_closed(self):
        async with served() as client:
            reply = await client.get("/feed")
            await client.post("/call", data=ROW % ("a", "1"))
            found = await told(reply, lambda message: "resolved" in message)
            self.assertEqual(found, [{"after": "MQ==", "key": "YQ==", "updated": "1"}, {"resolved": "1"}])

    async def test_a_span_of_any_bytes(self):
        async with served() as client:
            reply = await client.get("/feed?lo=%2561&hi=%2562", headers={})
            self.assertEqual(reply.status, 200)
            await client.post("/call", data=(ROW % ("%2561", "in")) + (ROW % ("b", "out")))
            found = await told(reply, lambda message: message.get("resolved") == "2")
            self.assertEqual([message["key"] for message in found if "key" in message], ["JTYx"])

    async def test_server_sent_events(self):
        async with served() as client:
            await client.post("/call", data=ROW % ("a", "1"))
            await asyncio.sleep(0.05)
            reply = await client.get("/feed", headers={"Accept": "text/event-stream"})
            lines = [(await reply.content.readline()).decode() for _ in range(8)]
            identity = reply.headers["Ripsawbean-Identity"]
            self.assertEqual(lines[0], "event: opened\n")
            self.assertEqual(json.loads(lines[1][6:])["identity"], identity)
            self.assertEqual(lines[3:], ['data: {"after":"MQ==","key":"YQ==","updated":"1"}\n', "\n",
                                         "id: %s:1\n" % identity, 'data: {"resolved":"1"}\n', "\n"])
            again = await client.get("/feed", headers={"Accept": "text/event-stream", "Last-Event-ID": identity + ":1"})
            self.assertEqual(again.headers["Ripsawbean-From"], "1")
            other = await client.get("/feed", headers={"Accept": "text/event-stream", "Last-Event-ID": "other:1"})
            self.assertEqual(await refusal(other), (409, "identity"))

    async def test_a_stream_ends_with_its_reason(self):
        async with served() as client:
            reply = await client.get("/feed")
            await client.post("/call", data="cancel %s\n" % reply.headers["Ripsawbean-Feed"])
            self.assertEqual(await told(reply, lambda message: False), [{"end": "feedcancelled", "floor": "0"}])

    async def test_a_slow_reader_is_not_polled_for_and_then_cancelled(self):
        async with served("--max-lag", "3000") as client:
            slow, fast = await client.get("/feed", read_bufsize=1024), await client.get("/feed")
            count = asyncio.ensure_future(told(fast, lambda message: message.get("resolved") == "160"))
            for _ in range(160):
                rows = "".join("put . k%d %s\n" % (row, "v" * 1000) for row in range(100))
                await call(client, "begin\n%scommit .\n" % rows)
            self.assertEqual(sum("key" in message for message in await count), 16000)
            await asyncio.sleep(2.5)
            holders = [json.loads(line) for line in (await (await client.get("/holders")).text()).splitlines()]
            self.assertEqual([one["number"] for one in holders if one["kind"] == "feed"], ["2"])
            messages = await told(slow, lambda message: "end" in message)
            self.assertEqual(messages[-1]["end"], "lag")
            self.assertLess(sum("key" in message for message in messages), 13000)

    async def test_a_stream_whose_reader_is_gone_ends(self):
        async with served() as client:
            reply = await client.get("/feed")
            reply.close()
            await asyncio.sleep(2.2)
            self.assertNotIn('"kind":"feed"', await (await client.get("/holders")).text())


class Names(unittest.IsolatedAsyncioTestCase):
    async def test_a_name_is_held_and_comes_back(self):
        async with served("--history", "0") as client:
            await client.post("/call", data=ROW % ("a", "1"))
            await asyncio.sleep(0.05)
            reply = await client.get("/feed?consumer=c")
            identity, generation = (reply.headers["Ripsawbean-" + name] for name in ("Identity", "Generation"))
            await told(reply, lambda message: "resolved" in message)
            reply.close()
            query = "/consumer/c?identity=%s&generation=%s&stored=" % (identity, generation)
            self.assertEqual((await client.post(query + "1")).status, 200)
            for value in "2345":
                await client.post("/call", data=ROW % ("a", value))
            await asyncio.sleep(2.2)
            state = (await (await client.get("/consumer/c")).json(content_type=None))
            self.assertEqual((state["stored"], state["held"], state["lag"], state["horizon"]), ("1", True, 4, "1"))
            again = await client.get("/feed?consumer=c&identity=%s&from=1" % identity)
            rows = await told(again, lambda message: "resolved" in message)
            self.assertEqual([row["updated"] for row in rows if "key" in row], ["2", "3", "4", "5"])
            self.assertEqual(await refusal(await client.post(query + "3")), (409, "fenced"))

    async def test_refusals(self):
        async with served() as client:
            await client.post("/call", data=ROW % ("a", "1"))
            await asyncio.sleep(0.05)
            identity = (await (await client.get("/consumer/c")).json(content_type=None))["identity"]
            own, other = "identity=" + identity, "identity=other"
            for method, path, expected in (
                ("POST", "/consumer/c?%s&generation=0&stored=2" % own, (409, "notclosed")),
                ("POST", "/consumer/c?%s&generation=1&stored=1" % own, (409, "fenced")),
                ("POST", "/consumer/c?%s&generation=0&stored=1" % other, (409, "identity")),
                ("POST", "/consumer/c?generation=0&stored=1", (400, "identity")),
                ("POST", "/consumer/c?%s&stored=1" % own, (400, "generation")),
                ("POST", "/consumer/c?%s&generation=0" % own, (400, "stored")),
                ("POST", "/consumer/c?%s&generation=0&stored=01" % own, (400, "number")),
                ("POST", "/consumer/c%%2Fd?%s&generation=0&stored=1" % own, (400, "name")),
                ("GET", "/feed?from=1", (400, "identity")),
                ("GET", "/feed?from=1&" + other, (409, "identity")),
                ("GET", "/feed?from=2&" + own, (409, "notclosed")),
                ("GET", "/feed?from=1&gap=0&" + own, (400, "gaprange")),
                ("GET", "/feed?lo=a&lo=b", (400, "argument")),
                ("GET", "/feed?from=1&from=1&" + own, (400, "argument")),
                ("GET", "/feed?lo=" + 300 * "a", (400, "keylength")),
                ("GET", "/transcript?since=-1", (400, "number")),
                ("GET", "/nothing", (404, "path")),
                ("PUT", "/feed", (405, "method")),
                ("GET", "/session", (400, "websocket")),
            ):
                self.assertEqual(await refusal(await client.request(method, path)), expected, path)
            self.assertEqual((await client.post("/consumer/c?%s&generation=0&stored=1" % own)).status, 200)
            self.assertEqual(
                await refusal(await client.post("/consumer/c?%s&generation=0&stored=0" % own)), (409, "older"))
            self.assertEqual((await client.delete("/consumer/c")).status, 200)

    async def test_a_name_that_lags_too_far_is_let_go_and_begins_anew(self):
        async with served("--max-lag", "2", "--history", "0") as client:
            reply = await client.get("/feed?consumer=c")
            identity = reply.headers["Ripsawbean-Identity"]
            reply.close()
            for value in "1234":
                await client.post("/call", data=ROW % ("a", value))
            await asyncio.sleep(3.2)
            state = await (await client.get("/consumer/c")).json(content_type=None)
            self.assertEqual((state["held"], state["lag"], state["horizon"]), (False, 4, "4"))
            self.assertEqual(
                await refusal(await client.get("/feed?consumer=c&from=0&identity=" + identity)), (409, "belowhorizon"))
            self.assertEqual((await client.get("/feed?consumer=c")).status, 200)


class Seats(unittest.IsolatedAsyncioTestCase):
    async def test_sessions_of_one_client_and_no_more(self):
        async with served() as client:
            sockets = [await client.ws_connect("/session") for _ in range(SHARE)]
            for at, socket in enumerate(sockets):
                await socket.send_str(ROW % ("k%d" % at, "v"))
            for socket in sockets:
                self.assertIn("=> committed 1", (await socket.receive()).data)
            self.assertEqual(await refusal(await client.post("/call", data="stats")), (503, "seats"))
            with self.assertRaises(aiohttp.WSServerHandshakeError) as refused:
                await client.ws_connect("/session")
            self.assertEqual(refused.exception.status, 503)
            await sockets[5].close()
            await asyncio.sleep(0.05)
            self.assertEqual((await client.post("/call", data="stats")).status, 200)

    async def test_what_a_cut_session_leaves_goes(self):
        async with served() as client:
            socket = await client.ws_connect("/session")
            await socket.send_str("begin\nput . a 1\nopen - - 0\nprotect 0\n")
            await socket.receive()
            socket._response.connection.transport.abort()
            await asyncio.sleep(0.1)
            holders = await (await client.get("/holders")).text()
            self.assertEqual([json.loads(line)["kind"] for line in holders.splitlines()], ["server"])

    async def test_an_operator_ends_a_session(self):
        async with served() as client:
            socket = await client.ws_connect("/session")
            await socket.send_str("begin\nput . a 1\n")
            seat = (await socket.receive()).data.split(" ")[1]
            self.assertEqual(await refusal(await client.delete("/session/64")), (404, "session"))
            self.assertEqual((await client.delete("/session/" + seat)).status, 200)
            self.assertEqual((await socket.receive()).type, aiohttp.WSMsgType.CLOSE)
            self.assertEqual(socket.close_code, 1008)
            holders = await (await client.get("/holders")).text()
            self.assertEqual([json.loads(line)["kind"] for line in holders.splitlines()], ["server"])
            self.assertEqual(await refusal(await client.delete("/session/" + seat)), (404, "session"))


class Lines(unittest.IsolatedAsyncioTestCase):
    async def test_messages_are_answered_one_by_one_in_their_order(self):
        async with served() as client:
            socket = await client.ws_connect("/session")
            for at in range(2000):
                await socket.send_str("readat 0 %d\nfoo\n" % at)
            for at in range(2000):
                first, second, _ = (await socket.receive()).data.split("\n")
                self.assertTrue(first.endswith(" readat 0 %d => none" % at), first)
                self.assertTrue(second.startswith("fault %d 2 unknowncommand " % (2 * at + 2)), second)

    async def test_pings_are_answered_while_a_long_message_is(self):
        """A message takes longer than the heartbeat, and its client is taken for one that is there."""
        async with served("--heartbeat", "1", "--keep", "0", "--max-age", "1000") as client:
            await delete_many_rows(client)
            socket = await client.ws_connect("/session")
            await socket.send_str("begin\n" + "scan . - -\n" * 5000)
            self.assertTrue((await socket.receive()).data.endswith("=> rows 0\n"))
            # Its pings are answered by who receives.
            answer = asyncio.ensure_future(socket.receive())
            await asyncio.sleep(3)
            await socket.send_str("stats\n")
            self.assertIn("=> stats", (await answer).data)

    async def test_a_message_whose_client_is_gone_stops(self):
        async with served("--max-message", "100000000", "--max-reply", "1000000000") as client:
            socket = await client.ws_connect("/session")
            await socket.send_str("stats\n" * 3_000_000)
            await asyncio.sleep(0.3)
            socket._response.connection.transport.abort()

            async def calls():
                holders = await (await client.get("/holders")).text()
                return json.loads(holders.splitlines()[0])["calls"]

            await asyncio.sleep(0.5)
            before = await calls()
            await asyncio.sleep(0.5)
            self.assertEqual(await calls(), before)
            self.assertLess(before, 3_000_000)
            self.assertEqual((await (await client.get("/holders")).text()).count("\n"), 1)

    async def test_short_calls_are_let_in_beside_a_long_message(self):
        """Each line of the message looks through many deleted rows, and its answer is short."""
        async with served("--keep", "0", "--max-age", "1000") as client:
            for command in ("put . %d x\n", "del . %d\n"):
                rows = "".join(command % row for row in range(20000))
                await call(client, "protect 0\nbegin\n%scommit .\n" % rows)
            socket = await client.ws_connect("/session")
            await socket.send_str("begin\nprotect 0\n" + "scan . - -\n" * 3000)
            longest, count = 0, 0
            answer = asyncio.ensure_future(socket.receive())
            while not answer.done():
                start = asyncio.get_running_loop().time()
                self.assertEqual((await client.get("/healthz")).status, 200)
                longest, count = max(longest, asyncio.get_running_loop().time() - start), count + 1
            self.assertTrue((await answer).data.endswith("=> rows 0\n"))
            self.assertLess(longest, 1)
            self.assertGreater(count, 5)

    async def test_a_session_holds_so_many_of_each(self):
        async with served("--max-held", "3") as client:
            text = await (await client.post("/call", data="protect 0\n" * 5)).text()
            self.assertEqual([line.split(" ")[:4] for line in text.splitlines()[3:]],
                             [["fault", line, "68", "toomany"] for line in ("4", "5")])

    async def test_where_memory_is_full_nothing_is_put(self):
        async with served("--max-memory", "1") as client:
            await asyncio.sleep(1.2)
            text = await (await client.post("/call", data="begin\nput . a 1\nbegin\ndel . a\ncommit .\n")).text()
            self.assertTrue(text.splitlines()[1].startswith("fault 2 67 full "), text)
            self.assertIn("=> committed 1\n", text)


class End(unittest.IsolatedAsyncioTestCase):
    async def test_sessions_and_streams_are_told(self):
        async with served() as client:
            socket, reply = await client.ws_connect("/session"), await client.get("/feed")
            client.process.terminate()
            self.assertEqual((await socket.receive()).type, aiohttp.WSMsgType.CLOSE)
            self.assertEqual(socket.close_code, 1001)
            self.assertEqual((await told(reply, lambda message: "end" in message))[-1]["end"], "shutdown")
            self.assertEqual(await asyncio.wait_for(client.process.wait(), END_SECONDS), 0)

    async def test_undecided_transactions_may_go_on_for_a_while(self):
        async with served("--drain", "20") as client:
            socket = await client.ws_connect("/session")
            await socket.send_str("begin\n")
            await socket.receive()
            client.process.terminate()
            await asyncio.sleep(0.3)
            await socket.send_str("put . a 1\nbegin\ncommit 1\n")
            answers = (await socket.receive()).data.splitlines()
            self.assertTrue(answers[0].endswith("=> written"))
            self.assertTrue(answers[1].startswith("fault 3 70 draining "), answers[1])
            self.assertTrue(answers[2].endswith("=> committed 1"))
            self.assertEqual(await asyncio.wait_for(client.process.wait(), END_SECONDS), 0)


class Guard(unittest.IsolatedAsyncioTestCase):
    async def test_only_the_servers_own_names_and_pages(self):
        async with served("--host", "db.example") as client:
            own = "http://127.0.0.1:%d" % client.port
            for headers, expected in (
                ({"Host": "evil.example:%d" % client.port}, (403, "host")),
                ({"Host": "127.0.0.1"}, (403, "host")),
                ({"Origin": "http://evil.example"}, (403, "origin")),
                ({"Origin": "null"}, (403, "origin")),
                ({"Sec-Fetch-Site": "cross-site"}, (403, "origin")),
                ({"Sec-Fetch-Site": "same-site"}, (403, "origin")),
            ):
                for path in ("/session", "/feed", "/holders", "/", "/nothing"):
                    self.assertEqual(await refusal(await client.get(path, headers=headers)), expected, (path, headers))
                self.assertEqual(await refusal(await client.post("/call", headers=headers)), expected, headers)
            hosts = ["db.example", *("%s:%d" % (name, client.port) for name in ("localhost", "[::1]", "db.example"))]
            for headers in ({}, {"Origin": own}, *({"Host": host} for host in hosts)):
                self.assertEqual((await client.post("/call", data="stats", headers=headers)).status, 200, headers)

    async def test_a_request_may_name_the_database_that_it_means(self):
        async with served() as client:
            replies = [await client.get(path) for path in ("/holders", "/consumer/c", "/nothing", "/", "/dump")]
            replies.append(await client.post("/call", data="stats"))
            (identity,) = {reply.headers["Ripsawbean-Identity"] for reply in replies}
            own, other = {"Ripsawbean-Identity": identity}, {"Ripsawbean-Identity": identity[::-1] + "0"}
            self.assertEqual((await client.post("/call", data="begin", headers=own)).status, 200)
            self.assertEqual((await client.post("/call?identity=" + identity, data="begin")).status, 200)
            for path in ("/holders", "/feed", "/session", "/call?identity=x"):
                self.assertEqual(await refusal(await client.post(path, headers=other, data="begin\n" * 1000)), (412, "identity"))
            for path in ("/session?identity=x", "/call?identity=x"):
                reply = await (client.get if "session" in path else client.post)(path, headers={
                    "Connection": "Upgrade", "Upgrade": "websocket"} if "session" in path else {})
                self.assertEqual(await refusal(reply), (412, "identity"), path)
            self.assertIn(" begin 3 ", await (await client.post("/call", data="begin")).text())

    async def test_a_token_is_asked_of_every_request(self):
        with tempfile.NamedTemporaryFile("w") as file:
            file.write("a-token-of-many-bytes\n")
            file.flush()
            async with served("--token", file.name) as client:
                for path in ("/", "/feed", "/metrics", "/session", "/nothing"):
                    self.assertEqual(await refusal(await client.get(path)), (401, "token"), path)
                for header, status in (
                    ("Bearer a-token-of-many-bytes", 200), ("Bearer a-token-of-many-byte", 401), ("Basic !", 401),
                    (aiohttp.BasicAuth("anyone", "a-token-of-many-bytes").encode(), 200),
                    (aiohttp.BasicAuth("a-token-of-many-bytes", "").encode(), 401),
                ):
                    reply = await client.get("/metrics", headers={"Authorization": header})
                    self.assertEqual(reply.status, status, header)

    async def test_each_answer_tells_the_protocol(self):
        async with served("--max-connections", "8") as client:
            answers = [await client.get(path) for path in ("/", "/feed", "/metrics", "/healthz", "/nothing", "/session")]
            answers += [await client.get("/", headers={"Host": "evil.example"}), await client.delete("/call")]
            answers.append((await client.ws_connect("/session"))._response)
            answers.append(await client.post("/call", data="nothing\n"))
            told = {(it.status, it.headers.get("Ripsawbean-Protocol")) for it in answers}
            self.assertEqual(told, {(status, "1") for status in (101, 200, 400, 403, 404, 405)})

    async def test_one_connection_too_many_is_told_the_protocol(self):
        async with served("--max-connections", "8") as client:
            held, heads = [], []
            for last in (1, 1, 1, 1, 1, 1, 2, 2, 3):  # one address has six at most
                own = ("127.0.0.%d" % last, 0)
                reader, writer = await asyncio.open_connection("127.0.0.1", client.port, local_addr=own)
                writer.write(b"GET /feed HTTP/1.1\r\nHost: 127.0.0.1:%d\r\n\r\n" % client.port)
                held.append(writer)
                heads.append((await asyncio.wait_for(reader.readuntil(b"\r\n\r\n"), LONGEST)).lower())
            self.assertEqual([it[9:12] for it in heads], 8 * [b"200"] + [b"503"])
            self.assertTrue(all(b"\r\nripsawbean-protocol: 1\r\n" in it for it in heads), heads)
            for writer in held:
                writer.close()

    async def test_bodies_and_messages_have_limits(self):
        async with served("--max-message", "1000") as client:
            self.assertEqual(await refusal(await client.post("/call", data="x" * 1001)), (413, "toolong"))
            socket = await client.ws_connect("/session")
            await socket.send_str("x" * 1001)
            await socket.receive()
            self.assertEqual(socket.close_code, 1009)
            socket = await client.ws_connect("/session")
            await socket.send_bytes(b"stats\n")
            await socket.receive()
            self.assertEqual(socket.close_code, 1003)

    async def test_many_requests_ahead_are_answered_one_after_another(self):
        async with served() as client:
            reader, writer = await asyncio.open_connection("127.0.0.1", client.port)
            asked = b"GET %b HTTP/1.1\r\nHost: 127.0.0.1:%d\r\n\r\n"
            paths = [b"/consumer/%d" % at for at in range(500)]
            writer.write(b"".join(asked % (path, client.port) for path in paths))
            for at in range(500):
                while not (line := await asyncio.wait_for(reader.readline(), LONGEST)).startswith(b"{"):
                    self.assertTrue(line)
                self.assertEqual(json.loads(line)["name"], str(at))
            writer.close()

    async def test_a_query_may_have_any_bytes(self):
        async with served() as client:
            for query, expected in (
                (b"from=%FF", b" 400 "), (b"lo=%fF&hi=%FF%00", b" 200 "), (b"consumer=%E4", b" 400 "),
            ):
                reader, writer = await asyncio.open_connection("127.0.0.1", client.port)
                writer.write(b"GET /feed?%b HTTP/1.1\r\nHost: 127.0.0.1:%d\r\n\r\n" % (query, client.port))
                self.assertIn(expected, await reader.readline(), query)
                writer.close()

    async def test_silent_connections_make_room(self):
        async with served("--max-connections", "8") as client:
            silent = [await asyncio.open_connection("127.0.0.1", client.port) for _ in range(30)]
            await asyncio.sleep(0.1)
            self.assertEqual((await client.post("/call", data="stats")).status, 200)
            for _, writer in silent:
                writer.close()


class Reports(unittest.IsolatedAsyncioTestCase):
    async def test_the_state_is_the_librarys_own(self):
        async with served() as client:
            reply = await client.get("/state")
            with Database() as empty:
                self.assertEqual((reply.status, await reply.text()), (200, empty.state()))

    async def test_the_transcript_and_what_is_dropped_of_it(self):
        async with served("--keep", "4") as client:
            await client.post("/call", data="begin\nput . a 1\ncommit .\n")
            await asyncio.sleep(0.05)
            reply = await client.get("/transcript")
            self.assertEqual(await reply.text(), "mvfeed 2\n0 0 begin 1 => started\n1 0 put 1 a 1 => written\n"
                             "2 0 commit 1 => committed 1\n3 63 close 1 => closed 1 0\n")
            self.assertEqual(reply.headers["Ripsawbean-Next"], "4")
            await client.post("/call", data="stats\n")
            reply = await client.get("/transcript?since=4")
            self.assertEqual(await reply.text(), "mvfeed 2\n4 1 stats => stats 1 0 0 1 0\n")
            reply = await client.get("/transcript?since=0")
            self.assertEqual((reply.status, (await reply.json())["first"]), (410, "1"))

    async def test_metrics_are_lines_of_prometheus(self):
        async with served() as client:
            await client.post("/call", data="begin\nput . a 1\ncommit .\nfoo\n")
            await asyncio.sleep(0.05)
            text = await (await client.get("/metrics")).text()
            values = dict(line.rsplit(" ", 1) for line in text.splitlines() if not line.startswith("#"))
            self.assertEqual((values["ripsawbean_closed"], values["ripsawbean_rows_total"]), ("1", "1"))
            self.assertEqual(values['ripsawbean_refusals_total{name="unknowncommand"}'], "1")
            self.assertEqual(values["ripsawbean_shouts_total"], "0")

    async def test_the_page_and_its_parts_are_served(self):
        async with served() as client:
            for path, kind in (
                ("/", "text/html"), ("/page/page.css", "text/css"), ("/page/page.mjs", "text/javascript"),
                ("/picture/picture.mjs", "text/javascript"), ("/page/examples", "application/x-ndjson"),
            ):
                reply = await client.get(path)
                self.assertEqual((reply.status, reply.content_type), (200, kind), path)
            self.assertEqual((await client.get("/page/..%2f..%2fREADME.md")).status, 404)

    async def test_the_guides_examples_are_whole(self):
        async with served() as client:
            text = await (await client.get("/page/examples")).text()
            found = [json.loads(line) for line in text.splitlines()]
            late = next(one for one in found if one["heading"] == "Why a write comes too late")
            self.assertEqual(
                [(event["seat"], event["line"], event["answer"]) for event in late["events"]],
                [("0", "begin 10", "started"), ("1", "begin 20", "started"), ("1", "get 20 a", "none"),
                 ("0", "put 10 a 1", "toolate"), ("0", "commit 10", "ended"), ("1", "commit 20", "committed 0")])


if __name__ == "__main__":
    unittest.main()
