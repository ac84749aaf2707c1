"""What one client may cost the others, and what an operator sees of it. A server of its own for each test.

Limits of time are generous, because the machine may be busy with other things; those of memory are not.
"""

import asyncio
import contextlib
import json
import os
import socket
import sys
import tempfile
import time
import unittest

sys.path[:0] = [os.path.dirname(os.path.abspath(__file__))]
from test_served import ROW, call, refusal, served  # noqa: E402  it adds the folders of what follows

READERS, ROWS, LONG = 30, 400, 65536
MEGABYTE = 1 << 20
NAMES = 10_000  # of one client, where all may have so many more:
NAMES_OF_ALL = 13_061
PROCESS = ("cpu_seconds_total", "resident_memory_bytes", "open_fds", "max_fds", "start_time_seconds")


def stopped_reader(client, path, room=4096):
    """A connection that has asked, and takes nothing beyond so many bytes."""
    one = socket.create_connection(("127.0.0.1", client.port))
    one.setsockopt(socket.SOL_SOCKET, socket.SO_RCVBUF, room)
    one.sendall(b"GET %b HTTP/1.1\r\nHost: 127.0.0.1:%d\r\n\r\n" % (path, client.port))
    return one


def peak_of(client):
    """The most memory that the server has had, in megabytes."""
    with open("/proc/%d/status" % client.process.pid) as lines:
        return next(int(line.split()[1]) // 1024 for line in lines if line.startswith("VmHWM:"))


async def samples_of(client):
    text = await (await client.get("/metrics")).text()
    return dict(line.rsplit(" ", 1) for line in text.splitlines() if not line.startswith("#"))


@contextlib.asynccontextmanager
async def asked_meanwhile(client):
    """Asks for little again and again while the block runs. The list has how long each took."""
    took, is_over = [], asyncio.Event()

    async def ask():
        while not is_over.is_set():
            began = time.monotonic()
            await (await client.post("/call", data="stats\n")).read()
            took.append(time.monotonic() - began)

    asking = asyncio.create_task(ask())
    try:
        yield took
    finally:
        is_over.set()
        await asking


async def rows_in(reply, most):
    """Reads a stream until it has told so many rows: how many it told."""
    count, rest = 0, b""
    async for data in reply.content.iter_any():
        *whole, rest = (rest + data).rsplit(b"\n", 1)
        count += whole[0].count(b'{"after"') if whole else 0
        if count >= most:
            break
    return count


class Memory(unittest.IsolatedAsyncioTestCase):
    async def test_readers_of_long_rows_take_little_whether_they_read_or_not(self):
        async with served("--max-lag", "100000") as client:
            stopped = [stopped_reader(client, b"/feed") for _ in range(READERS)]
            readers = [asyncio.create_task(rows_in(await client.get("/feed"), ROWS)) for _ in range(READERS)]
            async with client.ws_connect("/session") as session:
                for at in range(0, ROWS, 10):
                    puts = "".join("put . k%d %s\n" % (at + row, "v" * LONG) for row in range(10))
                    await session.send_str(puts if at else "begin\n" + puts)
                    self.assertEqual((await session.receive()).data.count("=> written"), 10)
                before = peak_of(client)
                await session.send_str("commit .\n")
                self.assertIn("=> committed %d" % ROWS, (await session.receive()).data)
            async with asked_meanwhile(client) as took:
                self.assertEqual(await asyncio.gather(*readers), [ROWS] * READERS)
            self.assertLess(peak_of(client) - before, 256)
            self.assertLess(max(took), 10)
            for one in stopped:
                one.close()

    async def test_rows_that_grow_longer_take_little(self):
        async with served() as client:
            puts = "".join("put . a%d x\n" % row for row in range(9000))
            self.assertIn("=> committed 9000", await call(client, "begin\n%scommit .\n" % puts))
            async with client.ws_connect("/session") as session:
                for at in range(0, 300, 10):
                    await session.send_str("begin\n%scommit .\n" % "".join(
                        "put . b%d %s\n" % (at + row, "v" * LONG) for row in range(10)))
                    self.assertIn("=> committed 10", (await session.receive()).data)
            before = peak_of(client)
            replies = [await client.get("/feed") for _ in range(READERS)]
            told = await asyncio.gather(*(rows_in(reply, 9300) for reply in replies))
            self.assertEqual(told, [9300] * READERS)
            self.assertLess(peak_of(client) - before, 128)


class Turns(unittest.IsolatedAsyncioTestCase):
    async def test_ten_thousand_names_are_told_once_each_in_their_order(self):
        async with served("--max-consumers", str(NAMES_OF_ALL)) as client:
            identity = (await (await client.get("/consumer/c")).json(content_type=None))["identity"]
            names = ["n%05d" % at for at in range(NAMES)]

            async def hold(some):
                for name in some:
                    query = "/consumer/%s?identity=%s&generation=0&stored=0" % (name, identity)
                    self.assertEqual((await client.post(query)).status, 200)

            await asyncio.gather(*(hold(names[at::8]) for at in range(8)))
            async with asked_meanwhile(client) as took:
                for path in ("/consumer", "/holders"):
                    lines = [json.loads(line) for line in (await (await client.get(path)).text()).splitlines()]
                    told = [line["name"] for line in lines if line["kind"] == "consumer"]
                    self.assertEqual(told, names, path)
                samples = await samples_of(client)
            self.assertEqual(samples['ripsawbean_consumer_held{name="n09999"}'], "1")
            self.assertLess(max(took), 5)
            self.assertEqual(await refusal(await client.get("/consumer/other")), (429, "consumers"))
            self.assertEqual(await refusal(await client.get("/feed?consumer=other")), (429, "consumers"))
            self.assertEqual((await client.delete("/consumer/other")).status, 200)

    async def test_a_long_transcript_is_whole_and_others_are_answered_meanwhile(self):
        async with served("--keep", "1000000", "--max-reply", str(64 * MEGABYTE)) as client:
            for at in range(40):
                lines = "".join("put . k%d %s\n" % (row, "v" * 400) for row in range(2000))
                await call(client, "begin\n%scommit .\n" % lines)
            await asyncio.sleep(0.1)
            async with asked_meanwhile(client) as took:
                reply = await client.get("/transcript")
                events = (await reply.text()).splitlines()
            self.assertEqual(events[0], "mvfeed 2")
            self.assertEqual([int(event.split(" ")[0]) for event in events[1:]], list(range(len(events) - 1)))
            self.assertEqual(int(reply.headers["Ripsawbean-Next"]), len(events) - 1)
            self.assertGreaterEqual(len(events), 40 * 2002)
            self.assertLess(max(took), 5)
            rest = await client.get("/transcript?since=%s" % reply.headers["Ripsawbean-Next"])
            self.assertTrue((await rest.text()).startswith("mvfeed 2\n%s " % reply.headers["Ripsawbean-Next"]))


class Ends(unittest.IsolatedAsyncioTestCase):
    async def test_a_reader_that_takes_nothing_is_cut_once_its_feed_has_ended(self):
        async with served("--patience", "1") as client:
            slow = stopped_reader(client, b"/feed")
            for at in range(20):
                lines = "".join("put . k%d %s\n" % (row, "v" * 1000) for row in range(900))
                await call(client, "begin\n%scommit .\n" % lines)
            await asyncio.sleep(1)
            feeds = [json.loads(line) for line in (await (await client.get("/holders")).text()).splitlines()[1:]]
            self.assertEqual([one["waits"] for one in feeds], [True])
            await client.post("/call", data="cancel %s\n" % feeds[0]["number"])
            await asyncio.sleep(3)
            samples = await samples_of(client)
            self.assertEqual(samples["ripsawbean_streams"], "0")
            self.assertEqual(samples['ripsawbean_stream_ends_total{reason="feedcancelled"}'], "1")
            slow.settimeout(10)
            with contextlib.suppress(ConnectionError):
                last = b""
                while data := slow.recv(MEGABYTE):
                    last = (last + data)[-100:]
                self.assertNotIn(b"0\r\n\r\n", last)  # a body that is cut has no end

    async def test_a_stream_passes_proxies_that_gather_answers(self):
        async with served() as client:
            reply = await client.get("/feed")
            self.assertEqual((reply.headers["X-Accel-Buffering"], reply.headers["Cache-Control"]), ("no", "no-store"))

    async def test_no_name_is_a_folder(self):
        async with served() as client:
            for name in ("%2E", "%2E%2E", ".", ".."):
                self.assertEqual(await refusal(await client.get("/feed?consumer=" + name)), (400, "name"), name)


class Operators(unittest.IsolatedAsyncioTestCase):
    async def test_metrics_tell_of_the_server_and_its_process(self):
        async with served() as client:
            reply = await client.get("/feed")
            await client.post("/call", data=ROW % ("a", "1"))
            await rows_in(reply, 1)
            samples = await samples_of(client)
            for name in PROCESS:
                self.assertGreaterEqual(float(samples["process_" + name]), 0, name)
            self.assertEqual(float(samples["ripsawbean_call_seconds_count"]), 1)
            self.assertEqual(samples['ripsawbean_call_seconds_bucket{le="+Inf"}'], "1")
            self.assertEqual(float(samples["ripsawbean_stream_messages_total"]), 2)
            self.assertGreaterEqual(int(samples["ripsawbean_connections"]), 2)
            self.assertGreater(int(samples["ripsawbean_bytes_in_total"]), 100)
            self.assertGreater(int(samples["ripsawbean_bytes_out_total"]), 500)
            self.assertIn("ripsawbean_oldest_transaction_seconds", samples)
            self.assertGreaterEqual(int(samples["ripsawbean_memory_max_bytes"]), 0)
            self.assertGreater(int(samples["ripsawbean_memory_reserve_bytes"]), 0)
            self.assertEqual([samples['ripsawbean_memory_growth_bytes{kind="%s"}' % kind] for kind in ("open", "deleted")],
                             ["0", "0"])
            self.assertIn("ripsawbean_closing_delay_seconds", samples)
            self.assertTrue(any(name.startswith("ripsawbean_build_info{version=") for name in samples))

    async def test_sessions_are_told_with_their_peers(self):
        async with served() as client:
            async with client.ws_connect("/session") as session:
                await session.send_str("stats\n")
                await session.receive()
                lines = [json.loads(line) for line in (await (await client.get("/holders")).text()).splitlines()]
                self.assertEqual([line["kind"] for line in lines], ["server", "session"])
                self.assertTrue(lines[1]["peer"].startswith("127.0.0.1"))

    async def test_a_stranger_may_ask_whether_the_server_is_well(self):
        with tempfile.NamedTemporaryFile("w") as file:
            file.write("0123456789abcdef\n")
            file.flush()
            async with served("--token", file.name) as client:
                reply = await client.get("/healthz")
                self.assertEqual((reply.status, await reply.text()), (200, "ok\n"))
                self.assertEqual(await refusal(await client.get("/metrics")), (401, "token"))

    async def test_a_token_for_some_keys_sees_no_others(self):
        with tempfile.NamedTemporaryFile("w") as file:
            file.write("some read b d 0123456789abcdef\nall read,write - - 0123456789ABCDEF\n")
            file.flush()
            async with served("--tokens", file.name) as client:
                some, everyone = ({"Authorization": "Bearer 0123456789" + end} for end in ("abcdef", "ABCDEF"))
                for path in ("/feed", "/feed?lo=b", "/feed?hi=d", "/feed?lo=b&hi=", "/feed?lo=a&hi=c", "/feed?lo=b&hi=e",
                             "/transcript", "/state"):
                    self.assertEqual(await refusal(await client.get(path, headers=some)), (403, "keys"), path)
                    self.assertEqual((await client.get(path, headers=everyone)).status, 200, path)
                for path in ("/feed?lo=b&hi=d", "/feed?lo=c&hi=c%00", "/holders", "/metrics", "/consumer"):
                    self.assertEqual((await client.get(path, headers=some)).status, 200, path)


if __name__ == "__main__":
    unittest.main()
