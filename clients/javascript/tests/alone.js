// Tests of the client without a server: `fetch` is the test's own, or a listener that ends its connections.

import assert from "node:assert/strict";
import { spawn } from "node:child_process";
import { getEventListeners } from "node:events";
import { createServer } from "node:net";
import test from "node:test";
import { connect, exists, put } from "../index.js";

const HEADERS = { "Ripsawbean-Identity": "0f3a5b0c1d2e4f60", "Ripsawbean-Timestamp": "5", "Ripsawbean-From": "5", ETag: '"5"' };
const answering = (answer) => connect("http://x", { fetch: async (url, options) => new Response(answer(new URL(url), options), { headers: HEADERS }) });
const refusing = (found) => connect("http://x", { fetch: async (url, options) => { found.push(options); throw new TypeError("refused"); } });
const unasked = () => assert.fail("it was asked");

test("an option that is spelled wrong is refused, and nothing is asked", async () => {
  const db = answering(unasked);
  await assert.rejects(db.put("a", "1", { if_: exists("a") }), /no option if_/);
  await assert.rejects(db.delete("a", { If: exists("a") }), /no option If/);
  await assert.rejects(db.get("a", { At: "5" }), /no option At/);
  await assert.rejects(db.page("a", "b", { max: 5 }), /no option max/);
  await assert.rejects(db.scan("a", "b", { limit: 5 }).next(), /no option limit/);
  await assert.rejects(db.consume("c", { load: () => null, store: unasked, low: "a" }), /no option low/);
  assert.throws(() => db.feed("a", "b", { from: "5" }), /no option from/);
  assert.throws(() => connect("http://x", { tokens: "a" }), /no option tokens/);
});

test("a condition that is no array goes to the server, which refuses it", async () => {
  let asked;
  const db = answering((_, { body }) => ((asked = JSON.parse(body)), '{"timestamp":"5","branch":"then","written":1,"results":[null]}'));
  await db.txn([put("a", "1")], exists("a"));
  assert.deepEqual(asked.if, exists("a"));
  await db.txn([put("a", "1")], []);
  assert.equal(asked.if, undefined);
});

test("a feed that finds no server leaves nothing at its signal, and ends with it", async () => {
  const found = [], control = new AbortController();
  const told = refusing(found).feed(null, null, { signal: control.signal }).next();
  while (found.length < 5) await new Promise((done) => setTimeout(done, 10));
  assert.ok(getEventListeners(control.signal, "abort").length <= 1);
  control.abort();
  assert.deepEqual(await told, { value: undefined, done: true });
  assert.equal(getEventListeners(control.signal, "abort").length, 0);
});

test("a feed ends where its signal is aborted while the rest of its first rows is read", async () => {
  const control = new AbortController();
  const rows = '{"timestamp":"5","rows":[{"key":"b","value":"1","version":"5"}],"next":null}';
  const streams = ['{"after":"MQ==","key":"YQ==","updated":"5"}\n', new ReadableStream()]; // one that is cut, and one without an end
  const db = answering(({ pathname }, { signal }) => {
    signal.throwIfAborted();
    if (pathname === "/feed") return streams.shift();
    control.abort();
    return rows;
  });
  const told = [];
  for await (const message of db.feed(null, null, { signal: control.signal })) told.push(message.key ?? message.type);
  assert.deepEqual(told, ["reset", "a", "b", "resolved"]);
});

test("a first connection that ends at once is tried again, before all the time is over", async () => {
  let seen = 0;
  const server = createServer((socket) => {
    if (seen++ === 0) return socket.end();
    const head = Object.entries(HEADERS).map(([name, value]) => `${name}: ${value}\r\n`).join("");
    socket.on("data", () => socket.write(`HTTP/1.1 200 OK\r\n${head}Content-Length: 1\r\n\r\n7`));
    socket.on("error", () => {});
  });
  await new Promise((done) => server.listen(0, "127.0.0.1", done));
  const program = `import { connect } from "${new URL("../index.js", import.meta.url)}";
    console.log(await connect("http://127.0.0.1:${server.address().port}", { timeout: 60_000 }).get("a")); process.exit();`;
  const child = spawn(process.execPath, ["--input-type=module", "-e", program]);
  const began = Date.now(), [text, code] = await Promise.all([
    child.stdout.toArray().then((parts) => Buffer.concat(parts).toString()), new Promise((done) => child.on("exit", done)),
  ]);
  server.close();
  assert.deepEqual([text, code], ["7\n", 0]);
  assert.ok(Date.now() - began < 40_000, "it waited for an answer of the first one");
});
