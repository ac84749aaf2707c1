// The WebAssembly module by its loader: what the guide shows, byte for byte; random scripts beside the native library;
// the edges of each function; out of memory; a trap. web/test runs it, with NATIVE, the program that native.c is.
import assert from "node:assert/strict";
import { execFileSync, spawnSync } from "node:child_process";
import { readFileSync } from "node:fs";
import test from "node:test";
import { drawingOf } from "../picture/drawing.mjs";
import { historyOf, REFUSALS, reasonOf, stateOf, stateText } from "../picture/picture.mjs";
import { answerOf, load, messagesOf, NEEDS, rowsOf, spell, StatusError, unspell } from "../ripsawbean.mjs";
import { COMMANDS } from "../playground/commands.mjs";
import { EXAMPLES } from "../playground/examples.mjs";
import { explain } from "../playground/faults.mjs";
import { TOUR } from "../playground/tour.mjs";
import { exampleTranscripts, guideTranscripts, scriptOf } from "./guide.mjs";
import { randomScript } from "./scripts.mjs";

const module = await WebAssembly.compile(readFileSync(new URL("../out/ripsawbean.wasm", import.meta.url)));
const library = await load(module);

// The text of a line's event, or its status.
function told(db, line) {
  try {
    return db.call(line);
  } catch (error) {
    if (!(error instanceof StatusError)) throw error;
    return `status ${error.status}\n`;
  }
}

function run(lines, ring) {
  const db = library.open(ring);
  const text = lines.map((line) => told(db, line)).join("");
  db.close();
  return text;
}

function statusOf(call) {
  try {
    call();
  } catch (error) {
    return error.status;
  }
  return 0;
}

test("the module imports nothing", () => {
  assert.deepEqual(WebAssembly.Module.imports(module), []);
});

test("the guide's transcripts, with rings of 1 and of 1024", () => {
  const transcripts = guideTranscripts();
  assert.ok(transcripts.length >= 12);
  for (const it of transcripts) for (const ring of [1, 1024]) assert.equal(run(scriptOf(it), ring), it);
});

test("the examples' transcripts", () => {
  for (const it of exampleTranscripts()) assert.equal(run(scriptOf(it)), it);
});

test("random scripts, beside the native library", () => {
  for (let seed = 1; seed <= 300; seed++) {
    const script = randomScript(seed, 400);
    const ring = [1, 2, 1024][seed % 3];
    const options = { input: script.join(""), encoding: "latin1", maxBuffer: 2 ** 28 };
    assert.equal(run(script, ring), execFileSync(process.env.NATIVE, [`${ring}`], options), `seed ${seed}`);
  }
});

// The picture's state after each call is compared with what the database says of itself: by `stats`, by a collection to
// the greatest timestamp, and by ripsawbean_state where the module has it.
test("the picture's state, beside the database, in random scripts", () => {
  for (let seed = 301; seed <= 360; seed++) {
    const [db, history] = [library.open(), historyOf()];
    for (const line of randomScript(seed, 200)) {
      const text = told(db, line);
      if (!text.startsWith("status")) history.add(text);
      const state = stateText(history.after(history.events.length - 1));
      assert.equal(state, db.state() ?? state);
      const { database, transactions, feeds } = stateOf(state);
      const counts = [database.versions, transactions.length, feeds.length, database.closed, database.horizon];
      if (line.endsWith(" stats\n")) assert.equal(answerOf(text), `stats ${counts.join(" ")}`, `seed ${seed}`);
    }
    const { limit } = stateOf(stateText(history.after(history.events.length - 1))).database;
    const [, horizon] = answerOf(db.call("0 collect 9223372036854775807\n")).split(" ");
    assert.equal(horizon, `${limit}`, `seed ${seed}`);
    db.close();
  }
});

test("each moment of random scripts is drawn, and each event and mark has a sentence", () => {
  for (let seed = 401; seed <= 410; seed++) {
    const history = historyOf(run(randomScript(seed, 120)).replace(/^status .*\n/gm, ""));
    for (const { place } of history.events) {
      const moment = history.after(place);
      const zoom = () => ({ count: 12, later: 0 });
      const { svg, marks } = drawingOf(history, moment, stateOf(stateText(moment)), { zoom, width: 400, mostKeys: 8 });
      assert.doesNotMatch(`${svg}`, /NaN|undefined|Infinity/);
      for (const sentence of [reasonOf(history, place), ...marks.map((it) => it.meaning())])
        assert.match(sentence, /^(?!.*(undefined|null|NaN))\S.*\.$/);
    }
  }
});

test("the page's examples, beside the native library", () => {
  for (const { title, lines } of Object.values(EXAMPLES)) {
    const script = lines.split("\n").map((it) => `${it}\n`);
    const native = execFileSync(process.env.NATIVE, ["1024"], { input: script.join(""), encoding: "latin1" });
    assert.equal(run(script), native, title);
    assert.doesNotMatch(native, /status/, title);
  }
});

test("each example of a command's usage is taken, and no call is refused", () => {
  const db = library.open();
  db.call("0 begin 20\n");
  const commands = COMMANDS.flatMap((it) => it.commands);
  const answers = commands.map(({ example }) => answerOf(db.call(`0 ${example}\n`)).split(" ")[0]);
  assert.equal(answers.length, 21);
  assert.deepEqual(answers.filter((it) => REFUSALS.has(it)), []);
  db.close();
});

// Of each line its fault, and the form that is told below its box; both are the database's and the page's own words.
test("each faulty line is explained, with the form of the command that was meant", () => {
  const db = library.open();
  for (const [line, fault, form] of [
    ["put 10 apple", "wordcount", "put TS KEY VALUE"], ["stats 1", "wordcount", "stats"],
    ["putt 10 a 1", "unknowncommand", "put TS KEY VALUE"], ["nothing", "unknowncommand", undefined],
    ["begin ten", "number", "begin TS"], ["open a b x", "number", "open LO HI CURSOR"],
    [`poll 1 ${2n ** 64n}`, "number", "poll FEED MAX"], ["close 01", "number", "close TO"],
    ["del 10 -", "keylength", "del TS KEY"], [`scan 10 a ${"k".repeat(258)}`, "keylength", "scan TS LO HI"],
    [`put 10 a ${"v".repeat(65537)}`, "valuelength", "put TS KEY VALUE"],
    ["get 10 é", "badbyte", "get TS KEY"], [`get 10 ${"x".repeat(200000)}`, "linetoolong", "get TS KEY"],
  ]) {
    assert.throws(() => db.call(`0 ${line}\n`), { message: fault });
    const { says, command } = explain(line, fault, { seat: 0 });
    assert.match(says, /^(?!.*(undefined|null))\S.{10,160}[.?]$/);
    assert.equal(command?.form, form, line);
  }
  assert.equal(db.text(), "");
  db.close();
});

test("what an explanation proposes for a spelling is taken", () => {
  const db = library.open();
  db.call("0 begin 10\n");
  for (const word of ["é", "50%", "%41", "%c3%a9", "%zz", "日本", "a%2"]) {
    assert.throws(() => db.call(`0 put 10 k ${word}\n`), { message: "badbyte" });
    const [, proposed] = /^Write (\S+) for /.exec(explain(`put 10 k ${word}`, "badbyte", { seat: 0 }).says);
    assert.equal(answerOf(db.call(`0 put 10 k ${proposed}\n`)), "written", word);
  }
  db.close();
});

test("the tour is answered as it says", () => {
  const db = library.open();
  const answers = TOUR.map(({ lines }) => lines.map((it) => answerOf(db.call(`${it}\n`))));
  assert.equal(TOUR.length, 10);
  assert.deepEqual(answers[3], ["started", "toolate"]);
  assert.deepEqual(answers[4], ["committed 0", "started", "written", "committed 1"]);
  assert.deepEqual(answers[5], ["opened 1", "messages 0"]);
  assert.deepEqual(answers[6].at(-1), "closed 29 0");
  assert.deepEqual(answers[7], ["messages 4"]);
  assert.deepEqual(answers[8], ["protected 1", "committed 1", "closed 40 0", "collected 29 1"]);
  assert.deepEqual(answers[9], ["messages 2", "cancelled", "opened 2", "messages 2"]);
  assert.match(db.text(), /"key":"cGVhcg==","updated":"30"}\n{"resolved":"40"}\n$/);
  db.close();
});

test("faulty lines make no call, and tell the first fault", () => {
  const db = library.open();
  for (const [line, status] of [
    ["\n", 1], ["0 begin\n", 1], ["0  begin 1\n", 1], ["0 start 1\n", 2], ["0 begin x\n", 3], ["0 begin 01\n", 3],
    ["0 put 1 - 2\n", 4], [`0 get 1 ${"k".repeat(257)}\n`, 4], [`0 put 1 k ${"v".repeat(65537)}\n`, 5],
    ["64 begin 1\n", 6], ["0 begin 1", 7], ["", 7], [`0 ${"x".repeat(200000)}\n`, 8], ["0 begin 1\n0 begin 2\n", 9],
    ["0 put 1 %41 x\n", 9], ["0 put 1 é x\n", 9],
  ]) assert.equal(statusOf(() => db.call(line)), status, line.slice(0, 40));
  assert.equal(db.text(), "");
  assert.equal(db.call("0 begin 10\n"), "0 0 begin 10 => started\n");
  assert.equal(db.text(), "0 0 begin 10 => started\n");
  db.close();
});

test("a text that is longer than any before comes whole, and its bytes come back", () => {
  const db = library.open();
  const key = new Uint8Array(256).fill(0), value = new Uint8Array(65536).map((_, i) => i * 31);
  db.make("begin", [10]);
  const spelled = [...value].map((it) => (it > 0x20 && it < 0x7f && it !== 0x25 ? 1 : 3)).reduce((a, b) => a + b);
  const length = "1 0 put 10  ".length + 3 * key.length + spelled + " => written\n".length;
  assert.equal(db.make("put", [10, key, value]).length, length);
  assert.deepEqual(unspell(answerOf(db.make("get", [10, key])).split(" ")[1]), value);
  db.close();
});

test("rows and messages as values", () => {
  const db = library.open();
  db.make("begin", [10n]);
  db.make("put", [10, "-", ""]);
  db.make("put", [10, "é", "="]);
  db.make("del", [10, "k"]);
  db.make("commit", [10]);
  db.make("close", [10]);
  assert.deepEqual(rowsOf(db.make("scanat", [10, null, null])), [["%2D", "-"], ["%C3%A9", "="]]);
  db.make("open", [null, null, 0], 5);
  const bytes = (text) => new TextEncoder().encode(text);
  assert.deepEqual(messagesOf(db.make("poll", [1, 100], 5)), [
    { key: bytes("-"), after: bytes(""), updated: 10n }, { key: bytes("k"), after: null, updated: 10n },
    { key: bytes("é"), after: bytes("="), updated: 10n }, { resolved: 10n },
  ]);
  db.close();
});

test("words and bytes", () => {
  const words = { "a b": "a%20b", "-": "%2D", "--": "--", "": "-", "%": "%25", "é": "%C3%A9" };
  for (const [text, word] of Object.entries(words)) {
    assert.equal(spell(text), word);
    assert.equal(new TextDecoder().decode(unspell(word)), text);
  }
  assert.equal(answerOf("3 0 get 10 => => value =>\n"), "value =>");
});

test("a database is opened, closed and opened again", () => {
  const db = library.open();
  db.call("0 begin 10\n");
  assert.equal(statusOf(() => db.open()), 17);
  for (const ring of [0, 65537, -1, 1.5, 2 ** 32]) assert.equal(statusOf(() => db.open(ring)), 15);
  db.close();
  db.close();
  assert.equal(statusOf(() => db.call("0 stats\n")), 16);
  assert.equal(statusOf(() => db.text()), 16);
  db.open(1);
  assert.equal(db.call("0 stats\n"), "0 0 stats => stats 0 0 0 0 0\n");
  db.close();
});

test("out of memory is an answer or a status, and what was written stays", async () => {
  const small = await load(module);
  small.limit(2 ** 22);
  const db = small.open();
  const value = "v".repeat(20000);
  db.call("0 begin 10\n");
  const written = [], wanting = [];
  for (let i = 0; i < 400; i++) {
    const text = told(db, `0 put 10 k${i} ${value}\n`);
    if (/ => written\n$/.test(text)) written.push(i);
    else if (/ => nomemory\n$|^status 1[24]\n$/.test(text)) wanting.push(i);
  }
  assert.ok(small.size <= 2 ** 22);
  assert.ok(written.length > 20 && wanting.length > 20);
  assert.equal(written.length + wanting.length, 400);
  small.limit(0);
  for (const i of written) assert.match(db.call(`0 get 10 k${i}\n`), / => value v{20000}\n$/);
});

test("the memory of a closed database serves the next", async () => {
  const again = await load(module);
  const fill = () => {
    const db = again.open();
    db.call("0 begin 1\n");
    for (let i = 0; i < 2000; i++) db.call(`0 put 1 k${i} ${"v".repeat(500)}\n`);
    db.close();
  };
  fill();
  const size = again.size;
  for (let i = 0; i < 5; i++) fill();
  assert.ok(again.size <= 1.3 * size, `${size} grew to ${again.size}`);
});

test("after a trap every further call is refused", async () => {
  const { exports } = new WebAssembly.Instance(module, {});
  const handle = exports.room(24n);
  const bytes = new DataView(exports.memory.buffer, Number(handle), 24);
  bytes.setBigUint64(0, 2n ** 40n, true);
  bytes.setUint8(8, 1);
  assert.throws(() => exports.ripsawbean_text(handle, handle, 0n, handle + 16n), WebAssembly.RuntimeError);
  bytes.setBigUint64(0, 0n, true);
  bytes.setUint8(8, 0);
  assert.throws(() => exports.ripsawbean_open(handle, 1024), WebAssembly.RuntimeError);
});

const hasFlag = process.execArgv.includes("--experimental-wasm-memory64");

test("an engine without a 64-bit memory is told so in words", { skip: !hasFlag && "this engine has one" }, () => {
  const program = `import(${JSON.stringify(new URL("../ripsawbean.mjs", import.meta.url))})
    .then((it) => it.load(new Uint8Array())).catch((error) => console.log(error.message))`;
  assert.equal(spawnSync(process.execPath, ["-e", program], { encoding: "utf8" }).stdout, `${NEEDS}\n`);
});
