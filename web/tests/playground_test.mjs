// The page's words without a browser and without the module: the table of commands beside the program's own, and what is
// said of lines that were pasted. web/test runs it.
import assert from "node:assert/strict";
import test from "node:test";
import { COMMANDS, commandNamed, isNumber, nearTo, WORDS } from "../playground/commands.mjs";
import { EXAMPLES } from "../playground/examples.mjs";
import { explain } from "../playground/faults.mjs";
import { help } from "../playground/help.mjs";
import { read } from "./guide.mjs";

const commands = COMMANDS.flatMap((it) => it.commands);

test("the table has each command of the program, with as many words behind it", () => {
  const forms = read("crates/word_lines/src/table.rt").matchAll(/\(b"(\w+)", Verb::\w+, (\d+)\),/g);
  const ofProgram = [...forms].map((it) => [it[1], Number(it[2])]).sort();
  assert.equal(ofProgram.length, 21);
  assert.deepEqual(commands.map(({ name, slots }) => [name, slots.length]).sort(), ofProgram);
});

test("each form is in the guide, and each example has a word for each of its slots", () => {
  const guide = read("docs/GUIDE.md");
  for (const { name, slots, form, example } of commands) {
    assert.ok(guide.includes(`\`${form}\``), form);
    const [first, ...words] = example.split(" ");
    assert.deepEqual([first, words.length], [name, slots.length]);
    slots.forEach((it, i) => assert.equal(/^\d+$/.test(words[i]), isNumber(it) || words[i] === "3", example));
  }
});

test("the list of commands shows each form, and what its words stand for", () => {
  const list = `${help()}`;
  for (const { form, does } of commands) for (const it of [form, does]) assert.ok(list.includes(`>${it}<`), it);
  const meant = Object.keys(WORDS).flatMap((it) => it.split(/\W+/));
  const used = new Set(commands.flatMap((it) => it.slots));
  assert.deepEqual([...used].filter((it) => !meant.includes(it)).sort(), ["KEY", "VALUE"]);
});

test("a name that is nearly one finds it, and another finds none", () => {
  const meant = { putt: "put", Begin: "begin", comit: "commit", cancle: "cancel", delete: "del", read: "readat" };
  for (const [word, name] of Object.entries(meant)) assert.equal(nearTo(word), name);
  for (const it of ["", "insert", "select", "x", "constructor", "0", "p".repeat(200000)]) assert.equal(nearTo(it), undefined, it);
  assert.equal(commandNamed("constructor"), undefined);
});

test("a fault is told at its place", () => {
  for (const [line, fault, said] of [
    ["stats 1", "wordcount", "stats takes no word behind it, and here is 1."],
    ["begin", "wordcount", "begin takes 1 word behind it, and here are none."],
    ["put 10 a", "wordcount", "put takes 3 words behind it, and here are 2."],
    ["put 10 a 10 EUR", "wordcount", "put takes 3 words behind it, and here are 4. A space within a word is spelled %20."],
    ["begin 1 2", "wordcount", "begin takes 1 word behind it, and here are 2."],
    ["insert 1", "unknowncommand", "No command has the name insert. All of them stand below, under Commands."],
    ["close 01", "number", "A number doesn't begin with a zero: write 1 for 01."],
    ["openevery a b 1 x", "number", "GAP is a number, and x is none."],
    ["poll 1 99999999999999999999", "number", "A number is 18446744073709551615 at most, and 99999999999999999999 is greater."],
    ["del 10 -", "keylength", "A key has 1 byte at least, and - is none. The key - is spelled %2D."],
    [`get 10 ${"k".repeat(257)}`, "keylength", "A key has 256 bytes at most."],
    ["put 10 é 1", "badbyte", "Write %C3%A9 for é."],
    ["put 10 a 50%", "badbyte", "Write 50%25 for 50%."],
    ["get 10 日", "badbyte", "Write %E6%97%A5 for 日."],
    [`get ${"x".repeat(60)} a`, "number", `TS is a number, and ${"x".repeat(20)}…${"x".repeat(19)} is none.`],
  ]) assert.equal(explain(line, fault, { seat: 0 }).says, said);
});

const says = (line, seat, undecided = null) => explain(line, "unknowncommand", { seat, undecided }).says;

test("a pasted line with a session or a position is answered with what to leave out", () => {
  for (const [line, said] of [
    ["0 begin 10", "Leave out the session: this box is session 0's."],
    ["1 begin 10", "Leave out the session: this box is session 0's. Session 1 has a box of its own."],
    ["0 begin 10 => started", "Leave out the session and the answer: this box is session 0's."],
    ["0 0 begin 10 => started", "Leave out the position, the session and the answer: this box is session 0's."],
    ["7 0 put 10 a 1", "Leave out the position and the session: this box is session 0's."],
    ["begin 10 => started", "Leave out the answer, from => on."],
    ["put 10 => => => written", "Leave out the answer, from => on."],
  ]) {
    assert.equal(says(line, 0), said);
    assert.ok(explain(line, "unknowncommand", { seat: 0 }).command);
  }
  assert.equal(says("3 stats", 3), "Leave out the session: this box is session 3's.");
});

test("the server's dot is answered with the timestamp that stands for it", () => {
  const dot = "Leave out the dot, which a server alone knows, and write the transaction's timestamp";
  assert.equal(says("commit .", 0), `${dot}.`);
  assert.equal(says("get . apple", 1, 20n), `${dot}, here 20.`);
  assert.match(says("1 get . apple", 1, 20n), /^Leave out the session: .* Leave out the dot, .* here 20\.$/);
  assert.doesNotMatch(says("put 10 . .", 0), /dot/);
});

test("a line of a transcript, within a script, keeps its session", () => {
  const said = (line) => explain(line, "unknowncommand").says;
  assert.equal(said("4 0 begin 10 => started"), "Leave out the position and the answer.");
  assert.equal(said("0 begin 10 => started"), "Leave out the answer, from => on.");
  assert.equal(said("0 putt 10 a 1"), "No command has the name putt. Did you mean put?");
  for (const it of ["0  begin 10", "0 begin 10 ", "0\tbegin 10"]) assert.match(said(it), /^One space stands between/);
  assert.equal(explain("0", "wordcount").says, "A line has a command behind its session.");
  assert.equal(explain("begin 10", "session").says, "A line of a script begins with its session, a number from 0 to 63.");
});

test("the page opens on a small story, and all of it together comes last", () => {
  const stories = Object.values(EXAMPLES);
  const lines = stories[0].lines.split("\n");
  const made = (command) => lines.filter((it) => it.split(" ")[1] === command).length;
  assert.deepEqual([...new Set(lines.map((it) => it.split(" ")[0]))], ["0", "1"]);
  assert.deepEqual(["put", "commit", "get", "open", "poll"].map(made), [2, 1, 1, 1, 1]);
  assert.equal(stories.at(-1).title, "All of it together");
  assert.equal(stories.length, 13);
});
