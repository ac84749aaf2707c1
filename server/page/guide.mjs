// The guide's examples, run on the live database: their timestamps are moved above all that began, and their feeds and
// protections get the numbers that the database gives. All their lines are of one session here.

import { textOf } from "./live.mjs";

// Which words of a command are timestamps.
const TIMESTAMPS = {
  begin: 0, get: 0, scan: 0, put: 0, del: 0, commit: 0, abort: 0, close: 0, closehard: 0, readat: 0, scanat: 0,
  protect: 0, collect: 0, open: 2, openinitial: 2, openevery: 2, openinitialevery: 2,
};
// Which answer has given the number that a command names.
const NUMBERED = { poll: "opened", cancel: "opened", release: "protected" };
const STEP = 1000n;

/** Examples that can be moved: those at the ends of all timestamps can't. */
export async function examples() {
  const text = await textOf("/page/examples");
  const all = text.split("\n").filter((it) => it !== "").map((it) => JSON.parse(it));
  const fitting = all.filter(({ events }) => !events.some(({ line }) => /\d{10}/.test(line)));
  return fitting.map((it, i) => ({ ...it, title: titleOf(fitting, it, i) }));
}

function titleOf(all, { heading }, i) {
  const before = all.slice(0, i).filter((it) => it.heading === heading).length;
  return before === 0 ? heading : `${heading}, ${before + 1}`;
}

/** By how much an example's timestamps are moved: above all that began, and above closed. */
export function shiftAbove({ greatest, closed }) {
  const [begun, shut] = [BigInt(greatest), BigInt(closed)];
  return ((begun > shut ? begun : shut) / STEP + 1n) * STEP;
}

/** Runs an example by `say(lines)`, which gives back the events. */
export async function run({ events }, shift, say) {
  const numbers = { opened: new Map(), protected: new Map() };
  for (const part of partsOf(events)) {
    const text = await say(part.map((it) => `${moved(it.line, shift, numbers)}\n`).join(""));
    const [, kind, number] = / => (opened|protected) (\d+)\n$/.exec(text) ?? [];
    if (kind) numbers[kind].set(part.at(-1).answer.split(" ")[1], number);
  }
}

// As few messages as can be, since closed may move between two: a message ends where a number has to be learnt.
function partsOf(events) {
  const parts = [[]];
  for (const it of events) {
    parts.at(-1).push(it);
    if (/^(opened|protected) /.test(it.answer)) parts.push([]);
  }
  return parts.filter((it) => it.length > 0);
}

function moved(line, shift, numbers) {
  const [command, ...words] = line.split(" ");
  const at = TIMESTAMPS[command];
  if (at !== undefined) words[at] = `${BigInt(words[at]) + shift}`;
  if (command in NUMBERED) words[0] = numbers[NUMBERED[command]].get(words[0]) ?? words[0];
  return [command, ...words].join(" ");
}
