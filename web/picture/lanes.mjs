// The lanes of transactions, of keys and of protections.
import { markup } from "./markup.mjs";
import * as meanings from "./meanings.mjs";
import { circle, cross, LETTER, line, LONGEST, ofSeat } from "./sheet.mjs";
import { ascending, counted, holds, shortWordOf, wordOf } from "./words.mjs";

const TALL = 26; // pixels of a version from top to bottom
const MOST_READS = 4; // lines of reads below a key
const READ = 8; // pixels from one of them to the next

/** A mark for each transaction, at its timestamp. A refusal that belongs to no key stands here too. */
export function drawTransactions(sheet, moment, refusal) {
  sheet.begin("transactions", { colour: "var(--soft)" });
  const y = sheet.y + 14;
  for (const it of moment.transactions.values()) if (sheet.axis.has(it.ts)) drawTransaction(sheet, moment, it, y);
  if (refusal) drawRefusal(sheet, refusal, y, []);
  sheet.end(32);
}

function drawTransaction(sheet, moment, transaction, y) {
  const { ts, seat, standing, began, ended } = transaction;
  const x = sheet.axis.x(ts);
  const mark = {
    id: `transaction ${ts}`, x, name: `transaction ${ts}, ${standing}`,
    meaning: () => meanings.transactionMeaning(transaction), isFresh: began === moment.event || ended === moment.event,
  };
  const shape = standing === "aborted" ? cross(x, y, 5) : circle(standing, x, y, 6);
  sheet.mark(mark, ofSeat(seat, "transaction", circle("hit", x, y, 11), shape));
}

/** A lane for one key: its versions from their timestamps on, the reads that keep writes out, and refusals. */
export function drawKey(sheet, moment, { key, shown }, refusals) {
  sheet.begin(wordOf(key), { shown });
  const y = sheet.y + 2;
  sheet.shapes.push(line("rule", [sheet.left, y + TALL], [sheet.right, y + TALL]));
  const versions = moment.versions.get(key) ?? [];
  versions.forEach((it, i) => drawVersion(sheet, moment, it, versions[i + 1], y));
  const lines = drawReads(sheet, moment, key, y + TALL + READ);
  const taken = refusals.length > 0 ? versions.map((it, i) => roomOf(sheet, it, versions[i + 1])) : [];
  for (const it of refusals) drawRefusal(sheet, it, y + TALL / 2, taken);
  sheet.end(TALL + 14 + READ * lines);
}

// Where the edge and the word of a version stand, from left to right.
function roomOf(sheet, { ts, value }, next) {
  const [from, end] = [sheet.axis.x(ts), next ? sheet.axis.x(next.ts) : sheet.right];
  const wide = value === null ? 18 : 10 + LETTER * shortWordOf(value, LONGEST).length;
  return { from, to: Math.min(from + wide, end) };
}

function drawVersion(sheet, moment, version, next, y) {
  const { axis, right } = sheet;
  const { key, ts, value, transaction } = version;
  if (!axis.meets(ts, next?.ts ?? axis.points.at(-1))) return;
  const [x, wide] = [axis.x(ts), Math.max(3, (next ? axis.x(next.ts) : right) - axis.x(ts) - 1)];
  const word = value === null ? "deleted" : shortWordOf(value, LONGEST);
  const box = (kind, width) => markup`<rect class="${kind}" x="${x}" y="${y}" width="${width}" height="${TALL}"/>`;
  const shapes = value === null ? [box("hit", 18), cross(x + 10, y + TALL / 2, 4)]
    : [box("hit", wide), box("body", wide), sheet.text(x + 8, y + 17, word, wide - 11)];
  if (axis.has(ts)) shapes.push(line("edge", [x + 1.5, y - 1], [x + 1.5, y + TALL]));
  const mark = {
    id: `version ${wordOf(key)} ${ts}`, x, name: `${wordOf(key)} at ${ts}: ${word}`,
    meaning: () => meanings.versionMeaning(moment, version), isFresh: version.event === moment.event,
  };
  const kind = moment.isDead(version) ? "dead" : transaction.standing;
  sheet.mark(mark, ofSeat(transaction.seat, `version ${kind}`, shapes));
}

// The reads that say most: of those that found one version the highest keeps out all that the others do.
function readsOf(moment, key) {
  const highest = new Map();
  for (const read of moment.reads) {
    if (!holds(read, key)) continue;
    const found = read.found.get(key) ?? 0n;
    if (found < read.ts && (highest.get(found)?.ts ?? 0n) < read.ts) highest.set(found, read);
  }
  return [...highest].map(([found, read]) => ({ found, read })).sort((a, b) => ascending(a.found, b.found));
}

// Reads side by side, in as few lines as they need. The answer is how many lines that is.
function drawReads(sheet, moment, key, y) {
  const ends = [];
  let left = 0;
  for (const { found, read } of readsOf(moment, key)) {
    if (!sheet.axis.meets(found, read.ts)) continue;
    const free = ends.findIndex((it) => it <= found);
    const place = free < 0 ? ends.length : free;
    if (place === MOST_READS) {
      left++;
      continue;
    }
    ends[place] = read.ts;
    drawRead(sheet, moment, { read, found, key }, y + READ * place);
  }
  if (left === 0) return ends.length;
  const more = `and ${counted(left, "read")} more`;
  sheet.shapes.push(sheet.text(sheet.left, y + READ * MOST_READS + 4, more, sheet.right - sheet.left, "small"));
  return ends.length + 1;
}

function drawRead(sheet, moment, { read, found, key }, y) {
  const { axis } = sheet;
  const [from, to] = [axis.x(found), axis.x(read.ts)];
  const mark = {
    id: `read ${wordOf(key)} ${found} ${read.ts}`, x: to, name: `${wordOf(key)}, read at ${read.ts}`,
    meaning: () => meanings.readMeaning(read, key), isFresh: read.event === moment.event,
  };
  const start = axis.has(found) && line("read", [from + 1, y - 3], [from + 1, y + 3]);
  const end = axis.has(read.ts) && circle("reader", to, y, 3.4);
  sheet.mark(mark, ofSeat(read.seat, "reading", reach(from, to, y), start, end));
}

// A read from left to right, with room round it for a pointer.
function reach(from, to, y) {
  return [line("hit", [from, y], [to, y]), line("read", [from, y], [to, y])];
}

/** A lane for the keys that scans have read although they had no version. */
export function drawScans(sheet, moment) {
  const highest = new Map();
  for (const it of moment.reads) {
    const span = `${wordOf(it.lo)} ${wordOf(it.hi)}`;
    if (it.key === null && (highest.get(span)?.ts ?? 0n) < it.ts) highest.set(span, it);
  }
  const scans = [...highest.values()].slice(-MOST_READS);
  if (scans.length === 0) return;
  sheet.begin("new keys", { y: 14, colour: "var(--soft)" });
  scans.forEach((it, i) => drawScan(sheet, moment, it, sheet.y + 10 + 10 * i));
  sheet.end(18 + 10 * scans.length);
}

function drawScan(sheet, moment, read, y) {
  const x = sheet.axis.x(read.ts);
  const mark = {
    id: `scan ${read.event.place}`, x, name: `scan at ${read.ts}`,
    meaning: () => meanings.scanMeaning(read), isFresh: read.event === moment.event,
  };
  const end = sheet.axis.has(read.ts) && circle("reader", x, y, 3.4);
  sheet.mark(mark, ofSeat(read.seat, "reading", reach(sheet.left, x, y), end));
}

/** A lane for protections, where any stand. */
export function drawProtections(sheet, moment) {
  if (moment.protections.size === 0) return;
  sheet.begin("protections", { colour: "var(--soft)" });
  for (const it of moment.protections.values()) if (sheet.axis.has(it.ts)) drawProtection(sheet, moment, it);
  sheet.end(32);
}

function drawProtection(sheet, moment, protection) {
  const { number, ts, event } = protection;
  const [x, y] = [sheet.axis.x(ts), sheet.y + 6];
  const mark = {
    id: `protection ${number}`, x, name: `protection ${number} at ${ts}`,
    meaning: () => meanings.protectionMeaning(protection), isFresh: event === moment.event,
  };
  const shield = markup`<path class="protection" d="M${x - 6} ${y}h12v8q0 5 -6 8q-6 -3 -6 -8z"/>`;
  sheet.mark(mark, circle("hit", x, y + 8, 11), shield, sheet.text(x + 10, y + 13, number, 60, "small"));
}

// A command that was refused, where it would have had its place. Its answer stands beside it if nothing is in the way.
function drawRefusal(sheet, { event, ts, says, meaning }, y, taken) {
  if (!sheet.axis.has(ts)) return;
  const x = sheet.axis.x(ts);
  const wide = says.length * LETTER + 14;
  const isWithin = (from, to) => from >= sheet.left && to <= sheet.right + 8;
  const isFree = (from, to) => isWithin(from, to) && !taken.some((it) => it.from < to && from < it.to);
  const text = isFree(x + 2, x + wide) ? markup`<text x="${x + 10}" y="${y + 4}">${says}</text>`
    : isFree(x - wide, x - 2) && markup`<text class="before" x="${x - 10}" y="${y + 4}">${says}</text>`;
  const mark = {
    id: `refusal ${event.place}`, x, name: `refused: ${event.command} at ${ts}, ${says}`, meaning, layer: "front",
  };
  sheet.mark(mark, markup`<g class="refusal">${circle("hit", x, y, 11)}${cross(x, y, 6)}${text}</g>`);
}
