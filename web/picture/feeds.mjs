// The lanes of feeds: the rows that each has told, at their timestamps, its resolved messages, and how far it lags.
import { markup } from "./markup.mjs";
import * as meanings from "./meanings.mjs";
import { resolvedReason } from "./reasons.mjs";
import { circle, LEAST, LETTER, lettersIn, line, LONGEST, ofSeat, seatColour } from "./sheet.mjs";
import { brief, briefSpanOf, rough, short, shortened, shortWordOf, wordOf } from "./words.mjs";

const STEP = 16; // pixels from one row of a timestamp to the next
const MOST_ROWS = 4; // rows of a timestamp, one above the other

/** A lane for one feed. `facts` is its line of the state, or undefined where it was cancelled. */
export function drawFeed(sheet, moment, feed, facts) {
  const stacks = stacksOf(sheet, feed);
  const tall = Math.max(1, ...[...stacks.values()].map((it) => Math.min(MOST_ROWS, it.length)));
  const base = sheet.y + 12 + STEP * tall;
  const below = feed.cancelled ? "cancelled" : briefSpanOf(feed);
  sheet.begin(`feed ${feed.number}`, { y: base - sheet.y - 8, colour: seatColour(feed.seat), below });
  drawPlace(sheet, feed, facts, moment.closed, base);
  const stamps = [...stacks.keys()];
  stamps.forEach((ts, i) => drawStack(sheet, moment, feed, stacks.get(ts), base, stamps[i + 1]));
  drawResolved(sheet, moment, feed, base);
  sheet.end(base - sheet.y + 32);
}

const kindOf = (feed) => `feed${feed.cancelled ? " gone" : ""}`;

// The rows that are seen, by their timestamps.
function stacksOf(sheet, feed) {
  const stacks = new Map();
  for (const it of feed.told.filter((it) => "ts" in it && sheet.axis.has(it.ts))) {
    if (!stacks.has(it.ts)) stacks.set(it.ts, []);
    stacks.get(it.ts).push(it);
  }
  return stacks;
}

// From the cursor to where all was told, and from there to closed, which is how far it is behind.
function drawPlace(sheet, feed, facts, closed, base) {
  const { axis, right } = sheet;
  const [cursor, told] = [axis.x(feed.cursor), facts && axis.x(facts.floor)];
  const shapes = [line("way", [cursor, base], [right, base])];
  if (facts) shapes.push(line("told", [cursor, base], [told, base]));
  if (facts && facts.behind > 0n) {
    const from = told + 8 + (LETTER * brief(facts.floor).length) / 2;
    shapes.push(line("behind", [told, base], [axis.x(closed), base]));
    shapes.push(sheet.text(from, base + 19, `${rough(facts.behind)} behind`, right - from, "small behind"));
  }
  if (axis.has(feed.cursor)) shapes.push(circle("hit", cursor, base, 9), circle("cursor", cursor, base, 4.5));
  const mark = {
    id: `cursor ${feed.number}`, x: cursor, name: `feed ${feed.number}, cursor ${feed.cursor}`,
    meaning: () => meanings.cursorMeaning(feed),
  };
  sheet.mark(mark, ofSeat(feed.seat, kindOf(feed), shapes));
}

// The rows of one timestamp, one above the other. `next` is the next timestamp that has any.
function drawStack(sheet, moment, feed, rows, base, next) {
  const x = sheet.axis.x(rows[0].ts);
  const room = (next === undefined ? sheet.right + 8 : sheet.axis.x(next)) - x - 12;
  const shown = rows.length > MOST_ROWS ? rows.slice(0, MOST_ROWS - 1) : rows;
  const yOf = (i) => base - 12 - STEP * i;
  const top = yOf(Math.min(rows.length, MOST_ROWS) - 1);
  sheet.shapes.push(ofSeat(feed.seat, kindOf(feed), line("stem", [x, base], [x, top])));
  const words = cutWordsOf(shown, lettersIn(room));
  shown.forEach((row, i) => drawRow(sheet, moment, feed, row, { x, y: yOf(i), room, cut: words[i] }));
  const more = rows.length - shown.length;
  if (more > 0) sheet.shapes.push(sheet.text(x + 8, top + 4, `+${more}`, 4 * LETTER, "small"));
}

const valueOf = (row) => (row.value === null ? "✕" : shortWordOf(row.value, LONGEST));

// Keys and values of rows, cut so that there is room for both: the keys stay apart, and a value has a third at least.
// Where next to nothing of a key would be left there are no words.
function cutWordsOf(rows, most) {
  const keys = rows.map((it) => wordOf(it.key));
  const longest = Math.max(...keys.map((it) => it.length));
  const values = rows.map((it) => short(valueOf(it), Math.max(Math.floor(most / 3), most - longest - 1)));
  const left = Math.max(0, most - 1 - Math.max(...values.map((it) => it.length)));
  if (left < Math.min(LEAST, longest)) return rows.map(() => "");
  return shortened(keys, left).map((key, i) => `${key} ${values[i]}`);
}

function drawRow(sheet, moment, feed, row, { x, y, room, cut }) {
  const word = `${wordOf(row.key)} ${valueOf(row)}`;
  const mark = {
    id: `row ${feed.number} ${wordOf(row.key)} ${row.ts}`, x, name: `feed ${feed.number} told ${word} of ${row.ts}`,
    meaning: () => meanings.rowMeaning(feed, row), isFresh: row.event === moment.event,
  };
  const shapes = [circle("hit", x, y, 8), circle("row", x, y, 3.6), sheet.text(x + 8, y + 4, word, room, "", cut)];
  sheet.mark(mark, ofSeat(feed.seat, kindOf(feed), shapes));
}

// Diamonds. Their timestamps stand below them, the last one first, where there is room.
function drawResolved(sheet, moment, feed, base) {
  let free = Infinity;
  for (const message of feed.told.filter((it) => "resolved" in it && sheet.axis.has(it.resolved)).reverse()) {
    const { resolved: ts, event } = message;
    const [x, half] = [sheet.axis.x(ts), (brief(ts).length * LETTER) / 2];
    const isNamed = x + half + 6 < free;
    if (isNamed) free = x - half;
    const mark = {
      id: `resolved ${feed.number} ${ts}`, x, name: `feed ${feed.number} said resolved ${ts}`,
      meaning: () => resolvedReason(feed, message), isFresh: event === moment.event,
    };
    const name = isNamed && markup`<text class="small resolved" x="${x}" y="${base + 19}">${brief(ts)}</text>`;
    const diamond = markup`<path class="resolved" d="M${x} ${base - 6}l6 6l-6 6l-6 -6z"/>`;
    sheet.mark(mark, markup`<g class="${kindOf(feed)}">${circle("hit", x, base, 9)}${diamond}${name}</g>`);
  }
}
