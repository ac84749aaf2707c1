// The numbers at the top: rates, memory, lags, and the oldest transaction. Rates are those of the last seconds.
import { markup } from "/picture/markup.mjs";
import { counted } from "/picture/words.mjs";
import { keep } from "./keep.mjs";

const WINDOW = 5000; // milliseconds over which a rate is taken
const KEPT = 60; // looks of which the lines are drawn
const LATE = 5; // seconds from which on an age stands out

export class Vitals {
  #looks = []; // {at, calls, rows, commits}, the newest last
  #lines = new Map(); // name: the values of the last looks

  /** Takes what was told at a time in milliseconds. */
  take(at, { metrics, holders, seen }) {
    const look = { at, identity: holders.server.identity, ...countersOf(metrics, holders, seen) };
    if (this.#looks.at(-1)?.identity !== look.identity) [this.#looks, this.#lines] = [[], new Map()];
    this.#looks.push(look);
    while (this.#looks.length > 2 && at - this.#looks[0].at > WINDOW) this.#looks.shift();
  }

  draw(element, live) {
    const { calls, rows } = this.#looks.at(-1).numbers;
    const refused = this.#growth("refused");
    const tiles = [
      { ...this.#rate("calls"), note: `${countText(calls)} in all` },
      { ...this.#rate("rows"), note: `${countText(rows)} in all` },
      { ...this.#rate("commits"), note: refused > 0 && `${rateText(refused)} /s refused` },
      memoryTile(live), lagTile(live), oldestTile(live), closingTile(live), seatsTile(live),
    ];
    keep(element, tiles.map((it) => ({ key: it.name, html: tileOf(it, this.#line(it)) })));
  }

  #rate(name) {
    const rate = this.#growth(name);
    const said = rate === null ? { value: "–" } : { value: rateText(rate), unit: "/s" };
    return { name, measure: rate, full: 10, ...said };
  }

  // By how much a counter grows in a second, or null after the first look.
  #growth(counter) {
    const [first, last] = [this.#looks[0], this.#looks.at(-1)];
    const seconds = (last.at - first.at) / 1000;
    return seconds > 0 ? Math.max(0, last[counter](first) / seconds) : null;
  }

  // Each look adds a point to a tile's line.
  #line({ name, measure }) {
    if (measure === undefined) return [];
    if (!this.#lines.has(name)) this.#lines.set(name, []);
    const line = this.#lines.get(name);
    if (measure !== null) line.push(measure);
    if (line.length > KEPT) line.shift();
    return line;
  }
}

// How much each has grown since an earlier look. Commits are counted among the events that were seen, which may be some
// of all, unless the server counts them.
function countersOf(metrics, { server }, { events, commits }) {
  const calls = metrics.value("calls_total") ?? server.calls;
  const rows = metrics.value("rows_total") ?? server.rows;
  const told = metrics.value("commits_total");
  const refused = metrics.named("refusals_total").reduce((sum, it) => sum + it.value, 0);
  return {
    refused: (first) => refused - first.numbers.refused,
    calls: (first) => calls - first.numbers.calls,
    rows: (first) => rows - first.numbers.rows,
    commits: (first) => {
      if (told !== null && first.numbers.told !== null) return told - first.numbers.told;
      const came = events - first.numbers.events;
      return came === 0 ? 0 : ((commits - first.numbers.commits) * (calls - first.numbers.calls)) / came;
    },
    numbers: { calls, rows, told, refused, events, commits },
  };
}

// ---- what each tile says: {name, rest, value, unit, note, isLate, measure, full}. Where it is narrow the name has no
// rest. `full` is a measure that is drawn as high as the tile's ground, if none was greater.

function memoryTile({ metrics, state }) {
  const bytes = metrics.value("memory_bytes");
  if (bytes === null) return { name: "memory", value: "–" };
  const [value, unit] = bytes < 1e9 ? [Math.round(bytes / 1e6), "MB"] : [(bytes / 1e9).toFixed(2), "GB"];
  const versions = /"versions":"(\d+)"/.exec(state ?? "")?.[1];
  const most = metrics.value("memory_max_bytes") ?? 0;
  const isFull = most > 0 && bytes > most;
  const note = isFull ? "as much as it may" : versions && counted(countText(Number(versions)), "version");
  return { name: "memory", value: `${value}`, unit, note, isLate: isFull, measure: bytes };
}

function lagTile({ holders, metrics }) {
  const lags = [
    ...holders.consumer.filter((it) => it.stored !== null).map(({ name, lag }) => ({ name, lag })),
    ...holders.feed.filter((it) => !it.consumer).map(({ number, lag }) => ({ name: `feed ${number}`, lag })),
  ].sort((a, b) => b.lag - a.lag);
  const worst = lags[0] ?? { name: "nobody follows", lag: metrics.value("feeds_lag_rows") ?? 0 };
  const note = lags.length > 0 && worst.lag === 0 ? "all are up to date" : worst.name;
  const unit = worst.lag === 1 ? "row" : "rows";
  return { name: "lag", value: countText(worst.lag), unit, note, measure: worst.lag, full: 100 };
}

function oldestTile({ holders, metrics }) {
  const oldest = holders.transaction.toSorted((a, b) => b.age - a.age)[0];
  if (!oldest) return { name: "oldest", rest: "transaction", value: "none", measure: 0, full: LATE };
  const age = metrics.value("oldest_transaction_seconds") ?? oldest.age;
  const [value, unit] = ageText(age);
  const note = `${oldest.timestamp}, session ${oldest.seat}`;
  return { name: "oldest", rest: "transaction", value, unit, note, isLate: age > LATE, measure: age, full: LATE };
}

// How long closed has had to wait. An older server doesn't tell it: then it is the age of the transaction in its way.
function closingTile({ holders, metrics }) {
  const { oldest } = holders.server;
  const inTheWay = holders.transaction.find((it) => it.timestamp === oldest);
  const delay = metrics.value("closing_delay_seconds") ?? inTheWay?.age ?? 0;
  const [value, unit] = ageText(delay);
  const note = inTheWay && delay > 0 ? `waits for ${oldest}` : undefined;
  return { name: "closing", rest: "delay", value, unit, note, isLate: delay > LATE, measure: delay, full: LATE };
}

function seatsTile({ holders, metrics }) {
  const { sessions } = holders.server;
  const streams = metrics.value("streams");
  const note = streams !== null && counted(streams, "stream");
  return { name: "seats", value: `${sessions}`, unit: "of 64", note, isLate: sessions > 60 };
}

// ---- texts

export function rateText(rate) {
  return rate < 9.95 ? (rate === 0 ? "0" : rate.toFixed(1)) : countText(Math.round(rate));
}

export function countText(count) {
  return count < 1e6 ? count.toLocaleString("en") : `${(count / 1e6).toFixed(1)}M`;
}

/** An age as a number and its unit. */
export function ageText(seconds) {
  if (seconds < 9.95) return [seconds.toFixed(1), "s"];
  if (seconds < 100) return [`${Math.round(seconds)}`, "s"];
  return seconds < 6000 ? [`${Math.round(seconds / 60)}`, "min"] : [`${Math.round(seconds / 3600)}`, "h"];
}

function tileOf({ name, rest, value, unit, note, isLate, full = 0 }, line) {
  return markup`<div class="tile${isLate && " late"}"><dt>${name}${rest && markup`<span> ${rest}</span>`}</dt>
    <dd><b>${value}</b>${unit && markup` <span>${unit}</span>`}${line.length > 2 && drawn(line, full)}</dd>
    <dd class="note" title="${note}">${note}</dd></div>`;
}

// The ground of a tile: the last looks, the newest at the right, from 0 to the greatest.
function drawn(line, full) {
  const most = Math.max(...line, full, 1e-9);
  const from = KEPT - line.length;
  const points = line.map((it, i) => `L${from + i} ${(100 - (it / most) * 100).toFixed()}`);
  return markup`<svg class="line" viewBox="0 0 ${KEPT - 1} 100" preserveAspectRatio="none" aria-hidden="true">
    <path d="M${from} 100${points.join("")}V100z"/></svg>`;
}
