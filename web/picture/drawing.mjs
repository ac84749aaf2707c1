// One moment of a history as a drawing: time from left to right, and lanes below one another.
import { Axis } from "./axis.mjs";
import { drawFeed } from "./feeds.mjs";
import { drawKey, drawProtections, drawScans, drawTransactions } from "./lanes.mjs";
import { markup } from "./markup.mjs";
import { closedMeaning, horizonMeaning } from "./meanings.mjs";
import { reasonOf } from "./reasons.mjs";
import { LETTER, line, Sheet } from "./sheet.mjs";
import { ascending, brief, bytesOf, shortened, wordOf } from "./words.mjs";

const TOP = 38; // where the grounds begin, below the names of closed and the horizon
// Pixels for names: in a drawing of less than 560, and in a wider one, where long keys may take more.
const NAMES = { narrow: 104, least: 118, most: 190, narrowBelow: 560 };

/**
 * The drawing of a moment: {svg, marks, axis, keysLeft, feedsLeft}. `state` has closed, the horizon and the feeds.
 * `zoom` tells from the pixels of the axis which timestamps are shown, `mostKeys` and `mostFeeds` are how many lanes.
 */
export function drawingOf(history, moment, state, { zoom, width, mostKeys, mostFeeds }) {
  const [left, right] = [roomOfNames(moment, width), width - 12];
  const axis = new Axis(pointsOf(moment, state), zoom(right - left), left, right);
  const hasFlags = state.database.closed > 0n;
  const sheet = new Sheet(axis, { left, right, y: hasFlags ? TOP + 10 : 4 });
  const refusals = refusalsOf(history, moment);
  const { keys, keysLeft } = keysOf(moment, refusals, axis, mostKeys);
  drawTransactions(sheet, moment, refusals.find((it) => it.key === null));
  const names = shortened(keys.map(wordOf), sheet.letters);
  keys.forEach((key, i) => drawKey(sheet, moment, { key, shown: names[i] }, refusals.filter((it) => it.key === key)));
  drawScans(sheet, moment);
  const facts = new Map(state.feeds.map((it) => [`${it.number}`, it]));
  const { feeds, feedsLeft } = feedsOf(moment, facts, mostFeeds);
  for (const it of feeds) drawFeed(sheet, moment, it, facts.get(it.number));
  drawProtections(sheet, moment);
  drawAxis(sheet);
  drawFlags(sheet, state);
  return { svg: wholeOf(sheet, width), marks: sheet.marks, axis, keysLeft, feedsLeft };
}

// The room steps, so that the picture doesn't move with each key that comes.
function roomOfNames(moment, width) {
  if (width < NAMES.narrowBelow) return NAMES.narrow;
  const isLong = [...moment.versions.keys()].some((it) => it.length * LETTER > NAMES.least - 12);
  return isLong ? NAMES.most : NAMES.least;
}

// Every timestamp at which something is drawn.
function pointsOf(moment, { database }) {
  const points = [database.closed, database.horizon, ...moment.transactions.keys()];
  for (const it of moment.protections.values()) points.push(it.ts);
  for (const feed of moment.feeds.values()) points.push(feed.cursor, ...feed.told.map((it) => it.resolved ?? it.ts));
  if (moment.event && hasPlace(moment.event)) points.push(BigInt(moment.event.words[0]));
  return points;
}

// What is said beside a refusal that has a place in the picture.
const SAID = {
  toolate: "too late", blocked: "blocked", notclosed: "not closed", belowhorizon: "below the horizon",
  belowclosed: "below closed", tsused: "used",
};

function hasPlace(event) {
  return event.answer in SAID && !event.command.startsWith("open") && event.command !== "protect";
}

// The writes that came too late, and what was refused just now: {event, ts, key, says, meaning}. The key may be null.
function refusalsOf(history, moment) {
  const isShown = (event) => hasPlace(event) && (event.answer === "toolate" || event === moment.event);
  const keyOf = (event) => (/^(get|readat|put|del)$/.test(event.command) ? bytesOf(event.words[1]) : null);
  return moment.refusals.filter(isShown).map((event) => ({
    event, ts: BigInt(event.words[0]), key: keyOf(event), says: SAID[event.answer],
    meaning: () => reasonOf(history, event.place),
  }));
}

// The keys of what is shown. Where there is room for some alone they are those that were touched last.
function keysOf(moment, refusals, axis, most) {
  const touched = new Map();
  const touch = (key, event) => touched.set(key, Math.max(event.place, touched.get(key) ?? -1));
  for (const [key, versions] of moment.versions)
    for (const it of versions) if (it.ts <= axis.points.at(-1)) touch(key, it.event);
  for (const it of moment.reads) if (it.key !== null && axis.meets(0n, it.ts)) touch(it.key, it.event);
  for (const it of refusals) if (it.key !== null) touch(it.key, it.event);
  const latest = [...touched].sort((a, b) => b[1] - a[1]).map(([key]) => key);
  return { keys: latest.slice(0, most).sort(ascending), keysLeft: Math.max(0, latest.length - most) };
}

// Live feeds, and behind them cancelled ones that have told something. Where there is room for some alone they are the
// live ones that have told least far, since they hold most, and then those that were cancelled last.
function feedsOf(moment, facts, most) {
  const all = [...moment.feeds.values()];
  const floorOf = (it) => facts.get(it.number)?.floor ?? 0n;
  const live = all.filter((it) => !it.cancelled).sort((a, b) => ascending(floorOf(a), floorOf(b)));
  const gone = all.filter((it) => it.cancelled && it.told.length > 0);
  gone.sort((a, b) => b.cancelled.place - a.cancelled.place);
  const byNumber = (a, b) => ascending(BigInt(a.number), BigInt(b.number));
  const shown = live.slice(0, most).sort(byNumber);
  const feeds = [...shown, ...gone.slice(0, most - shown.length).sort(byNumber)];
  return { feeds, feedsLeft: live.length + gone.length - feeds.length };
}

function drawAxis(sheet) {
  const { axis, left, right } = sheet;
  const y = sheet.y + 4;
  sheet.shapes.push(line("axis", [left, y], [right, y]));
  let free = -Infinity;
  axis.points.forEach((ts, i) => {
    const half = (brief(ts).length * LETTER) / 2;
    const x = Math.max(axis.places[i], left - 6 + half);
    sheet.shapes.push(line("axis", [axis.places[i], y], [axis.places[i], y + 5]));
    if (x - half < free) return;
    free = x + half + 6;
    sheet.shapes.push(markup`<text class="tick" x="${x}" y="${y + 19}">${brief(ts)}<title>${ts}</title></text>`);
  });
  const name = axis.isToScale ? "time" : "not to scale";
  sheet.shapes.push(markup`<text class="below" x="${left - 12}" y="${y + 19}">${name}</text>`);
  sheet.bottom = y;
  sheet.end(30);
}

// What is closed and what is collected: a ground with a line and a name each. Their marks stand before those of lanes.
function drawFlags(sheet, state) {
  const { closed, horizon } = state.database;
  const marks = sheet.marks.splice(0);
  sheet.lane = 0;
  const name = closed === horizon ? "closed = horizon" : "closed";
  if (closed > 0n) drawFlag(sheet, { kind: "closed", ts: closed, name, y: 13, meaning: () => closedMeaning(state) });
  if (horizon > 0n) drawGround(sheet, "horizon", horizon);
  if (horizon > 0n && horizon !== closed)
    drawFlag(sheet, { kind: "horizon", ts: horizon, name: "horizon", y: 30, meaning: () => horizonMeaning(state) });
  sheet.marks.push(...marks);
}

function drawGround(sheet, kind, ts) {
  const { axis, left, bottom } = sheet;
  const x = axis.x(ts);
  const size = markup`width="${x - left}" height="${bottom - TOP}"`;
  if (x > left) sheet.ground.push(markup`<rect class="ground ${kind}" x="${left}" y="${TOP}" ${size}/>`);
}

function drawFlag(sheet, { kind, ts, name, y, meaning }) {
  const { axis, left, right } = sheet;
  if (kind === "closed") drawGround(sheet, kind, ts);
  const x = axis.x(ts);
  const told = `${name} ${brief(ts)}`;
  const word = axis.has(ts) ? told : ts < axis.points[0] ? `◂ ${told}` : `${told} ▸`;
  const wide = word.length * LETTER;
  const at = Math.max(left, Math.min(x - wide / 2, right - wide));
  if (axis.has(ts)) sheet.ground.push(line(`flag ${kind}`, [x, y + 4], [x, sheet.bottom]));
  const room = markup`<rect class="hit" x="${at - 4}" y="${y - 13}" width="${wide + 8}" height="18"/>`;
  const mark = { id: kind, x, name: `${name} ${ts}`, meaning, layer: "front" };
  sheet.mark(mark, markup`<g class="flag ${kind}">${room}<text x="${at}" y="${y}">${word}</text></g>`);
}

function wholeOf(sheet, width) {
  const hatch = markup`<pattern id="picture-hatch" width="7" height="7" patternUnits="userSpaceOnUse"
    patternTransform="rotate(45)"><line class="hatch" x1="0" y1="0" x2="0" y2="7"/></pattern>`;
  return markup`<svg width="${width}" height="${sheet.y}" viewBox="0 0 ${width} ${sheet.y}" role="group"
    aria-label="versions, reads and feeds over time">
    <defs>${hatch}</defs>${sheet.ground}${sheet.shapes}${sheet.front}</svg>`;
}
