// Why an event was answered as it was, in a sentence or two, from what the answers up to it tell.
import { bytesOf, counted, holds, spanOf } from "./words.mjs";

/** Why the event at this place of a history was answered so. */
export function reasonOf(history, place) {
  const event = history.at(place);
  return REASONS[event.answer]?.(history.after(place), event, event.words[0]) ?? "";
}

const AGAIN = "begin again with a greater timestamp";

// Each is given the moment right after the event, the event, and the first word behind its command.
const REASONS = {
  tsrange: () => "Timestamps end at 9223372036854775807, and those of transactions begin at 1.",
  started: (_, event, ts) =>
    `Transaction ${ts} is session ${event.seat}'s own. Its timestamp is its place in time, whenever it commits.`,
  belowclosed: (_, event, ts) =>
    `Closed is ${event.details[0]}: nothing at or below it changes any more, so nothing begins at ${ts}. ` +
    "Choose a greater timestamp.",
  tsused: (_, event, ts) => `A transaction of timestamp ${ts} began before, and a timestamp is used once.`,
  notxn: (_, event, ts) => `No transaction ${ts} began.`,
  notowner: isAnothers,
  ended: hasEnded,

  written: (_, event, ts) =>
    `Transaction ${ts} ${event.command === "del" ? "deletes" : "writes"} ${event.words[1]}. ` +
    "Until it commits, a read of another transaction that would see this is blocked.",
  toolate: isTooLate,
  committed: hasCommitted,
  aborted: (_, event, ts) => `What transaction ${ts} wrote is gone. What it read still keeps earlier writes out.`,

  value: hasFound,
  none: hasFound,
  rows: hasFoundRows,
  blocked: (_, event, ts) =>
    `Transaction ${event.details[0]} wrote the newest version at or below ${ts} and is undecided, ` +
    "so the answer isn't known yet. A blocked read leaves no mark.",
  notclosed: (_, event) =>
    `Closed is ${event.details[0]}, so what stands at ${askedAt(event)} may still change. ` +
    "Close further, or read lower.",
  belowhorizon: (_, event) =>
    `The horizon is ${event.details[0]}, and what only reads below it can see may be dropped. ` +
    `So ${askedAt(event)} is too low.`,

  closed: hasClosed,
  collected: hasCollected,
  protected: (_, event, ts) =>
    `Until protection ${event.details[0]} is released the horizon can't pass ${ts}: reads there find their versions.`,
  released: (_, event, number) => `Protection ${number} is gone, and the horizon may pass it.`,
  noprotection: (_, event, number) => `No protection ${number} stands.`,

  opened: hasOpened,
  gaprange: () => "A gap is 1 at least, and 9223372036854775807 at most.",
  messages: hasTold,
  cancelled: (_, event, number) => `Feed ${number} tells nothing from here on, and holds nothing any more.`,
  nofeed: (_, event, number) => `No feed ${number} was opened.`,
  feedcancelled: (moment, event, number) =>
    `Session ${moment.feeds.get(number)?.cancelled?.seat} cancelled feed ${number}: it tells no more. Open another.`,

  stats: hasCounted,
  nomemory: () => "There was no memory for it. Nothing has changed: try again.",
};

// The timestamp that a command asks for: `open` and its like have it behind two bounds.
function askedAt(event) {
  return event.words[event.command.startsWith("open") ? 2 : 0];
}

const keyOf = (event) => bytesOf(event.words[1]);

// ---- transactions

function isAnothers(moment, event, number) {
  if (event.command === "poll")
    return `Session ${moment.feeds.get(number)?.seat} opened feed ${number}: it alone polls it.`;
  const owner = moment.transactions.get(BigInt(number))?.seat;
  return `Session ${owner} began transaction ${number}: it alone goes on with it.`;
}

function hasEnded(moment, event, ts) {
  const by = moment.transactions.get(BigInt(ts))?.ended;
  if (!by) return `Closed is ${moment.closed}, and what is at or below it is decided for good.`;
  if (by.answer === "committed") return `Transaction ${ts} is committed, and does no more.`;
  if (by.answer === "toolate")
    return `Transaction ${ts} was aborted when its write of ${by.words[1]} came too late: ${AGAIN}.`;
  if (by.answer === "closed") return `The hard closing to ${by.words[0]} aborted transaction ${ts}: ${AGAIN}.`;
  return `Transaction ${ts} was aborted, and does no more.`;
}

function isTooLate(moment, event, ts) {
  const key = event.words[1];
  const read = readAcross(moment, keyOf(event), BigInt(ts));
  const refused = `so it is refused and transaction ${ts} is aborted`;
  if (!read) return `A later transaction has read ${key} across ${ts}, ${refused}: ${AGAIN}.`;
  const found = read.found.get(keyOf(event));
  const answer = found ? `the version of ${found}` : "nothing";
  const wrong = `A write at ${ts} would make that answer wrong`;
  const above = `begin again above ${read.ts}`;
  return `Transaction ${read.ts} has read ${key} and found ${answer}. ${wrong}, ${refused}: ${above}.`;
}

// The read that keeps a write out: it is above, and found a version below or none.
function readAcross(moment, key, ts) {
  return moment.reads.find((it) => holds(it, key) && it.ts > ts && (it.found.get(key) ?? 0n) < ts);
}

function hasCommitted(_, event, ts) {
  const [number] = event.details;
  const wrote = number === "0" ? "it wrote nothing" : `what it wrote, ${counted(number, "key")}, stands from ${ts} on`;
  return `Transaction ${ts} is committed: ${wrote}, and what it read stays right for ever.`;
}

// ---- reads

function hasFound(moment, event, ts) {
  const key = event.words[1];
  if (event.command === "readat") return `${ts} is closed, so what ${key} is there will never change.`;
  const read = moment.reads.find((it) => it.ts === BigInt(ts) && it.key === keyOf(event));
  const found = read?.found.get(read.key);
  if (found === BigInt(ts)) return `Transaction ${ts} reads its own write.`;
  const promise = `So that this stays true, no write of ${key}`;
  if (!found) return `${key} has no version at or below ${ts}. ${promise} below ${ts} is let in any more.`;
  const between = `between ${found} and ${ts}`;
  return `The newest version of ${key} at or below ${ts} is of ${found}. ${promise} ${between} is let in any more.`;
}

function hasFoundRows(_, event, ts) {
  const rows = counted(event.details[0], "row");
  if (event.command === "scanat") return `${ts} is closed, so the span has ${rows} there for ever.`;
  return `The span has ${rows} at ${ts}. So that this stays true, no write that would change them is let in any more.`;
}

// ---- closing and collecting

function hasClosed(_, event, to) {
  const [at, aborted] = event.details;
  const promise = `nothing at or below ${at} will ever change`;
  const closed = `Closed is ${at}: ${promise}.`;
  if (aborted !== "0") return `${closed} What was undecided there, ${counted(aborted, "transaction")}, is aborted.`;
  if (BigInt(at) < BigInt(to)) return `${closed} Transaction ${BigInt(at) + 1n} is undecided, so it goes no further.`;
  if (BigInt(at) > BigInt(to)) return `Closed was ${at} already, and never falls: ${promise}.`;
  return `${closed} So feeds may tell it, and a snapshot there is right for ever.`;
}

function hasCollected(_, event, to) {
  const [horizon, dead] = event.details;
  const dropped = `what no other read can see, ${counted(dead, "version")}, is dropped`;
  const moved = `The horizon is ${horizon}: reads below it are refused, and ${dropped}.`;
  if (BigInt(horizon) >= BigInt(to)) return moved;
  return `${moved} It passes neither closed, nor a protection, nor what a live feed has still to tell.`;
}

// ---- feeds

function hasOpened(_, event) {
  const [number] = event.details;
  const above = `the versions above ${askedAt(event)}`;
  const first = event.command.startsWith("openinitial") ? `the rows at ${askedAt(event)} and then ${above}` : above;
  return `Feed ${number} tells session ${event.seat} ${first}, each once, as soon as they are closed.`;
}

function hasTold(moment, event, number) {
  const last = event.messages.at(-1);
  if (!last) return hasToldNothing(moment, event, number);
  if ("resolved" in last) return resolvedReason(moment.feeds.get(number), last);
  const rows = counted(event.messages.length, "row");
  return `Feed ${number} tells ${rows}, all of them closed. It says resolved once no closed row is left.`;
}

function hasToldNothing(moment, event, number) {
  if (event.words[1] === "0") return "A poll for no messages is told none.";
  const gap = moment.feeds.get(number)?.gap ?? null;
  if (gap !== null) return `No closed row is left, and resolved is due only where closed is ${gap} above the last one.`;
  return `Closed is ${moment.closed}, and nothing at or below it is left to tell. More is due once closed moves.`;
}

/** Why a feed said resolved, and what its consumer has then. What a feed tells is laid over the map of its cursor. */
export function resolvedReason(feed, { resolved }) {
  const why = `all at or below ${resolved} is closed and was told, so no row of it is still to come`;
  const isWhole = feed.initial || feed.cursor === 0n;
  const consumer = isWhole ? "Its consumer" : `A consumer that had the map of ${feed.cursor}`;
  const map = `the whole map of ${resolved} for ${spanOf(feed)}`;
  return `Feed ${feed.number} says resolved ${resolved}: ${why}. ${consumer} now has ${map}.`;
}

function hasCounted(_, event) {
  const [versions, undecided, feeds, closed, horizon] = event.details;
  const things = `${counted(versions, "version")}, ${counted(undecided, "undecided transaction")}`;
  return `There are ${things} and ${counted(feeds, "live feed")}; closed is ${closed}, and the horizon ${horizon}.`;
}
