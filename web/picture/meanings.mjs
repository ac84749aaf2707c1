// What each mark of the picture means, in a sentence or two. Keys and values are whole here: the picture cuts them.
import { spanOf, wordOf } from "./words.mjs";

const change = ({ key, value }) => `${wordOf(key)} is ${value === null ? "deleted" : wordOf(value)}`;

export function versionMeaning(moment, version) {
  const { ts, transaction } = version;
  if (transaction.standing === "undecided")
    return `${change(version)} from ${ts} on, once transaction ${ts} of session ${transaction.seat} commits. ` +
      "Until then reads that would see it are blocked.";
  const next = moment.successor(version);
  if (moment.isDead(version)) return deadMeaning(moment, version, next);
  const until = next ? `until ${next.ts}, where transaction ${next.ts} wrote it again`
    : "and no later version is committed so far";
  return `${change(version)} from ${ts} on, ${until}. ${promiseOf(moment.closed, ts, next)}`;
}

// What is closed stays, and a write may come in above closed alone.
function promiseOf(closed, ts, next) {
  if (ts > closed) return "It isn't closed yet, so a write may still come in above it.";
  if (next && next.ts <= closed) return "All of this is closed, so it will never change.";
  return `Up to closed, ${closed}, this will never change. Above closed a write may still come in.`;
}

function deadMeaning(moment, version, next) {
  const isReplaced = next && next.ts <= moment.horizon;
  const why = isReplaced ? `the version of ${next.ts} is read there in its place` : "a delete leaves nothing to see";
  const unseen = `no read at or above the horizon, ${moment.horizon}, sees it`;
  return `${change(version)} at ${version.ts}, but ${unseen}: ${why}.`;
}

export function readMeaning(read, key) {
  const [name, found] = [wordOf(key), read.found.get(key)];
  const answer = found ? `as it is from ${found} on` : "and found nothing";
  const writes = found ? `between ${found} and ${read.ts}` : `below ${read.ts}`;
  return `Transaction ${read.ts} has read ${name} ${answer}, so no write of ${name} ${writes} is let in any more.`;
}

export function scanMeaning(read) {
  return `Transaction ${read.ts} has scanned ${spanOf(read)}, and has seen which of them had no value. ` +
    `So none of those can get one below ${read.ts} any more.`;
}

export function transactionMeaning({ ts, seat, standing, ended }) {
  const name = `Transaction ${ts} of session ${seat}`;
  if (standing === "undecided") return `${name} is undecided. While it is, closed can't reach ${ts}.`;
  if (standing === "committed") return `${name} is committed: what it wrote stands from ${ts} on.`;
  if (ended.answer === "toolate") return `${name} was aborted, because its write of ${ended.words[1]} came too late.`;
  if (ended.answer === "closed") return `${name} was aborted by the hard closing to ${ended.words[0]}.`;
  return `${name} was aborted by its session: its writes are gone.`;
}

export function rowMeaning(feed, row) {
  const isSnapshot = feed.initial && row.ts === feed.cursor;
  const place = isSnapshot ? `in the map at its cursor, ${feed.cursor}` : `from ${row.ts} on, after that was closed`;
  return `Feed ${feed.number} has told that ${change(row)} ${place}. It tells this once.`;
}

export function cursorMeaning(feed) {
  const above = `the versions above its cursor, ${feed.cursor}`;
  const first = feed.initial ? `the rows at its cursor, ${feed.cursor}, and then the versions above it` : above;
  const gap = feed.gap === null ? "" : ` Its resolved timestamps lie at least ${feed.gap} apart.`;
  return `Feed ${feed.number} tells session ${feed.seat} ${first}, of ${spanOf(feed)}.${gap}`;
}

export function protectionMeaning({ number, ts }) {
  return `Protection ${number} stands at ${ts}. Until it is released the horizon can't pass it.`;
}

export function closedMeaning({ database }) {
  const { closed, oldest, oldest_seat: seat } = database;
  const promise = `Closed is ${closed}: nothing at or below it will ever change, so feeds may tell it.`;
  if (oldest === null) return promise;
  return `${promise} It can't reach ${oldest} while that transaction, of session ${seat}, is undecided.`;
}

export function horizonMeaning({ database }) {
  return `The horizon is ${database.horizon}: reads below it are refused, and what only they could see is dropped.`;
}
