// A state in words: what holds closed and the horizon, and how far each feed lags.
import { markup } from "./markup.mjs";
import { seatColour } from "./sheet.mjs";
import { counted, short, spanOf, wordOf } from "./words.mjs";

const LONGEST_KEY = 20; // letters

/** The state in sentences, and a line for each feed. */
export function panelOf(state) {
  const feeds = state.feeds.map((it) => feedOf(it, state.database));
  return markup`<ul class="words">${sentencesOf(state).map((it) => markup`<li>${it}</li>`)}</ul>
    ${feeds.length > 0 && markup`<ul class="feeds">${feeds}</ul>`}`;
}

function sentencesOf(state) {
  const { closed, horizon, versions } = state.database;
  const held = [
    counted(state.transactions.length, "undecided transaction"), counted(state.protections.length, "protection"),
  ].join(", ");
  return [
    markup`<em class="closed">Closed</em> is <b>${closed}</b>: nothing at or below it will ever change.
      ${whatHoldsClosed(state.database)}`,
    markup`<em class="horizon">The horizon</em> is <b>${horizon}</b>: nothing below it is read.
      ${whatHoldsHorizon(state.database)}`,
    markup`There ${Number(versions) === 1 ? "is" : "are"} ${counted(versions, "version")}, ${held} and
      ${counted(state.feeds.length, "live feed")}.`,
  ];
}

function whatHoldsClosed({ oldest, oldest_seat }) {
  if (oldest === null) return "No transaction is undecided, so a close can move it up.";
  return markup`It can't reach <b>${oldest}</b> while transaction ${oldest} of session ${oldest_seat} is undecided.`;
}

function whatHoldsHorizon({ horizon, limit, holder, holder_number }) {
  const by = holder === "closed" ? "closed" : `${holder} ${holder_number}`;
  if (limit === horizon) return `A collection would leave it there, since ${by} holds it.`;
  return markup`A collection could move it to <b>${limit}</b>, where ${by} holds it.`;
}

function feedOf(feed, database) {
  const span = spanOf({ lo: feed.lo ?? "", hi: feed.hi ?? "", isUntold: feed.isUntold });
  const isWhole = feed.complete !== null;
  const told = isWhole ? `has told all through ${feed.complete}` : `is still telling the map at ${feed.cursor}`;
  const lag = feed.behind === 0n ? "not behind closed" : `${feed.behind} behind closed`;
  const row = feed.updated !== null && markup` Its last row is ${cut(wordOf(feed.key))} of ${feed.updated}.`;
  const isHolder = database.holder === "feed" && database.holder_number === feed.number;
  const holding = isHolder && markup` <strong>It holds the horizon at ${feed.floor}.</strong>`;
  return markup`<li style="--seat: ${seatColour(feed.seat)}"><b>feed ${feed.number}</b> of session ${feed.seat},
    ${span}: it ${told}, and is ${lag}.${row}${holding}
    <span class="lag" aria-hidden="true"><i style="width: ${shareTold(feed, database.closed)}%"></i></span></li>`;
}

// A key that is cut is whole in its tooltip, and for whoever has it read aloud.
function cut(word) {
  if (word.length <= LONGEST_KEY) return word;
  return markup`<span role="img" title="${word}" aria-label="${word}">${short(word, LONGEST_KEY)}</span>`;
}

// How much of what is closed above the cursor was told, in percent.
function shareTold({ cursor, floor }, closed) {
  return closed <= cursor || floor >= closed ? 100 : Number(((floor - cursor) * 1000n) / (closed - cursor)) / 10;
}
