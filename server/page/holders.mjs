// Who holds what: what closed and the horizon wait for, in a sentence each, then all that hold them or would.
//
// First stands what holds closed or the horizon now, then what is late, then the lowest. A consumer and the feed that
// it follows are one. More than a few are folded, streams that nobody has named last.
import { markup } from "/picture/markup.mjs";
import { bytesOf, counted, short, spanOf } from "/picture/words.mjs";
import { keep } from "./keep.mjs";
import { ageText } from "./vitals.mjs";

const SHOWN = 5; // items that aren't folded
const UNFOLDED = 200; // items behind them, at most
const LATE = 5; // seconds from which on a transaction is late
const LONGEST = 18; // letters of a bound

export class Holders {
  #part;
  #folded = [];

  /** `part(name)` gives the page's elements. */
  constructor(part) {
    this.#part = part;
    part("holders-more").addEventListener("toggle", () => this.#drawFolded());
  }

  draw(holders) {
    const items = itemsOf(holders);
    this.#part("seats").textContent = `${holders.server.sessions} of 64 seats`;
    keep(this.#part("held"), sentencesOf(holders, items));
    keep(this.#part("holders"), items.slice(0, SHOWN).map(itemOf));
    this.#folded = items.slice(SHOWN);
    this.#drawFolded();
  }

  #drawFolded() {
    const [details, list] = [this.#part("holders-more"), this.#part("holders-folded")];
    details.hidden = this.#folded.length === 0;
    const summary = `${this.#folded.length} more: ${kindsOf(this.#folded)}`;
    if (!details.hidden) details.firstElementChild.textContent = summary;
    keep(list, details.open ? this.#folded.slice(0, UNFOLDED).map(itemOf) : []);
  }
}

// "2 transactions, 7 streams"
function kindsOf(items) {
  const counts = new Map();
  for (const { kind } of items) counts.set(kind, (counts.get(kind) ?? 0) + 1);
  return [...counts].map(([kind, count]) => counted(count, kind)).join(", ");
}

function itemsOf({ server, transaction, protection, feed, consumer }) {
  const followed = new Map(feed.map((it) => [it.number, it]));
  const items = [
    ...transaction.map((it) => transactionItem(it, server)),
    ...consumer.filter((it) => it.stored !== null).map((it) => consumerItem(it, followed.get(it.feed))),
    ...feed.filter((it) => it.consumer === null).map(feedItem),
    ...protection.filter((it) => it.consumer === null).map(protectionItem),
  ];
  const isNamed = ({ numbers }) => numbers?.[server.holder] === server.holder_number;
  const isLimit = (it) => it.isHeld && it.at === server.limit && it.at !== server.closed;
  for (const it of items)
    if (isLimit(it) || (server.holder !== "closed" && isNamed(it)))
      Object.assign(it, { holds: "holds the horizon", rank: HOLDS_HORIZON });
  return items.sort((a, b) => a.rank - b.rank || (BigInt(a.at) < BigInt(b.at) ? -1 : 1));
}

// The order of items: a number for what each is.
const [HOLDS_CLOSED, HOLDS_HORIZON, IS_LATE, OTHER, STREAM] = [0, 1, 2, 3, 4];

function transactionItem({ timestamp, seat, age }, { oldest }) {
  const isLate = age > LATE;
  const holds = timestamp === oldest && "holds closed";
  const rank = holds ? HOLDS_CLOSED : isLate ? IS_LATE : OTHER;
  const lag = `undecided for ${ageText(age).join(" ")}`;
  const name = `transaction ${timestamp}`;
  return { kind: "transaction", name, says: `session ${seat}`, at: timestamp, lag, isLate, holds, rank };
}

function consumerItem({ name, stored, held, generation, feed, protection, lag }, follows) {
  const away = held ? "not connected" : "let go: it has to begin anew";
  const says = follows ? `consumer, by feed ${feed}${spanAndRoom(follows)}` : `consumer, ${away}`;
  const isLate = !held || follows?.waits;
  return {
    kind: "consumer", name, says, at: stored, lag: behind(lag), isLate, isHeld: held, rank: isLate ? IS_LATE : OTHER,
    whole: [`generation ${generation}`, follows && wholeSpan(follows)].filter(Boolean).join(", "),
    numbers: { feed, protection },
  };
}

function feedItem({ number, opened, streamed, seat, floor, lag, told, waits }) {
  const says = `${streamed ? "a stream" : `session ${seat}`}${spanAndRoom({ opened, waits })}`;
  const [kind, rank] = streamed ? ["stream", STREAM] : ["feed", OTHER];
  return {
    kind, name: `feed ${number}`, says, at: floor, lag: behind(lag), isLate: waits, isHeld: true, rank,
    whole: `${wholeSpan({ opened })}, ${told.toLocaleString("en")} told`, numbers: { feed: number },
  };
}

function protectionItem({ number, timestamp, seat, lag }) {
  return {
    kind: "protection", name: `protection ${number}`, at: timestamp, lag: behind(lag), isHeld: true, rank: OTHER,
    says: seat === null ? "a request holds its snapshot for a while" : `session ${seat}`,
    numbers: { protection: number },
  };
}

const OTHERS = "keys that your token isn't for"; // the server leaves their bounds out

const behind = (lag) => (lag === 0 ? "up to date" : `${lag.toLocaleString("en")} ${lag === 1 ? "row" : "rows"} behind`);

function wholeSpan({ opened }) {
  if (opened === null) return OTHERS;
  const [, lo, hi] = opened.split(" ");
  return spanOf({ lo: bytesOf(lo), hi: bytesOf(hi) });
}

function spanAndRoom({ opened, waits }) {
  return `, ${shortSpan(opened)}${waits ? ", its reader has no room" : ""}`;
}

function shortSpan(opened) {
  if (opened === null) return OTHERS;
  const [, lo, hi] = opened.split(" ").map((it) => (it === "-" ? "" : short(it, LONGEST)));
  return lo || hi ? `${lo} … ${hi}`.trim() : "every key";
}

// ---- what is drawn

// The two that matter most. What isn't held back is said, too.
function sentencesOf({ server, transaction }, items) {
  const { closed, horizon, limit, oldest } = server;
  const first = transaction.find((it) => it.timestamp === oldest);
  const waits = first ? markup`, below transaction <b>${oldest}</b> of session ${first.seat}.`
    : ". Nothing keeps it back.";
  const holder = items.find((it) => it.rank === HOLDS_HORIZON);
  const keeps = holder && markup`<b>${holder.name}</b> keeps all from ${limit} on.`;
  return [
    { key: "closed", html: markup`<li><em class="closed">Closed</em> is ${closed}${waits}</li>` },
    { key: "horizon", html: markup`<li><em class="horizon">The horizon</em> is ${horizon}.
      ${keeps ?? "No reader keeps it below closed: only --history does."}</li>` },
  ];
}

function itemOf({ kind, name, says, at, lag, isLate, holds, whole }) {
  const state = [holds && "holds", isLate && "late"].filter(Boolean).join(" ");
  const held = holds && markup` <strong>${holds}</strong>`;
  const stands = kind !== "transaction" && markup`<span class="at">${at}</span>`;
  const html = markup`<li class="${state}" title="${whole}"><span class="who"><b>${name}</b>${held}</span>${stands}
    <span class="says">${says}</span><span class="lag">${lag}</span></li>`;
  return { key: `${kind} ${name}`, html };
}
