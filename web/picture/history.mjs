// A transcript, and what its answers tell of the database after each of its events.
//
// Nothing here looks into a database. A moment is made of the answers alone, so it can be made for each event of a
// transcript that somebody kept. A transcript may begin in the middle: what it never names isn't there, unless `know`
// is told of it. A place counts the events of a story from 0 on, and stays an event's own where earlier ones are left
// out.
//
//     const history = historyOf("7 1 poll 3 9 => messages 0\n");      feed 3 is there, and its span isn't told
//     history.know({ feeds: [{ number: "3", seat: 1, opened: "open k q 10", floor: "12" }] });      k to below q
//     const later = history.since(1);                                  no event; feed 3 has the span k to below q
import { ascending, bytesOf, holds, wordOf } from "./words.mjs";

const EVENT = /^(\d+) (\d+) ([a-z]+)((?: \S+)*) => (\S+)((?: \S+)*)$/;

/** The answers that refuse a command. */
export const REFUSALS = new Set(
  ("tsrange belowclosed tsused ended notxn notowner blocked toolate notclosed belowhorizon gaprange nofeed " +
    "feedcancelled noprotection nomemory").split(" "),
);

/** The events of a transcript. More may be added as they come. */
export class History {
  events = [];
  /** The place of the first event: how many were left out before it. */
  first = 0;
  /** The same for all that goes on from one history. */
  story = Symbol("story");
  /** The last line of a run that ended at a faulty line, or null. */
  fault = null;
  #base = new Moment(); // what stood before the first event
  #reached = [{ moment: new Moment(), taken: 0 }]; // the last two moments that were asked for, the later ask first

  constructor(text = "") {
    this.add(text);
  }

  /** The place of the last event. */
  get last() {
    return this.first + this.events.length - 1;
  }

  at(place) {
    return this.events[place - this.first];
  }

  /** Adds the lines of whole events. A line that belongs to no transcript is an Error, and then nothing is added. */
  add(text) {
    const events = [];
    let fault = this.fault;
    for (const line of text.split("\n")) {
      const event = EVENT.exec(line);
      if (event) events.push(eventOf(event, this.last + 1 + events.length));
      else if (/^(fault|spent) /.test(line)) fault = line;
      else if (line !== "" && line !== "mvfeed 2") follow(events.at(-1), line);
    }
    this.events.push(...events);
    this.fault = fault;
  }

  /** The database after the event at this place, and before all with -1. It is good until the next two asks. */
  after(place) {
    const wanted = place - this.first + 1;
    const fitting = this.#reached.filter((it) => it.taken <= wanted).sort((a, b) => b.taken - a.taken);
    const reached = fitting[0] ?? { moment: this.#base.rest(), taken: 0 };
    this.#reached = [reached, ...this.#reached.filter((it) => it !== reached)].slice(0, 2);
    while (reached.taken < wanted) reached.moment.take(this.events[reached.taken++]);
    return reached.moment;
  }

  /** The same story without the events before a place, which leave what stood then. This history stays as it is. */
  since(place) {
    const later = new History();
    Object.assign(later, { story: this.story, first: place, events: this.events.slice(place - this.first) });
    later.#base = this.after(place - 1).rest();
    later.#reached = [];
    return later;
  }

  /**
   * Tells of what stands after the last event and began before the first one, as a report lists it: feeds {number,
   * seat, opened, floor}, where `opened` is the command, protections {number, timestamp}, transactions {timestamp,
   * seat}. What events have named stays as they say.
   */
  know({ feeds = [], protections = [], transactions = [] }) {
    const now = this.after(this.last);
    const news = {
      feeds: feeds.filter((it) => now.feeds.get(it.number)?.isUntold ?? true).map((it) => feedKnown(it, now)),
      protections: protections.filter((it) => !now.protections.has(it.number) && !now.released.has(it.number)),
      transactions: transactions.filter((it) => !now.transactions.has(BigInt(it.timestamp))),
    };
    for (const it of [this.#base, ...this.#reached.map((it) => it.moment)]) it.know(news);
  }
}

// All of a feed's rows below the first message that is heard of were told before.
function feedKnown({ number, seat, opened, floor }, now) {
  const [command, ...words] = opened.split(" ");
  const heard = now.feeds.get(number)?.told[0];
  const told = heard ? heard.resolved ?? heard.ts - 1n : BigInt(floor);
  return { number, seat, ...openedAs(command, words), floor: told, isUntold: false };
}

// What a feed's opening command says of it.
function openedAs(command, [lo, hi, cursor, gap]) {
  return {
    initial: command.startsWith("openinitial"), gap: gap === undefined ? null : BigInt(gap),
    lo: bytesOf(lo), hi: bytesOf(hi), cursor: BigInt(cursor),
  };
}

function eventOf([, position, seat, command, words, answer, details], place) {
  const listed = (text) => text.split(" ").slice(1);
  return {
    place, position, seat: Number(seat), command, words: listed(words),
    answer, details: listed(details), rows: [], messages: [],
  };
}

// A line behind an event's first one: a row of a scan, or a message of a poll.
function follow(event, line) {
  const [word, key, value] = line.split(" ");
  if (event && word === "row") event.rows.push({ key: bytesOf(key), value: bytesOf(value) });
  else if (event && line.startsWith("{")) event.messages.push(messageOf(JSON.parse(line), event));
  else throw new Error(`no line of a transcript: ${line.slice(0, 60)}`);
}

function messageOf(told, event) {
  if ("resolved" in told) return { resolved: BigInt(told.resolved), event };
  return { key: atob(told.key), value: told.after === null ? null : atob(told.after), ts: BigInt(told.updated), event };
}

/** What the answers up to one event tell. Timestamps are BigInts. Versions of undecided transactions are among them. */
class Moment {
  event = null;
  closed = 0n;
  horizon = 0n;
  transactions = new Map(); // timestamp: {ts, seat, standing, keys, began, ended}
  versions = new Map(); // key: [{key, ts, value, transaction, event}], timestamps rising; null is the value of a delete
  reads = []; // {ts, seat, lo, hi, key, found, event}; found has the timestamp that was read of each key that had one
  refusals = []; // the events that were refused
  // number: {number, seat, initial, gap, lo, hi, cursor, told, cancelled, floor, isUntold}. `told` has the messages,
  // and `floor` through where it had told before them, or null. How a feed that isUntold was opened isn't known.
  feeds = new Map();
  protections = new Map(); // number: {number, ts, event}
  released = new Set(); // numbers of protections
  #readBefore = new Set();

  take(event) {
    this.event = event;
    if (REFUSALS.has(event.answer)) this.refusals.push(event);
    CHANGES[event.answer]?.(this, event);
  }

  /** The transaction of a timestamp. One that began before the transcript did is made when it is first named. */
  transaction(ts, event) {
    const begun = { ts, seat: event.seat, standing: "undecided", keys: new Set(), began: event, ended: null };
    if (!this.transactions.has(ts)) this.transactions.set(ts, begun);
    return this.transactions.get(ts);
  }

  end(ts, standing, event) {
    const transaction = this.transaction(ts, event);
    Object.assign(transaction, { standing, ended: event });
    if (standing === "aborted") for (const key of transaction.keys) this.#without(key, ts);
  }

  write(key, ts, value, event) {
    const transaction = this.transaction(ts, event);
    if (transaction.keys.has(key)) this.#without(key, ts);
    transaction.keys.add(key);
    const versions = this.versions.get(key) ?? [];
    const below = versions.findLastIndex((it) => it.ts < ts);
    versions.splice(below + 1, 0, { key, ts, value, transaction, event });
    this.versions.set(key, versions);
  }

  /** A read keeps each write out that would come between the version that it found and itself. The first one counts. */
  read(ts, lo, hi, key, event) {
    const name = `${ts} ${wordOf(lo)} ${wordOf(hi)}`;
    if (this.#readBefore.has(name)) return;
    this.#readBefore.add(name);
    const read = { ts, seat: event.seat, lo, hi, key, found: new Map(), event };
    for (const each of key === null ? this.versions.keys() : [key]) {
      const seen = holds(read, each) && this.versions.get(each)?.findLast((it) => it.ts <= ts);
      if (seen) read.found.set(each, seen.ts);
    }
    this.reads.push(read);
  }

  feed(number, { seat }) {
    const isNew = !this.feeds.has(number);
    if (isNew) this.feeds.set(number, { number, seat, ...openedAs("open", ["-", "-", "0"]), ...unheard() });
    return this.feeds.get(number);
  }

  know({ feeds, protections, transactions }) {
    for (const it of feeds) this.feeds.set(it.number, { ...unheard(), ...this.feeds.get(it.number), ...it });
    for (const { number, timestamp } of protections)
      this.protections.set(number, { number, ts: BigInt(timestamp), event: null });
    for (const { timestamp, seat } of transactions) this.transaction(BigInt(timestamp), { seat });
  }

  /** What stands of it, for what comes next. What has ended is left out, and of messages the last ones stay. */
  rest() {
    const rest = new Moment();
    [rest.closed, rest.horizon, rest.protections] = [this.closed, this.horizon, new Map(this.protections)];
    for (const it of this.undecided()) rest.transactions.set(it.ts, { ...it, keys: new Set(it.keys) });
    for (const it of this.feeds.values())
      if (!it.cancelled) rest.feeds.set(it.number, { ...it, told: lastOf(it.told) });
    for (const [key, versions] of this.versions) {
      const open = versions.filter((it) => rest.transactions.has(it.ts));
      const moved = open.map((it) => ({ ...it, transaction: rest.transactions.get(it.ts) }));
      if (moved.length > 0) rest.versions.set(key, moved);
    }
    return rest;
  }

  undecided() {
    const undecided = [...this.transactions.values()].filter((it) => it.standing === "undecided");
    return undecided.sort((a, b) => ascending(a.ts, b.ts));
  }

  /** The version that is read in place of this one from some timestamp on, if there is one. */
  successor(version) {
    return this.versions.get(version.key).find((it) => it.ts > version.ts && it.transaction.standing === "committed");
  }

  /** Whether no read at or above the horizon can see a version. */
  isDead(version) {
    if (version.transaction.standing !== "committed" || version.ts > this.horizon) return false;
    const next = this.successor(version);
    return version.value === null || (next !== undefined && next.ts <= this.horizon);
  }

  #without(key, ts) {
    const versions = this.versions.get(key) ?? [];
    this.versions.set(key, versions.filter((it) => it.ts !== ts));
  }
}

const unheard = () => ({ told: [], cancelled: null, floor: null, isUntold: true });

// The last row and the last resolved message.
function lastOf(told) {
  const [row, resolved] = [told.findLast((it) => "ts" in it), told.findLast((it) => "resolved" in it)];
  return told.filter((it) => it === row || it === resolved);
}

// What each answer changes. The others change nothing.
const CHANGES = {
  started: (moment, event) => moment.transaction(BigInt(event.words[0]), event),
  written: (moment, event) => {
    const [ts, key, value] = event.words;
    moment.write(bytesOf(key), BigInt(ts), event.command === "del" ? null : bytesOf(value), event);
  },
  toolate: (moment, event) => moment.end(BigInt(event.words[0]), "aborted", event),
  committed: (moment, event) => moment.end(BigInt(event.words[0]), "committed", event),
  aborted: (moment, event) => moment.end(BigInt(event.words[0]), "aborted", event),
  value: readOne,
  none: readOne,
  rows: (moment, event) => {
    const [ts, lo, hi] = event.words;
    if (event.command === "scan") moment.read(BigInt(ts), bytesOf(lo), bytesOf(hi), null, event);
  },
  closed: (moment, event) => {
    moment.closed = BigInt(event.details[0]);
    if (event.command !== "closehard") return;
    for (const it of moment.undecided()) if (it.ts <= moment.closed) moment.end(it.ts, "aborted", event);
  },
  collected: (moment, event) => {
    moment.horizon = BigInt(event.details[0]);
  },
  protected: (moment, event) => {
    moment.protections.set(event.details[0], { number: event.details[0], ts: BigInt(event.words[0]), event });
  },
  released: (moment, event) => {
    moment.protections.delete(event.words[0]);
    moment.released.add(event.words[0]);
  },
  opened: (moment, event) => {
    const opened = { ...openedAs(event.command, event.words), isUntold: false };
    Object.assign(moment.feed(event.details[0], event), opened);
  },
  cancelled: (moment, event) => {
    moment.feed(event.words[0], event).cancelled = event;
  },
  messages: (moment, event) => {
    moment.feed(event.words[0], event).told.push(...event.messages);
  },
};

function readOne(moment, event) {
  const [ts, word] = event.words;
  const key = bytesOf(word);
  if (event.command === "get") moment.read(BigInt(ts), key, `${key}\0`, key, event);
}
