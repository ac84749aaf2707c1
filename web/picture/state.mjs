// A database's state as text: a line of JSON for the database, and one for each undecided transaction, each protection
// and each live feed. ripsawbean_state writes it for a live database. stateText writes the same text of a transcript's
// moment. So the state can also be shown after an earlier event, or where only a transcript is at hand.

/** The lines of a state's text, as {database, transactions, protections, feeds}. Numbers are BigInts. */
export function stateOf(text) {
  const lines = text.split("\n").filter((it) => it !== "").map((it) => membersOf(JSON.parse(it)));
  const of = (kind) => lines.filter((it) => it.kind === kind);
  const [database] = of("database");
  return { database, transactions: of("transaction"), protections: of("protection"), feeds: of("feed") };
}

const WORDS = new Set(["kind", "holder"]);
const BYTES = new Set(["lo", "hi", "key"]);

function membersOf(line) {
  const valueOf = (name, value) => {
    if (typeof value !== "string" || WORDS.has(name)) return value;
    return BYTES.has(name) ? atob(value) : BigInt(value);
  };
  return Object.fromEntries(Object.entries(line).map(([name, value]) => [name, valueOf(name, value)]));
}

/** The state's text after an event of a transcript. */
export function stateText(moment) {
  const feeds = [...moment.feeds.values()].filter((it) => !it.cancelled).map((it) => feedLine(it, moment.closed));
  const protections = [...moment.protections.values()];
  const transactions = moment.undecided();
  const lines = [
    databaseLine(moment, transactions[0], protections, feeds),
    ...transactions.map((it) => ({
      kind: "transaction", timestamp: `${it.ts}`, seat: `${it.seat}`, keys: `${it.keys.size}`,
    })),
    ...protections.map((it) => ({ kind: "protection", number: it.number, timestamp: `${it.ts}` })),
    ...feeds,
  ];
  return lines.map((it) => `${JSON.stringify(it)}\n`).join("");
}

// Of several that hold the horizon at one timestamp the first is named: closed, then protections, then feeds.
function databaseLine(moment, oldest, protections, feeds) {
  const holders = [
    { at: moment.closed, holder: "closed", number: null },
    ...protections.map((it) => ({ at: it.ts, holder: "protection", number: it.number })),
    ...feeds.map((it) => ({ at: BigInt(it.floor), holder: "feed", number: it.number })),
  ];
  const first = holders.reduce((least, it) => (it.at < least.at ? it : least));
  const versions = [...moment.versions.values()].flat().filter((it) => !moment.isDead(it));
  return {
    kind: "database", closed: `${moment.closed}`, horizon: `${moment.horizon}`, limit: `${first.at}`,
    holder: first.holder, holder_number: first.number,
    oldest: digits(oldest?.ts), oldest_seat: digits(oldest?.seat), versions: `${versions.length}`,
  };
}

function feedLine(feed, closed) {
  const row = feed.told.findLast((it) => "ts" in it);
  const resolved = feed.told.findLast((it) => "resolved" in it);
  const told = toldThrough(feed, closed);
  const floor = told < feed.cursor ? feed.cursor : told;
  return {
    kind: "feed", number: feed.number, seat: `${feed.seat}`, initial: feed.initial, gap: digits(feed.gap),
    lo: base64(feed.lo), hi: base64(feed.hi), cursor: `${feed.cursor}`,
    updated: digits(row?.ts), key: row ? btoa(row.key) : null,
    resolved: digits(resolved?.resolved), complete: told < feed.cursor ? null : `${told}`, floor: `${floor}`,
    behind: `${closed > floor ? closed - floor : 0n}`, ...(feed.isUntold && { isUntold: true }),
  };
}

// All at or below it was told, by the last message. Below the cursor of an initial feed there is no such timestamp.
function toldThrough(feed, closed) {
  const last = feed.told.at(-1);
  if (last) return last.resolved ?? last.ts - 1n;
  if (feed.floor !== null) return feed.floor < closed ? feed.floor : closed;
  return feed.initial && feed.cursor > 0n ? feed.cursor - 1n : feed.cursor;
}

const digits = (number) => (number === null || number === undefined ? null : `${number}`);
const base64 = (bytes) => (bytes === "" ? null : btoa(bytes));
