// What the server tells of its database: its last events, its state, who holds what, and numbers. Asking makes no call.
import { historyOf } from "/picture/picture.mjs";
import { Metrics } from "./metrics.mjs";

const MOST = 2000; // events that are asked for at most; as many more are kept until the first ones are left out

export class Live {
  history = historyOf();
  /** The text of the state, or undefined where the library has no such report. */
  state;
  /** What the server knows: {server, session, transaction, protection, feed, consumer}, each but the first a list. */
  holders;
  metrics = new Metrics("");
  /** How many events have come, and how many of them were commits. */
  seen = { events: 0, commits: 0 };
  #next = 0;
  #hasState = true;
  #asking = Promise.resolve();

  /** Asks for what is new. One asks after the other. */
  refresh() {
    this.#asking = this.#asking.catch(() => {}).then(() => this.#ask());
    return this.#asking;
  }

  async #ask() {
    const [holders, metrics] = await Promise.all([textOf("/holders"), textOf("/metrics")]);
    this.metrics = new Metrics(metrics);
    this.#take(holdersOf(holders));
    await this.#takeEvents();
    this.history.know(standing(this.holders));
    if (this.#hasState) this.state = await this.#askState();
  }

  #take(holders) {
    const { identity, first, next } = holders.server;
    const isOther = this.holders?.server.identity !== identity;
    const isFar = Number(first) > this.#next || Number(next) - this.#next > MOST;
    if (isOther || isFar) this.#begin(identity, Math.max(Number(first), Number(next) - MOST));
    else if (this.history.events.length > 2 * MOST) this.history = this.history.since(this.history.last + 1 - MOST);
    this.holders = holders;
  }

  // What is of one database goes on as one story. A place is left out for what wasn't seen of it.
  #begin(identity, position) {
    this.history = Object.assign(historyOf(), { story: identity, first: this.history.last + 2 });
    this.#next = position;
  }

  async #takeEvents() {
    const reply = await ask(`/transcript?since=${this.#next}`);
    if (!reply.ok) return; // dropped meanwhile: the next ask begins anew
    const taken = this.history.events.length;
    this.history.add(await reply.text());
    this.#next = Number(reply.headers.get("Ripsawbean-Next"));
    const came = this.history.events.slice(taken);
    this.seen.events += came.length;
    this.seen.commits += came.filter((it) => it.answer === "committed").length;
  }

  async #askState() {
    const reply = await ask("/state");
    this.#hasState = reply.status !== 501;
    return reply.ok ? reply.text() : undefined;
  }
}

// An address that has a token in it can't be asked from, so paths are of the bare origin.
const ask = (path) => fetch(location.origin + path);

/** The text of a path of the server. */
export async function textOf(path) {
  const reply = await ask(path);
  if (!reply.ok) throw new Error(`${path} is answered ${reply.status}`);
  return reply.text();
}

function holdersOf(text) {
  const found = { session: [], transaction: [], protection: [], feed: [], consumer: [] };
  for (const line of text.split("\n").filter((it) => it !== "").map((it) => JSON.parse(it))) {
    if (line.kind === "server") found.server = line;
    else found[line.kind]?.push(line);
  }
  return found;
}

/** The seat under which the server makes its own calls. A client may have it too. */
export const OWN = 63;
const OWN_CALLS = /^(close|collect|poll|protect|release|open\w*|cancel)$/;

/** Whether an event is of a call that the server makes by itself. */
export const isOwn = ({ seat, command }) => seat === OWN && OWN_CALLS.test(command);

// What stands, though its events may be kept no longer. A feed of keys that the token isn't for has no place in a picture.
function standing({ transaction, protection, feed }) {
  const seen = feed.filter(({ opened }) => opened !== null);
  return {
    transactions: transaction, protections: protection,
    feeds: seen.map(({ number, seat, opened, floor }) => ({ number, seat: seat ?? OWN, opened, floor })),
  };
}
