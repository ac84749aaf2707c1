/**
 * Feeds over any number of streams, and consumers over them.
 *
 * A stream may be cut anywhere, and the next one goes on from a place at which all was told. The place moves at a resolved
 * message, and also where the first row of a later timestamp U shows that all up to U - 1 was told: else whoever is far
 * behind, and cut often, would begin at the same place for ever. Rows that come again behind a cut are passed over.
 *
 * Where the cut falls among the rows of the first snapshot, the others are read by pages, as of the same timestamp.
 */

import { AGAIN, numberIn, PAGE, Pauses, sleep } from "./answers.js";
import { Gone, Lost, OtherDatabase, Outrun, refused } from "./errors.js";
import { behind, fromBase64, known, pathOf, percent, textOf } from "./values.js";

const HOLD = 30; // seconds for which a snapshot that was cut is held from page to page
const ENOUGH = 1000; // rows that a consumer stores at once, where more are waiting
const IDLE = 1000; // milliseconds after which it stores a place although no row came, where messages go on coming

/** Timestamps are compared as BigInts, since JavaScript's numbers can't hold all. */
const isAbove = (one, other) => BigInt(one) > BigInt(other);

export class Feed {
  constructor(client, lo, hi, options, name) {
    const { place = null, before = false, anew = false, signal } = known(options, "place", "before", "anew", "signal");
    Object.assign(this, { client, lo, hi, before, anew, signal, name, generation: "0" });
    this.begin(place);
  }

  begin(place) {
    this.place = place && { identity: place.identity, timestamp: place.timestamp }; // all up to here was told
    this.snapshot = null; // of these rows some were told, and not all
    this.last = null; // the row that was told last
    this.resolved = place ? place.timestamp : "-1";
  }

  async *messages() {
    let pauses = new Pauses();
    while (!this.signal?.aborted) {
      const { last, resolved } = this;
      try {
        if (this.snapshot) yield* this.restOfSnapshot();
        yield* this.stream();
      } catch (why) {
        if (!(why instanceof Lost)) throw why;
      }
      this.client._addresses.leave(this.address);
      this.limit = Math.max(1, this.limit >> 1);
      if (last !== this.last || resolved !== this.resolved) pauses = new Pauses();
      await sleep(pauses.next(), this.signal);
    }
  }

  /** One stream, to its end. */
  async *stream() {
    const control = new AbortController();
    const stop = () => control.abort();
    this.signal?.addEventListener("abort", stop);
    if (this.signal?.aborted) stop();
    try {
      const response = await this.open(control);
      const identity = response.headers.get("Ripsawbean-Identity"), cursor = numberIn(response, "Ripsawbean-From");
      this.generation = response.headers.get("Ripsawbean-Generation") ?? "0";
      if (!this.anew) this.client._pin(response);
      if (!this.place) {
        this.begin(null);
        [this.snapshot, this.limit] = [{ identity, timestamp: cursor }, PAGE];
        yield { type: "reset", ...this.snapshot };
      }
      for await (const line of linesOf(response.body, stop, this.client._addresses.silence())) {
        yield* line ? this.take(identity, cursor, JSON.parse(line)) : this.idle();
      }
    } finally {
      this.signal?.removeEventListener("abort", stop);
      stop();
    }
  }

  /** A stream from the place, or from nothing where there is none. */
  async open(control) {
    const place = { from: this.place?.timestamp, identity: this.place?.identity };
    const path = pathOf("/feed", this.lo, this.hi, { before: this.before ? 1 : undefined, consumer: this.name, ...place });
    const headers = this.client._headers(this.anew ? null : this.client.identity);
    this.address = this.client._addresses.now; // where this stream is asked for
    const response = await this.client._open(this.address, path, control, this.client._addresses.silence(), { headers });
    if (response.status === 200) return response;
    const error = refused(response.status, await response.text().catch(() => ""));
    if (AGAIN.includes(response.status)) throw new Lost(error);
    if (this.place && this.mayBeAnew(error)) {
      this.begin(null);
      throw new Lost(error);
    }
    throw error;
  }

  /** All was told, and nothing new comes now. */
  *idle() {}

  /** Whether the feed may begin anew where its place leads nowhere. */
  mayBeAnew(why) {
    return this.anew && (why instanceof OtherDatabase || why instanceof Gone);
  }

  /** A message of a stream that began at the cursor. */
  *take(identity, cursor, told) {
    if (told.resolved !== undefined) yield* this.reach({ identity, timestamp: told.resolved });
    if (told.end === "fenced" || told.end === "deleted") {
      throw new Outrun(409, { error: told.end, why: "a later consumer has the name, or it was deleted" });
    }
    if (told.end !== undefined) throw new Lost(told.end);
    if (told.key === undefined) return;
    const bytes = (text) => (typeof text === "string" ? textOf(fromBase64(text)) : null);
    const change = { type: "change", key: bytes(told.key), value: bytes(told.after), timestamp: told.updated };
    if (this.before) change.before = bytes(told.before);
    const below = String(BigInt(change.timestamp) - 1n);
    if (!isAbove(cursor, below) && (!this.place || isAbove(below, this.place.timestamp))) {
      [this.place, this.snapshot] = [{ identity, timestamp: below }, null];
    }
    const id = percent(change.key);
    if (this.last && (this.last.timestamp === change.timestamp ? id <= this.last.id : isAbove(this.last.timestamp, change.timestamp))) return;
    this.last = { timestamp: change.timestamp, id, key: change.key };
    yield change;
  }

  *reach(place) {
    [this.place, this.snapshot] = [place, null];
    if (!isAbove(place.timestamp, this.resolved)) return;
    this.resolved = place.timestamp;
    yield { type: "resolved", ...place };
  }

  /** The rows that a cut has left out, by pages of the same snapshot: half as long after a cut, else twice as long. */
  async *restOfSnapshot() {
    const { snapshot } = this;
    for (let lo = this.last ? behind(this.last.key) : this.lo; lo !== null; ) {
      if (this.signal?.aborted) throw new Lost("it is ended");
      const page = await this.client._pageOnce(lo, this.hi, snapshot, this.limit, HOLD).catch((why) => {
        if (!(why instanceof Gone || (why instanceof OtherDatabase && this.anew))) throw why;
        this.begin(null);
        throw new Lost(why);
      });
      for (const { key, value } of page.rows) {
        this.last = { timestamp: snapshot.timestamp, id: percent(key), key };
        yield { type: "change", key, value, timestamp: snapshot.timestamp, ...(this.before && { before: null }) };
      }
      [lo, this.limit] = [page.next, Math.min(PAGE, 2 * this.limit)];
    }
    yield* this.reach(snapshot);
  }
}

/** The lines of a body. What stands behind the last newline is half a line. */
async function* linesOf(body, stop, silence) {
  const reader = body.getReader(), decoder = new TextDecoder();
  let rest = "", timer;
  try {
    for (;;) {
      timer = setTimeout(stop, silence);
      const { done, value } = await reader.read().catch((why) => {
        throw new Lost(why);
      });
      clearTimeout(timer);
      if (done) return;
      const lines = (rest + decoder.decode(value, { stream: true })).split("\n");
      rest = lines.pop();
      yield* lines;
    }
  } finally {
    clearTimeout(timer);
    reader.cancel().catch(() => {});
  }
}

/** A consumer has to begin again at what is stored. */
class Again extends Error {}

export async function consume(client, name, { load, store, lo, hi, ...options }) {
  while (!options.signal?.aborted) {
    try {
      const stored = (await load()) ?? null;
      const consumer = new Consumer(client, name, lo, hi, { ...options, place: stored }, store);
      await consumer.run(stored, load);
    } catch (why) {
      if (!(why instanceof Again)) throw why;
      await sleep(Math.random() * 100, options.signal);
    }
  }
}

/** A feed with a name, whose rows and place are stored together. The server holds for it what follows its place. */
class Consumer extends Feed {
  constructor(client, name, lo, hi, options, store) {
    super(client, lo, hi, options, name);
    this.store = store;
  }

  mayBeAnew(why) {
    return why.error === "belowhorizon" || super.mayBeAnew(why); // the rows of the same database can always be told again
  }

  *idle() {
    yield { type: "idle" };
  }

  async run(stored, load) {
    let told = []; // rows of a timestamp that isn't known to be complete
    let whole = [], reached = this.place; // rows below, and their place
    let reset = false, storedAt = 0;
    const keep = async () => {
      const place = { ...reached, generation: this.generation };
      await this.keep({ changes: whole, place, was: stored, reset }, load);
      [stored, whole, reset, storedAt] = [place, [], false, Date.now()];
    };
    // Rows are stored at once, and a place without rows after a while, or once nothing new comes.
    const isNew = () => !stored || isAbove(reached.timestamp, stored.timestamp);
    const isDue = (type) => reached && (whole.length || reset || (isNew() && (type === "idle" || Date.now() - storedAt > IDLE)));
    for await (const message of this.messages()) {
      if (message.type === "reset") [told, whole, reached, reset] = [[], [], null, true];
      else {
        if (this.place && this.place !== reached) [whole, told, reached] = [whole.concat(told), [], this.place];
        const { type, ...change } = message;
        if (type === "change") {
          if (whole.length >= ENOUGH) await keep();
          told.push(change);
        } else if (isDue(type)) await keep();
      }
    }
  }

  async keep(batch, load) {
    try {
      await this.store(batch);
    } catch (why) {
      if (!(why instanceof Outrun)) throw why;
      const [stored, { place, was }] = [await load(), batch];
      const isLater = stored?.identity === place.identity && isAbove(stored.generation, place.generation);
      const isTheSame = ["identity", "generation", "timestamp"].every((name) => stored?.[name] === was?.[name]);
      if (isLater || isTheSame) throw why;
      // As an older consumer stores just before its end, or as the target was emptied or put back.
      throw new Again("the stored place isn't the last one, so the consumer begins again from it");
    }
    await this.acknowledge(batch.place);
  }

  /** From now on the server keeps what follows the place. Where this is lost, the next one says more. */
  async acknowledge({ identity, generation, timestamp }) {
    const path = pathOf(`/consumer/${this.name}`, null, null, { identity, generation, stored: timestamp });
    try {
      await this.client._once("POST", path, undefined, { "Ripsawbean-Identity": identity });
    } catch (why) {
      if (why instanceof Gone || why instanceof OtherDatabase) throw new Again(why.message);
      if (!(why instanceof Lost)) throw why;
    }
  }
}
