/**
 * A client of a Ripsawbean server, for Node 18 and later, and browsers, by `fetch` alone.
 *
 *     import { connect } from "ripsawbean-client";
 *     const db = connect("http://127.0.0.1:7077");
 *     await db.put("apple", "3");
 *     await db.get("apple");                                   // "3", or null where it is absent
 *     await db.transact(async (tx) => {                        // runs anew where another transaction was faster
 *       tx.put("apple", String(Number((await tx.get("apple")) ?? 0) - 1));
 *     });
 *     for await (const { key, value } of db.scan("price/", "price0")) console.log(key, value);
 *     for await (const message of db.feed("price/", "price0")) console.log(message);
 *
 * Keys and values are strings, or Uint8Arrays for any bytes. A string is given back where the bytes are UTF-8, else a
 * Uint8Array. Timestamps and versions are strings of digits. Whatever is refused is thrown as a RipsawbeanError, so null
 * means absent and nothing else.
 *
 * 1. A request is for one database: the first answer pins the identity, which every later request names.
 * 2. A write has a key, so the server makes it once however often it is sent.
 * 3. Where there are several addresses no write is sent before the identity is known: so no other database takes it.
 */

import { Addresses, ELSEWHERE } from "./addresses.js";
import { AGAIN, Answer, nonsense, PAGE, Pauses, sleep } from "./answers.js";
import { ConditionFailed, Gone, Lost, OtherDatabase, OutcomeUnknown, refused, Unreachable } from "./errors.js";
import { consume, Feed } from "./feeds.js";
import { argumentIn, behind, bytesOf, del, get, known, pathOf, percent, put, resultOf, rowOf, textOf, unchanged, versionIs } from "./values.js";

export * from "./errors.js";
export { del, exists, get, put, scan, unchanged, valueIs, versionIs } from "./values.js";

/** A write was sent to a server that has another database now. */
const LEFT_BEHIND = "another database answers now, and the write may have committed in the one before";
/**
 * Milliseconds for the first answer's head. Node 20 overlooks that a process's first connection has ended while it
 * compiles its parser, and would wait for ever.
 */
const FIRST = 2000;
const LONGEST_TIMER = 2 ** 31 - 1;
const NOT_SENT = ["ECONNREFUSED", "ENOTFOUND", "EAI_AGAIN", "UND_ERR_CONNECT_TIMEOUT"];

/**
 * What draws random bytes. Node 18 has it in a module alone, whose name is no literal, so that a bundler for browsers
 * doesn't look for it.
 */
const NODES = "node:crypto";
const crypto = globalThis.crypto ?? (await import(NODES)).webcrypto;

export class Client {
  constructor(url, options) {
    const { token, timeout = 20_000, identity = null, fetch = globalThis.fetch } = known(options, "token", "timeout", "identity", "fetch");
    Object.assign(this, { timeout, identity, _addresses: new Addresses(url), _fetch: fetch, _longest: FIRST });
    this._token = token ? { Authorization: `Bearer ${token}` } : {};
  }

  async get(key, options) {
    return (await this.row(key, options)).value;
  }

  async row(key, options) {
    return (await this._read(key, known(options, "at").at)).row;
  }

  async put(key, value, options) {
    return this._write(put(key, value), options);
  }

  async delete(key, options) {
    return this._write(del(key), options);
  }

  async txn(then, conditions, otherwise) {
    const body = JSON.stringify({ ...(conditions && conditions.length !== 0 && { if: conditions }), then, ...(otherwise && { else: otherwise }) });
    const headers = { "Idempotency-Key": keyOfWrite(), "Content-Type": "application/json" };
    const told = (await this._call("POST", "/transact", body, headers)).json();
    return { timestamp: told.timestamp, branch: told.branch, written: told.written, results: told.results && told.results.map(resultOf) };
  }

  async transact(work) {
    const pauses = new Pauses(this.timeout);
    for (;;) {
      const transaction = new Transaction(this);
      let last, told, isDone = false;
      try {
        told = await work(transaction);
        isDone = true;
      } catch (why) {
        if (!(why instanceof Gone)) throw why; // its snapshot is collected
        last = why;
      }
      try {
        if (isDone) return await transaction._commit(), told;
      } catch (why) {
        if (!(why instanceof Gone || why instanceof ConditionFailed)) throw why;
        last = why;
      }
      const pause = pauses.next();
      if (pause === undefined) throw last;
      await sleep(pause);
    }
  }

  async page(lo, hi, options) {
    const { at, limit = PAGE, hold } = known(options, "at", "limit", "hold");
    return pageOf(await this._call("GET", pathOf("/rows", lo, hi, { at, limit, hold })));
  }

  async *scan(lo, hi, options) {
    let { at, page = PAGE } = known(options, "at", "page");
    for (let start = lo; ; ) {
      const found = await this.page(start, hi, { at, limit: page });
      yield* found.rows;
      if (found.next === null) return;
      [start, at] = [found.next, found.timestamp];
    }
  }

  feed(lo, hi, options) {
    return new Feed(this, lo, hi, options).messages();
  }

  consume(name, options) {
    return consume(this, name, options);
  }

  async _write(step, options) {
    const { if: condition } = known(options, "if");
    return (await this.txn([step], condition && [condition])).timestamp;
  }

  // ---- what is sent, and what an answer means

  _headers(identity) {
    return { ...this._token, ...(identity && { "Ripsawbean-Identity": identity }) };
  }

  _pin(answer) {
    this.identity ??= answer.headers.get("Ripsawbean-Identity");
  }

  /** An answer, asked for again while it is lost or the server is busy, until the time is over. */
  async _call(method, path, body, headers) {
    const pauses = new Pauses(this.timeout);
    if (method !== "GET" && !this.identity && this._addresses.areSeveral) await this._callUntil(pauses, "GET", "/healthz");
    return this._callUntil(pauses, method, path, body, headers);
  }

  async _callUntil(pauses, method, path, body, headers) {
    let wasSent = false, lost;
    for (;;) {
      let least = 0, isDown = false, busy;
      const address = this._addresses.now;
      try {
        const answer = await this._once(method, path, body, headers, Math.max(pauses.left(), 1));
        if (!AGAIN.includes(answer.status)) return this._pin(answer), answer;
        if (this._addresses.now === address) least = 1000 * (Number(answer.headers.get("Retry-After")) || 0);
        busy = refused(answer.status, answer.text());
      } catch (why) {
        if (why instanceof OtherDatabase && wasSent && method !== "GET") {
          throw new OutcomeUnknown(why.status, { error: why.error, why: LEFT_BEHIND }, { cause: why });
        }
        if (!(why instanceof Lost)) throw why;
        lost = why;
        // The server has ended. The next one may have another database, unless the write names its own.
        isDown = wasSent && !why.wasSent && method !== "GET" && !this.identity;
        wasSent ||= why.wasSent;
      }
      const pause = isDown ? undefined : pauses.next(least);
      if (pause === undefined) {
        const wasWritten = wasSent && method !== "GET";
        if (busy && !wasWritten) throw busy;
        throw new (wasWritten ? OutcomeUnknown : Unreachable)(0, { error: "unreachable", why: lost.message }, { cause: lost.cause });
      }
      await sleep(pause);
    }
  }

  /** One try. The answer may have a status of AGAIN, and what else is refused is thrown. */
  async _once(method, path, body, headers = {}, timeout = this.timeout) {
    const address = this._addresses.now;
    const answer = await this._send(address, method, path, body, { ...this._headers(this.identity), ...headers }, timeout).catch((why) => {
      this._addresses.leave(address);
      throw why;
    });
    if (answer.status === 200) return answer;
    const error = refused(answer.status, answer.text());
    if (answer.status === 503 && ELSEWHERE.includes(error.error)) this._addresses.leave(address);
    if (AGAIN.includes(answer.status) || (answer.status === 404 && error.error === "none")) return answer;
    if (error instanceof ConditionFailed) error.found = (error.members.found ?? []).filter((one) => "key" in one).map(rowOf);
    throw error;
  }

  async _send(address, method, path, body, headers, timeout) {
    const control = new AbortController();
    const timer = endLater(control, timeout);
    try {
      const response = await this._open(address, path, control, timeout, { method, body, headers });
      const answer = new Answer(response, new Uint8Array(await response.arrayBuffer()));
      if ([502, 504].includes(answer.status)) throw new Lost(`the proxy answers ${answer.status}`);
      return answer;
    } catch (why) {
      throw why instanceof Lost ? why : new Lost(why);
    } finally {
      clearTimeout(timer);
    }
  }

  /** The head of an answer, which comes within the timeout. Until one has come, each try is given twice the time of the last. */
  async _open(address, path, control, timeout, options) {
    const longest = Math.min(this._addresses.patience(timeout), this._longest);
    const timer = endLater(control, longest, () => (this._longest = Math.max(this._longest, 2 * longest)));
    try {
      const all = { cache: "no-store", redirect: "manual", ...options, signal: control.signal };
      const response = await this._fetch.call(globalThis, address.url + path, all);
      this._longest = Infinity;
      return response;
    } catch (why) {
      throw new Lost(why, !NOT_SENT.includes(why.cause?.code));
    } finally {
      clearTimeout(timer);
    }
  }

  // ---- reads

  /** A row, and the timestamp at which it was read. */
  async _read(key, at) {
    if (["%2E", "%2E%2E"].includes(percent(key))) return this._readDots(key, at); // no URL can have these two in its path
    const answer = await this._call("GET", pathOf(`/key/${percent(key)}`, null, null, { at }));
    const name = textOf(bytesOf(key));
    if (answer.status === 404) return { at: answer.json().timestamp, row: { key: name, value: null, version: null } };
    return { at: answer.number("Ripsawbean-Timestamp"), row: { key: name, value: textOf(answer.body), version: answer.number("ETag") } };
  }

  async _readDots(key, at) {
    if (at === undefined) {
      const { timestamp, results } = await this.txn([get(key)]);
      return { at: timestamp, row: results[0] };
    }
    const { rows } = await this.page(key, behind(key), { at, limit: 1 });
    return { at, row: rows[0] ?? { key: textOf(bytesOf(key)), value: null, version: null } };
  }

  /** One try of a page of the database that a place names. */
  async _pageOnce(lo, hi, place, limit, hold) {
    const path = pathOf("/rows", lo, hi, { at: place.timestamp, limit, hold });
    const answer = await this._once("GET", path, undefined, { "Ripsawbean-Identity": place.identity });
    if (answer.status !== 200) throw new Lost(`the server answers ${answer.status}`);
    return pageOf(answer);
  }
}

function pageOf(answer) {
  const { timestamp, rows, next } = answer.json();
  const following = next === null ? null : argumentIn(next, "lo");
  if (following?.length === 0) throw nonsense(answer.status, "has no place for the page behind it");
  return { timestamp, rows: rows.map(rowOf), next: following && textOf(following) };
}

/** A timer, which keeps Node running: else a program that waits would just end. */
function endLater(control, ms, before = () => {}) {
  return setTimeout(() => {
    before();
    control.abort(new Error(`no answer came for ${Math.round(ms)} milliseconds`));
  }, Math.min(ms, LONGEST_TIMER));
}

function keyOfWrite() {
  // randomUUID isn't there in a page that came without TLS.
  return Array.from(crypto.getRandomValues(new Uint8Array(16)), (byte) => byte.toString(16).padStart(2, "0")).join("");
}

/** Reads of one snapshot, and writes that are kept until the end. They commit where nothing that was read has changed. */
export class Transaction {
  constructor(client) {
    Object.assign(this, { _client: client, _at: undefined, _seen: new Map(), _spans: [], _writes: new Map() });
  }

  put(key, value) {
    this._writes.set(percent(key), { step: put(key, value), row: { key: textOf(bytesOf(key)), value: textOf(bytesOf(value)), version: null } });
  }

  delete(key) {
    this._writes.set(percent(key), { step: del(key), row: { key: textOf(bytesOf(key)), value: null, version: null } });
  }

  async get(key) {
    const id = percent(key);
    if (this._writes.has(id)) return this._writes.get(id).row.value;
    if (!this._seen.has(id)) {
      const { at, row } = await this._client._read(key, this._at);
      this._at ??= at;
      this._seen.set(id, row);
    }
    return this._seen.get(id).value;
  }

  async scan(lo, hi) {
    const found = new Map();
    let page = { next: lo };
    do {
      page = await this._client.page(page.next, hi, { at: this._at });
      this._at = page.timestamp;
      for (const row of page.rows) found.set(percent(row.key), row);
    } while (page.next !== null);
    this._spans.push(unchanged(lo, hi, this._at));
    const isInside = (id) => id >= percent(lo ?? "") && (!hi?.length || id < percent(hi));
    for (const [id, { row }] of this._writes) if (isInside(id)) found.set(id, row);
    return [...found].sort(([a], [b]) => (a < b ? -1 : 1)).map(([, row]) => row).filter((row) => row.value !== null);
  }

  async _commit() {
    if (!this._writes.size) return; // a snapshot's reads alone are right as they are
    const conditions = [...[...this._seen.values()].map((row) => versionIs(row.key, row.version)), ...this._spans];
    await this._client.txn([...this._writes.values()].map((one) => one.step), conditions);
  }
}

/** A client of the server at the url, or of those at several, with commas between them, of which one has the database at a time. */
export const connect = (url = "http://127.0.0.1:7077", options) => new Client(url, options);
