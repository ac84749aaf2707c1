/** A string stands for its UTF-8 bytes. A string is given back where the bytes are UTF-8, else a Uint8Array. */
export type Bytes = string | Uint8Array;
/** Digits, since a number can't hold all of them. */
export type Timestamp = string;

/** A key as it is at a timestamp. Value and version are null where it is absent. */
export interface Row {
  key: Bytes;
  value: Bytes | null;
  version: Timestamp | null;
}

/** Rows of one snapshot. `next` is the `lo` of the page behind it, or null; ask for that one with `at: timestamp`. */
export interface Page {
  timestamp: Timestamp;
  rows: Row[];
  next: Bytes | null;
}

/** What a step `scan` found, and whether there is more behind its limit. */
export interface Rows {
  rows: Row[];
  more: boolean;
}

/** A transaction that committed. Results have null for a write, a Row for `get`, Rows for `scan`. */
export interface Done {
  timestamp: Timestamp;
  branch: "then" | "else";
  written: number;
  /** null itself where it wrote, and its answer had more than 4096 bytes and was lost: read anew. */
  results: (null | Row | Rows)[];
}

/** All up to the timestamp was told, of the database with the identity. A consumer's place also has its generation. */
export interface Place {
  identity: string;
  timestamp: Timestamp;
  generation?: string;
}

/** Forget all rows: those of the database at this place come next. */
export interface Reset extends Place {
  type: "reset";
}

/** All changes up to here were told: a feed may go on from this place. */
export interface Resolved extends Place {
  type: "resolved";
}

/** A committed row. `value` is null where it was deleted; `before`, if it is asked for, where it was absent. */
export interface Change {
  type: "change";
  key: Bytes;
  value: Bytes | null;
  timestamp: Timestamp;
  before?: Bytes | null;
}

export type Message = Reset | Change | Resolved;

/** What a consumer stores in ONE transaction, on the condition that the stored place is `was`. Where `reset`, it empties its rows first. */
export interface Batch {
  changes: Omit<Change, "type">[];
  place: Required<Place>;
  was: Place | null;
  reset: boolean;
}

export interface Step {
  readonly put?: unknown;
  readonly del?: unknown;
  readonly get?: unknown;
  readonly scan?: unknown;
}
export interface Condition {
  readonly key?: unknown;
  readonly span?: unknown;
}
type Bound = Bytes | null | undefined;

export function put(key: Bytes, value: Bytes): Step;
export function del(key: Bytes): Step;
export function get(key: Bytes): Step;
export function scan(lo?: Bound, hi?: Bound, limit?: number): Step;
/** The key has this value, or is absent where it is null. */
export function valueIs(key: Bytes, value: Bytes | null): Condition;
/** The key has the version that a row or a change had, or is absent where it is null. */
export function versionIs(key: Bytes, version: Timestamp | null): Condition;
export function exists(key: Bytes): Condition;
/** The rows of the span are those at this timestamp. */
export function unchanged(lo: Bound, hi: Bound, since: Timestamp): Condition;

export interface Options {
  token?: string;
  /** Milliseconds that a call may take, with all that is tried again (20,000). */
  timeout?: number;
  /** The database's, where it is to be this one; else the client is for the one that answers first. */
  identity?: string | null;
  fetch?: typeof globalThis.fetch;
}

export interface FeedOptions {
  /** What a Resolved message had. Without it the feed begins with the rows that are there now. */
  place?: Place | null;
  /** Whether a change tells what was there before. */
  before?: boolean;
  /** Whether it begins anew where the server has another database, or the place can't be read any longer. Else it throws. */
  anew?: boolean;
  /** Ends the feed. */
  signal?: AbortSignal;
}

export interface ConsumeOptions extends Omit<FeedOptions, "place"> {
  /** The place that is stored, or null. */
  load(): Promise<Place | null | undefined> | Place | null | undefined;
  store(batch: Batch): Promise<void> | void;
  lo?: Bound;
  hi?: Bound;
}

/** A client for one database. It has nothing to close. */
export class Client {
  readonly identity: string | null;
  constructor(url: string, options?: Options);
  /** The value of a key, now or at a timestamp, or null where it is absent. */
  get(key: Bytes, options?: { at?: Timestamp }): Promise<Bytes | null>;
  row(key: Bytes, options?: { at?: Timestamp }): Promise<Row>;
  /** Writes a value, where a condition holds if there is one. The timestamp is the row's version. */
  put(key: Bytes, value: Bytes, options?: { if?: Condition }): Promise<Timestamp>;
  delete(key: Bytes, options?: { if?: Condition }): Promise<Timestamp>;
  /** One transaction: `then` where all conditions hold, else `otherwise`. Without that it throws ConditionFailed. */
  txn(then: Step[], conditions?: Condition[], otherwise?: Step[]): Promise<Done>;
  /** Runs the work, anew until what it has read is unchanged at its commit. So it has no effects of its own. */
  transact<T>(work: (transaction: Transaction) => Promise<T> | T): Promise<T>;
  /** Rows at or above `lo` and below `hi`. Where more follow, the snapshot can be read for 30 seconds, or `hold`. */
  page(lo?: Bound, hi?: Bound, options?: { at?: Timestamp; limit?: number; hold?: number }): Promise<Page>;
  /** All rows of a span, of one snapshot. */
  scan(lo?: Bound, hi?: Bound, options?: { at?: Timestamp; page?: number }): AsyncGenerator<Row, void, void>;
  /** Reset, Change and Resolved, each once, until its signal is aborted. */
  feed(lo?: Bound, hi?: Bound, options?: FeedOptions): AsyncGenerator<Message, void, void>;
  /** Keeps rows elsewhere in step. It throws what `load` and `store` throw, and Outrun where a later consumer has the name. */
  consume(name: string, options: ConsumeOptions): Promise<void>;
}

export class Transaction {
  private constructor();
  get(key: Bytes): Promise<Bytes | null>;
  scan(lo?: Bound, hi?: Bound): Promise<Row[]>;
  put(key: Bytes, value: Bytes): void;
  delete(key: Bytes): void;
}

/** The url may be several, with commas between them, of servers of which one has the database at a time. */
export function connect(url?: string, options?: Options): Client;

/** `status` is that of the answer, or 0 where none came. `error` is the refusal's name, `members` all that it said. */
export class RipsawbeanError extends Error {
  readonly status: number;
  readonly error: string;
  readonly members: Record<string, unknown>;
}
/** A condition doesn't hold, and nothing was changed. `found` has the rows that were there, of those on keys. */
export class ConditionFailed extends RipsawbeanError {
  readonly found: Row[];
}
/** The request is wrong: `members.member` says where, if it is in the body. */
export class Invalid extends RipsawbeanError {}
/** The token is wanting or unknown, or has no right to this. */
export class Unauthorized extends RipsawbeanError {}
/** It stayed blocked, full or without memory until the time was over. Nothing was changed. */
export class Busy extends RipsawbeanError {}
/** Nothing can be read at this timestamp any longer, or not yet. */
export class Gone extends RipsawbeanError {}
/** The server has another database than the one that this client began with. Nothing was done. */
export class OtherDatabase extends RipsawbeanError {}
/** A later consumer has the name, or it was deleted. `store` throws it where the stored place isn't `was`. */
export class Outrun extends RipsawbeanError {
  constructor();
}
/** No answer came until the time was over. Nothing was sent, or it was a read. */
export class Unreachable extends RipsawbeanError {}
/** A write was sent and no answer came, so it may have committed or not. */
export class OutcomeUnknown extends Unreachable {}
