// Ripsawbean inside a JavaScript program: an in-memory multiversion timestamp database, whose committed changes leave
// it as ordered feeds.
//
//     import { load, messagesOf } from "./ripsawbean.mjs";
//     const library = await load(fetch("ripsawbean.wasm"));    // in Node: load(await readFile("ripsawbean.wasm"))
//     const db = library.open();
//     db.call("0 begin 10\n");                                 // "0 0 begin 10 => started\n"
//     db.make("put", [10, "apple", "3"]);                      // the same from values, which are spelled here
//     db.make("commit", [10]);
//     for (const message of messagesOf(db.call("1 poll 1 100\n"))) ..
//     db.close();
//
// A line is one of a script, and a text is its event's, as docs/GUIDE.md has them. A refusal is an answer, and no
// error. Calls are synchronous. A module is used by one thread: a worker loads one of its own.
//
// The module imports nothing. It has a 64-bit memory, which Chrome and Edge have from 133 on, Firefox from 134, and
// Node from 24; Node 20 and 22 have it with --experimental-wasm-memory64.
//
// A RuntimeError out of a call is a trap. The module then refuses every further call, those of its other databases too:
// load it anew.

const STATUS_NAMES = [
  "ok", "wordcount", "unknowncommand", "number", "keylength", "valuelength", "session", "nonewline", "linetoolong",
  "badbyte", "reply", "follow", "nomemory", "spent", "unwritten", "ring", "closed", "open",
];
const STATUS = Object.fromEntries(STATUS_NAMES.map((name, number) => [name, number]));

const SIZE_OF_HANDLE = 16;
const SIZE_OF_LENGTH = 8;
const FIRST_ROOM = 4096;
const BYTES_OF_A_LETTER = 3; // at most, of one unit of a JavaScript string

/** What somebody is told whose browser lacks a 64-bit memory. */
export const NEEDS =
  "The database needs WebAssembly with a 64-bit memory. Chrome and Edge have it from version 133 on, Firefox from 134.";

// The least module that has such a memory.
const WIDE_MEMORY = Uint8Array.of(0, 97, 115, 109, 1, 0, 0, 0, 5, 3, 1, 4, 1);

/** Whether this engine can run the module. */
export function isSupported() {
  return typeof WebAssembly === "object" && WebAssembly.validate(WIDE_MEMORY);
}

/** A status other than 0: no call was made. With `unwritten` one was, whose text found no memory, so ask `text()`. */
export class StatusError extends Error {
  constructor(status) {
    super(STATUS_NAMES[status] ?? `status ${status}`);
    this.name = "StatusError";
    this.status = status;
  }
}

function expectOk(status) {
  if (status !== STATUS.ok) throw new StatusError(status);
}

/** The library in a module's bytes, in a WebAssembly.Module, or in a Response or the promise of one. */
export async function load(source) {
  if (!isSupported()) throw new Error(NEEDS);
  const given = await source;
  if (given instanceof WebAssembly.Module) return new Library(given);
  return new Library(await WebAssembly.compile(await bytesIn(given)));
}

async function bytesIn(given) {
  if (typeof Response === "undefined" || !(given instanceof Response)) return given;
  if (!given.ok) throw new Error(`${given.url}: ${given.status}`);
  return given.arrayBuffer();
}

const encoder = new TextEncoder();
const decoder = new TextDecoder();

/** A module with a memory of its own. Its databases know nothing of one another. */
class Library {
  #bytes;
  #numbers;
  #line; // room for the line of a call
  #out; // room for a text
  #length; // where a function writes how long its text is

  constructor(module) {
    this.exports = new WebAssembly.Instance(module, {}).exports;
    this.#look();
    this.#line = this.room(FIRST_ROOM);
    this.#out = this.room(FIRST_ROOM);
    this.#length = this.room(SIZE_OF_LENGTH);
  }

  /** A new and empty database. `ring` is 1 to 65536, and has no effect. */
  open(ring = 1024) {
    return new Database(this, ring);
  }

  /** The memory grows to so many bytes at most, and then calls want memory. 0 takes the limit away. */
  limit(bytes) {
    this.exports.limit(BigInt(bytes));
  }

  /** How many bytes of memory the module has. */
  get size() {
    return this.exports.memory.buffer.byteLength;
  }

  /** Room in the module's memory: {at, size} as it counts them, and `from`, the place of its first byte. */
  room(size) {
    const at = this.exports.room(BigInt(size));
    if (at === 0n) throw new StatusError(STATUS.nomemory);
    return { at, size: BigInt(size), from: Number(at) };
  }

  bytes(from, size) {
    if (this.#bytes.length === 0) this.#look();
    return this.#bytes.subarray(from, from + Number(size));
  }

  /** Puts a line into the memory, and says where it is and how long. */
  put(line) {
    const most = BigInt(BYTES_OF_A_LETTER * line.length);
    if (most > this.#line.size) this.#line = this.#wider(this.#line, most);
    const { written } = encoder.encodeInto(line, this.bytes(this.#line.from, this.#line.size));
    return [this.#line.at, BigInt(written)];
  }

  /** The text that `first` writes. Where room is wanting `again` is asked for the same text, and makes no call. */
  told(first, again = first) {
    for (let write = first; ; write = again) {
      expectOk(write(this.#out.at, this.#out.size, this.#length.at));
      const length = this.#number(this.#length.from);
      if (length <= this.#out.size) return decoder.decode(this.bytes(this.#out.from, length));
      this.#out = this.#wider(this.#out, length, STATUS.unwritten);
    }
  }

  // More room, or the old one and an error.
  #wider(old, size, status = STATUS.nomemory) {
    let wider;
    try {
      wider = this.room(2n * size);
    } catch {
      throw new StatusError(status);
    }
    this.exports.unroom(old.at);
    return wider;
  }

  #number(at) {
    if (this.#bytes.length === 0) this.#look();
    return this.#numbers.getBigUint64(at, true);
  }

  // Once the memory has grown, the views made before it have no bytes any more.
  #look() {
    this.#bytes = new Uint8Array(this.exports.memory.buffer);
    this.#numbers = new DataView(this.exports.memory.buffer);
  }
}

/** One database. */
class Database {
  #library;
  #exports;
  #handle;

  constructor(library, ring) {
    this.#library = library;
    this.#exports = library.exports;
    const own = library.room(SIZE_OF_HANDLE);
    library.bytes(own.from, SIZE_OF_HANDLE).fill(0);
    this.#handle = own.at;
    this.open(ring);
  }

  /** Opens it anew after `close`, empty. */
  open(ring = 1024) {
    if (!Number.isInteger(ring) || ring < 0 || ring >= 2 ** 32) throw new StatusError(STATUS.ring);
    expectOk(this.#exports.ripsawbean_open(this.#handle, ring));
  }

  /** Makes the call of a line, its newline with it, and returns the text of its event. */
  call(line) {
    const place = this.#library.put(line);
    return this.#library.told((...out) => this.#exports.ripsawbean_call(this.#handle, ...place, ...out), this.#text);
  }

  /** Makes a call from values: numbers; text or bytes for keys and values; null for no bound. */
  make(command, values = [], seat = 0) {
    return this.call(`${[seat, command, ...values.map(wordOf)].join(" ")}\n`);
  }

  /** The text of the last event again, or "" where no call was made yet. It makes no call. */
  text() {
    return this.#library.told(this.#text);
  }

  /** The state, a line of JSON for each thing that the database has, or null where the module can't tell it. */
  state() {
    const { ripsawbean_state } = this.#exports;
    return ripsawbean_state ? this.#library.told((...out) => ripsawbean_state(this.#handle, ...out)) : null;
  }

  /** Frees the database. It may be opened again. */
  close() {
    this.#exports.ripsawbean_close(this.#handle);
  }

  #text = (...out) => this.#exports.ripsawbean_text(this.#handle, ...out);
}

// ---- words: bytes as lines spell them

/** The word of a text or of bytes: printable bytes are themselves, others are %XX; - is none, and %2D a single -. */
export function spell(data) {
  const bytes = typeof data === "string" ? encoder.encode(data) : data;
  if (bytes.length === 0) return "-";
  if (bytes.length === 1 && bytes[0] === 0x2d) return "%2D";
  return Array.from(bytes, spelled).join("");
}

function spelled(byte) {
  const standsForItself = byte > 0x20 && byte < 0x7f && byte !== 0x25;
  return standsForItself ? String.fromCharCode(byte) : `%${byte.toString(16).toUpperCase().padStart(2, "0")}`;
}

/** The bytes of a word that the library wrote. */
export function unspell(word) {
  if (word === "-") return new Uint8Array();
  const letters = word.replace(/%(..)/g, (_, digits) => String.fromCharCode(parseInt(digits, 16)));
  return Uint8Array.from(letters, (it) => it.charCodeAt(0));
}

function wordOf(value) {
  if (value === null) return "-";
  return typeof value === "number" || typeof value === "bigint" ? String(value) : spell(value);
}

// ---- events and messages

/** The words behind `=>`. A key or a value may be spelled so too, so it is the last one that a word follows. */
export function answerOf(text) {
  const [line] = text.split("\n", 1);
  return line.slice(line.lastIndexOf(" => ") + 4);
}

/** The rows of a scan, as pairs of words, keys rising. */
export function rowsOf(text) {
  return linesOf(text, "row ").map((line) => line.split(" ").slice(1));
}

/** The messages of a poll in their order: {key, after, updated} with bytes, and null for a delete; or {resolved}. */
export function messagesOf(text) {
  return linesOf(text, "{").map((line) => messageOf(JSON.parse(line)));
}

function linesOf(text, start) {
  return text.split("\n").filter((line) => line.startsWith(start));
}

function messageOf(told) {
  if ("resolved" in told) return { resolved: BigInt(told.resolved) };
  const after = told.after === null ? null : decoded(told.after);
  return { key: decoded(told.key), after, updated: BigInt(told.updated) };
}

function decoded(base64) {
  return Uint8Array.from(atob(base64), (it) => it.charCodeAt(0));
}
