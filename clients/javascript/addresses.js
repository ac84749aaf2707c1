/**
 * The addresses of servers of one database, of which one answers at a time.
 *
 * The one that answered last is asked. Where it takes no connection, is silent, loses an answer, or says that it doesn't
 * have the database now, the next one is asked, and behind the last one the first.
 */

const SILENT = 3000; // milliseconds for the head of an answer, with its connection, where another address may have one
const QUIET = 20_000; // milliseconds without a byte of a stream, whose server sends an empty line each 15 seconds
const SILENCE = 60_000; // the same where there is one address
/** Refusals of a server that doesn't have the database now. */
export const ELSEWHERE = ["lease", "standby"];

export class Addresses {
  /** Those in a text, with commas between them. */
  constructor(urls) {
    this.all = urls.split(",").map((url) => addressOf(url.trim()));
    this.areSeveral = this.all.length > 1;
    this.at = 0;
  }

  get now() {
    return this.all[this.at];
  }

  /** Goes on to the next one, unless another call has done so. */
  leave(address) {
    if (this.now === address) this.at = (this.at + 1) % this.all.length;
  }

  /** Milliseconds in which the head of an answer has to come. */
  patience(ms) {
    return this.areSeveral ? Math.min(ms, SILENT) : ms;
  }

  /** The same of a stream's line. */
  silence() {
    return this.areSeveral ? QUIET : SILENCE;
  }
}

function addressOf(text) {
  const { protocol, username, search, hash, href } = new URL(text);
  if (!/^https?:$/.test(protocol) || username || search || hash) throw new TypeError(`${text} is no http://HOST:PORT or https://HOST:PORT`);
  return { url: href.replace(/\/$/, "") };
}
