// Answers, and the pauses between tries.

import { RipsawbeanError } from "./errors.js";

/** Rows of a page, where nobody says how many. */
export const PAGE = 1000;
/** Statuses after which the same is asked again: nothing was changed, or a proxy lost the answer. */
export const AGAIN = [408, 502, 503, 504];

export const sleep = (ms, signal) => new Promise((done) => {
  const end = () => {
    clearTimeout(timer);
    signal?.removeEventListener("abort", end); // else each pause would leave one
    done();
  };
  const timer = setTimeout(end, ms);
  signal?.addEventListener("abort", end);
  if (signal?.aborted) end();
});

/** Drawn pauses between tries, which grow, until the time is over. */
export class Pauses {
  constructor(ms = Infinity) {
    Object.assign(this, { until: Date.now() + ms, longest: 2 });
  }
  left() {
    return this.until - Date.now();
  }
  /** A pause in milliseconds, or undefined where there is no time for it. */
  next(least = 0) {
    const ms = Math.max(least, Math.random() * this.longest);
    this.longest = Math.min(2 * this.longest, 500);
    return ms < this.left() ? ms : undefined;
  }
}

export const nonsense = (status, why) => new RipsawbeanError(status, { error: "answer", why: `this is no answer of the server's: it ${why}` });

export class Answer {
  constructor({ status, headers }, body) {
    Object.assign(this, { status, headers, body });
  }
  text() {
    return new TextDecoder().decode(this.body);
  }
  json() {
    try {
      return JSON.parse(this.text());
    } catch {
      throw nonsense(this.status, "is no JSON");
    }
  }
  number(name) {
    return numberIn(this, name);
  }
}

/** A header's digits. */
export function numberIn({ status, headers }, name) {
  const value = headers.get(name)?.replaceAll('"', "");
  if (!/^\d+$/.test(value ?? "")) throw nonsense(status, `has ${value} as its ${name}`);
  return value;
}
