// A database and all that was said to it since it was opened.
import { StatusError } from "../ripsawbean.mjs";
import { historyOf } from "../picture/picture.mjs";

export class Run {
  history = historyOf();
  /** What was typed, in its order: {place, text} of an event, or {line, fault} of a line that made no call. */
  entries = [];
  #db;
  #states = [];

  constructor(library) {
    this.#db = library.open();
  }

  /** Makes the call of a line without its newline, and gives null. A faulty line makes none, and gives its fault's name. */
  call(line) {
    try {
      const text = this.#db.call(`${line}\n`);
      this.history.add(text);
      this.#states.push(this.#db.state());
      this.entries.push({ place: this.history.events.length - 1, text });
      return null;
    } catch (error) {
      if (!(error instanceof StatusError)) throw error;
      return error.message;
    }
  }

  /** Keeps a faulty line among what was said. */
  keep(line, fault) {
    this.entries.push({ line, fault });
  }

  /** The state's text after an event, as the database told it then, or undefined where the module can't tell. */
  stateAfter(place) {
    return this.#states[place] ?? undefined;
  }

  textOf(place) {
    return this.entries.find((it) => it.place === place)?.text ?? "";
  }

  get last() {
    return this.history.events.length - 1;
  }

  /** The whole transcript, as `mvfeed check` takes it. */
  get transcript() {
    return `mvfeed 2\n${this.entries.map((it) => it.text ?? "").join("")}`;
  }

  close() {
    this.#db.close();
  }
}
