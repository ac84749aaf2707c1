// Rows of the database, as the JavaScript client reads them: those whose keys begin with a word, some at a time, and all
// of one snapshot.
import { connect } from "/client/index.js";
import { markup } from "/picture/markup.mjs";
import { bytesOf, wordOf } from "/picture/words.mjs";
import { cut, openCuts } from "./cut.mjs";

const ROWS = 20; // that are shown at once
const LONGEST = 40; // letters of a key, and of a value
const utf8 = new TextEncoder();

export class Rows {
  #part;
  #more; // shows what follows

  /** `part(name)` gives the page's elements. */
  constructor(part) {
    this.#part = part;
    openCuts(part("rows"));
    part("prefix").addEventListener("keydown", (event) => event.key === "Enter" && this.#begin());
    part("show").onclick = () => this.#begin();
    part("more").onclick = () => this.#more();
  }

  #begin() {
    const lo = bytesOf(this.#part("prefix").value.trim());
    this.#part("rows").replaceChildren();
    return this.#show(connect(location.origin), bound(lo), bound(behindAll(lo)), undefined);
  }

  async #show(database, lo, hi, at) {
    try {
      const { timestamp, rows, next } = await database.page(lo, hi, { at, limit: ROWS });
      this.#part("rows").insertAdjacentHTML("beforeend", rows.map(rowOf).join(""));
      const isNone = this.#part("rows").childElementCount === 0;
      this.#tell(isNone ? `none at ${timestamp}` : `as of ${timestamp}`, next !== null);
      this.#more = () => this.#show(database, next, hi, timestamp);
    } catch (why) {
      this.#tell(why.message, false);
    }
  }

  #tell(words, hasMore) {
    this.#part("as-of").textContent = words;
    this.#part("more").hidden = !hasMore;
  }
}

function rowOf({ key, value, version }) {
  const [name, text] = [key, value].map((it) => cut(wordOf(binary(it)), LONGEST));
  return markup`<li><b>${name}</b><span>${text}</span><span class="at">${version}</span></li>`;
}

// The client gives strings where bytes are UTF-8. Inside the page a character is a byte.
const binary = (data) => Array.from(typeof data === "string" ? utf8.encode(data) : data, (it) => String.fromCharCode(it)).join("");
const bound = (text) => (text === "" ? null : Uint8Array.from(text, (it) => it.charCodeAt(0)));

// The first bytes behind all that begin with these, or none where there are no such.
function behindAll(front) {
  const kept = front.replace(/\xff+$/, "");
  return kept && kept.slice(0, -1) + String.fromCharCode(kept.charCodeAt(kept.length - 1) + 1);
}
