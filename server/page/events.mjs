// The last events as a list, one of which is shown in the picture.
//
// The server makes calls of its own: it closes, collects, and polls for its streams. They are left out with a count,
// unless they are asked for. Where an event was chosen the list stays at it, and later ones come below.
import { markup } from "/picture/markup.mjs";
import { REFUSALS } from "/picture/picture.mjs";
import { seatColour } from "/picture/sheet.mjs";
import { counted } from "/picture/words.mjs";
import { cutWord } from "./cut.mjs";
import { keep } from "./keep.mjs";
import { isOwn } from "./live.mjs";

const MOST = { live: 50, stopped: 200 }; // rows: the half of it on each side of the one that is shown
const LONGEST = 22; // letters of a word

export class Events {
  #list;
  #onShow;
  #onLast;
  #rows = []; // the events that may be gone to
  #at = -1; // which of them is shown
  #count;

  /** `onShow(place)` is called when an event is chosen, and `onLast()` to go back to the last one. */
  constructor(part, { onShow, onLast }) {
    [this.#list, this.#count, this.#onShow, this.#onLast] = [part("events"), part("own-count"), onShow, onLast];
    this.#list.addEventListener("click", (event) => this.#clicked(event));
    this.#list.addEventListener("keydown", (event) => this.#pressed(event));
  }

  show({ history, told, last, showsOwn, isStopped }) {
    const all = history.events.slice(0, last - history.first + 1);
    const own = all.filter(isOwn).length;
    this.#rows = showsOwn ? all : all.filter((it) => !isOwn(it) || it.place === told);
    this.#count.textContent = own.toLocaleString("en");
    this.#at = this.#rows.findIndex((it) => it.place === told);
    const most = isStopped ? MOST.stopped : MOST.live;
    const from = Math.max(0, Math.min(this.#at - most / 2, this.#rows.length - most));
    keep(this.#list, this.#rows.slice(from, from + most).map((it, i) => itemOf(it, from + i === this.#at)));
    const current = this.#list.querySelector("[aria-selected=true]");
    this.#list.setAttribute("aria-activedescendant", current?.id ?? "");
    if (current) this.#scrollTo(current);
  }

  // The list scrolls, and never the page.
  #scrollTo({ offsetTop: top, offsetHeight: height }) {
    const { scrollTop, clientHeight } = this.#list;
    if (top < scrollTop) this.#list.scrollTop = top;
    else if (top + height > scrollTop + clientHeight) this.#list.scrollTop = top + height - clientHeight;
  }

  #clicked(event) {
    const row = event.target.closest(".event");
    if (row) this.#onShow(Number(row.dataset.place));
  }

  #pressed(event) {
    const steps = { ArrowUp: -1, ArrowDown: 1, PageUp: -10, PageDown: 10, Home: -Infinity, End: Infinity };
    if (!(event.key in steps) || event.ctrlKey || event.metaKey || event.altKey) return;
    event.preventDefault();
    if (event.key === "End" || (steps[event.key] > 0 && this.#at === this.#rows.length - 1)) return this.#onLast();
    const to = Math.max(0, Math.min(this.#rows.length - 1, this.#at + steps[event.key]));
    if (this.#rows[to]) this.#onShow(this.#rows[to].place);
  }
}

// The one that is shown has its words whole.
function itemOf({ place, position, seat, command, words, answer, details, rows, messages }, isShown) {
  const kind = REFUSALS.has(answer) ? "no" : "ok";
  const more = rows.length + messages.length;
  const behind = more > 0 && markup` <span class="position">and ${counted(more, "line")}</span>`;
  const spelled = (word) => markup` ${isShown ? word : cutWord(word, LONGEST)}`;
  const html = markup`<div class="event" id="event-${place}" role="option" data-place="${place}"
    aria-selected="${isShown}" style="--seat: ${seatColour(seat)}"><span class="position">${position}</span>
    <b>${seat}</b> ${command}${words.map(spelled)} =&gt;
    <span class="${kind}">${answer}${details.map(spelled)}</span>${behind}</div>`;
  return { key: `${place}`, html };
}
