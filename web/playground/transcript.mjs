// The transcript as a list of events, one of which is shown in the picture. Its text is the transcript's, byte for
// byte.
import { markup } from "../picture/markup.mjs";
import { REFUSALS } from "../picture/picture.mjs";
import { seatColour } from "../picture/sheet.mjs";
import { explain } from "./faults.mjs";

export class Transcript {
  #element;
  #onShow;
  #run;
  #place;

  /** `onShow(place)` is called when another event is chosen. */
  constructor(element, onShow) {
    this.#element = element;
    this.#onShow = onShow;
    element.addEventListener("click", (event) => this.#clicked(event));
    element.addEventListener("keydown", (event) => this.#pressed(event));
  }

  show(run, place) {
    this.#run = run;
    this.#place = place;
    this.#element.innerHTML = markup`${run.entries.map((it) => (it.text ? this.#event(it) : faulty(it)))}`;
    const current = this.#element.querySelector("[aria-selected=true]");
    this.#element.setAttribute("aria-activedescendant", current?.id ?? "");
    if (current) this.#scrollTo(current);
  }

  // The list scrolls, and never the page.
  #scrollTo(row) {
    const { offsetTop: top, offsetHeight: height } = row;
    const { scrollTop, clientHeight } = this.#element;
    if (top < scrollTop) this.#element.scrollTop = top;
    else if (top + height > scrollTop + clientHeight) this.#element.scrollTop = top + height - clientHeight;
  }

  #event({ place, text }) {
    const event = this.#run.history.events[place];
    const end = text.indexOf("\n") + 1;
    const answer = [event.answer, ...event.details].join(" ");
    const call = [event.command, ...event.words].join(" ");
    const kind = REFUSALS.has(event.answer) ? "no" : "ok";
    const first = markup`<span class="position">${event.position}</span> <b>${event.seat}</b> ${call} =&gt; <span
      class="${kind}">${answer}</span>\n`;
    const later = place > this.#place && " later";
    return markup`<div class="event${later}" id="event-${place}" role="option" data-place="${place}"
      aria-selected="${place === this.#place}" style="--seat: ${seatColour(event.seat)}">${first}<span
      class="more">${text.slice(end)}</span></div>`;
  }

  #clicked(event) {
    const row = event.target.closest(".event");
    if (row) this.#onShow(Number(row.dataset.place));
  }

  #pressed(event) {
    const places = { ArrowUp: this.#place - 1, ArrowDown: this.#place + 1, Home: 0, End: this.#run.last };
    if (!(event.key in places)) return;
    event.preventDefault();
    this.#onShow(Math.max(0, Math.min(this.#run.last, places[event.key])));
  }
}

function faulty({ line, fault }) {
  return markup`<div class="fault">${line}: <span class="no">${fault}</span>. ${explain(line, fault).says}</div>`;
}
