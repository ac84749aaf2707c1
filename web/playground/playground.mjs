// The page: sessions that make calls on one database, the transcript, the picture, and the tour.
import { isSupported, load, NEEDS } from "../ripsawbean.mjs";
import { markup } from "../picture/markup.mjs";
import { draw } from "../picture/picture.mjs";
import { EXAMPLES } from "./examples.mjs";
import { help } from "./help.mjs";
import { Run } from "./run.mjs";
import { Seats } from "./seats.mjs";
import { TOUR } from "./tour.mjs";
import { Transcript } from "./transcript.mjs";

const [OPENING] = Object.keys(EXAMPLES);

const INVITATION = markup`<p><b>New here?</b> A tour of ten steps shows what these words and shapes mean, from a
  transaction's begin to a cache that crashes and comes back.</p>
  <div class="buttons"><button type="button" class="main" data-step="tour-1">Take the tour</button></div>`;

const part = (id) => document.getElementById(id);

class Page {
  #library;
  #run;
  #place = null; // the event that is shown, or null for the last one
  #step = 0; // of the tour, from 1 on; 0 where it isn't taken
  #seats = new Seats(part("seats"), (seat, line) => this.#typed(seat, line));
  #transcript = new Transcript(part("transcript"), (place) => this.#show(place));

  constructor(library) {
    this.#library = library;
    part("commands").innerHTML = help();
    const options = Object.entries(EXAMPLES).map(([name, it]) => markup`<option value="${name}">${it.title}</option>`);
    part("examples").innerHTML = markup`<option value="">choose one</option>${options}`;
    this.#listen();
    this.#go();
  }

  #listen() {
    part("examples").onchange = (event) => event.target.value && this.#goTo(event.target.value);
    part("anew").onclick = () => this.#goTo("new");
    part("run").onclick = () => this.#runScript();
    part("copy").onclick = () => this.#copy();
    part("tour").addEventListener("click", (event) => this.#tourClicked(event));
    part("moment").addEventListener("click", (event) => event.target.matches("button") && this.#show(null));
    window.addEventListener("hashchange", () => this.#go());
  }

  #goTo(name) {
    if (location.hash === `#${name}`) this.#go();
    else location.hash = name;
  }

  // The address says what the page begins with: #tour-4, the name of an example, or #new.
  #go() {
    const name = location.hash.slice(1) || OPENING;
    const step = Number(/^tour-(\d+)$/.exec(name)?.[1] ?? 0);
    this.#step = Math.min(step, TOUR.length);
    part("examples").value = name in EXAMPLES ? name : "";
    if (this.#step) this.#begin(TOUR.slice(0, this.#step).flatMap((it) => it.lines));
    else this.#begin(EXAMPLES[name]?.lines.split("\n") ?? []);
  }

  #begin(lines) {
    this.#run?.close();
    this.#run = new Run(this.#library);
    for (const line of lines) {
      const fault = this.#run.call(line);
      if (fault) this.#run.keep(line, fault);
    }
    this.#seats.begin(1 + this.#run.history.events.reduce((most, it) => Math.max(most, it.seat), 0));
    this.#show(null);
  }

  #show(place) {
    this.#place = place === this.#run.last ? null : place;
    this.#draw();
  }

  #draw() {
    const place = this.#place ?? this.#run.last;
    const { history, last } = this.#run;
    draw(part("picture"), history, { place, state: this.#run.stateAfter(place), chosen: null });
    this.#transcript.show(this.#run, place);
    this.#drawMoment(place, last);
    this.#seats.show(history.after(last));
    this.#drawTour();
  }

  #drawMoment(place, last) {
    const [line] = this.#run.textOf(place).split("\n", 1);
    const back = place < last && markup`<button type="button">Back to now</button>`;
    part("moment").innerHTML = markup`<code>${line || "a new database: type a command into a session"}</code>${back}`;
  }

  #drawTour() {
    const step = TOUR[this.#step - 1];
    const hasFocus = part("tour").contains(document.activeElement);
    part("tour").innerHTML = step ? stepOf(step, this.#step) : INVITATION;
    if (hasFocus) part("tour").querySelector(".main").focus();
  }

  #tourClicked(event) {
    const { step } = event.target.dataset;
    if (step === "leave") this.#leaveTour();
    else if (step !== undefined) this.#goTo(step);
  }

  // The database stays as it is, so that one can go on from there.
  #leaveTour() {
    window.history.pushState(null, "", "#");
    this.#step = 0;
    this.#drawTour();
  }

  #typed(seat, line) {
    const fault = this.#run.call(`${seat} ${line}`);
    if (!fault) this.#show(null);
    return fault;
  }

  #runScript() {
    this.#step = 0;
    this.#begin(part("lines").value.split("\n").filter((it) => it.trim() !== ""));
  }

  async #copy() {
    await navigator.clipboard.writeText(this.#run.transcript);
    part("copy").textContent = "Copied";
    setTimeout(() => (part("copy").textContent = "Copy"), 2000);
  }
}

function stepOf({ title, says }, number) {
  const isLast = number === TOUR.length;
  const button = (to, word, kind) => markup`<button type="button" class="${kind}" data-step="${to}">${word}</button>`;
  return markup`<p class="step" aria-live="polite"><b>${number} of ${TOUR.length}. ${title}.</b> ${says}</p>
    <div class="buttons">${button("leave", "Leave", "quiet")}
      ${number > 1 && button(`tour-${number - 1}`, "Back")}
      ${isLast ? button("new", "Try it yourself", "main") : button(`tour-${number + 1}`, "Next", "main")}</div>`;
}

// The module stands in the page itself, or else in the folder that web/build writes.
function source() {
  const within = document.getElementById("module");
  if (!within) return fetch("../out/ripsawbean.wasm");
  return Uint8Array.from(atob(within.textContent), (it) => it.charCodeAt(0));
}

async function start() {
  try {
    new Page(await load(source()));
  } catch (error) {
    part("unsupported").textContent = isSupported() ? `The database can't be loaded: ${error.message}` : NEEDS;
    document.body.classList.add("unsupported");
    part("unsupported").hidden = false;
  }
}

start();
