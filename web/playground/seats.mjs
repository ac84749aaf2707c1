// The boxes of the sessions. A line that is taken leaves its box, and the arrow keys bring it back. A faulty line stays
// in its box, and below it stands why, and how its command is used.
import { markup } from "../picture/markup.mjs";
import { seatColour } from "../picture/sheet.mjs";
import { explain } from "./faults.mjs";

const MOST = 64;
const FIRST = 2;
const STEP = 10n; // between the timestamps that are proposed
const GREATEST = 2n ** 63n - 1n; // of all timestamps
const MORE = markup`<button type="button" id="more">One session more</button>`;

export class Seats {
  #element;
  #call;
  #count = FIRST;
  #now; // after the last event: the undecided transactions, the horizon, and the greatest timestamp that was used
  #typed = new Map(); // seat: the lines that were taken, which of them is shown, and what stood there before

  /** `call(seat, line)` makes a call, and gives the name of its fault, or null. */
  constructor(element, call) {
    this.#element = element;
    this.#call = call;
    element.addEventListener("keydown", (event) => event.target.matches("input") && this.#pressed(event));
    element.addEventListener("input", ({ target }) => target.value.trim() === "" && this.#say(seatOf(target), null));
    element.addEventListener("paste", (event) => this.#pasted(event));
    element.addEventListener("click", (event) => event.target.matches("#more") && this.#add());
  }

  /** New boxes for so many sessions, or two. */
  begin(count) {
    this.#count = Math.min(MOST, Math.max(FIRST, count));
    this.#element.replaceChildren();
  }

  /** Boxes stay while they are typed in. Only what belongs to their sessions is drawn anew. */
  show(moment) {
    const used = [moment.closed, ...moment.transactions.keys()].reduce((a, b) => (a > b ? a : b));
    const undecided = moment.undecided().map(({ seat, ts }) => ({ seat, ts }));
    this.#now = { undecided, horizon: moment.horizon, used };
    this.#draw();
  }

  #draw() {
    this.#fill();
    this.#element.querySelectorAll(".seat").forEach((it, seat) => {
      const own = this.#undecidedOf(seat);
      it.querySelector(".own").textContent = own.map((ts) => `undecided ${ts}`).join(", ");
      it.querySelector("input").placeholder = `such as ${this.#proposed(seat, own.at(-1))}`;
    });
  }

  #fill() {
    if (!this.#element.hasChildNodes()) this.#element.innerHTML = MORE;
    const more = this.#element.lastElementChild;
    for (let seat = this.#element.childElementCount - 1; seat < this.#count; seat++)
      more.insertAdjacentHTML("beforebegin", box(seat));
  }

  #undecidedOf(seat) {
    return this.#now.undecided.filter((it) => it.seat === seat).map((it) => it.ts);
  }

  // A command that would be taken now.
  #proposed(seat, own) {
    if (own !== undefined) return `commit ${own}`;
    if (seat % 3 === 2) return `open - - ${this.#now.horizon}`;
    const ts = (this.#now.used / STEP + 1n + BigInt(seat % 3)) * STEP;
    return ts > GREATEST ? "stats" : `begin ${ts}`;
  }

  #pressed(event) {
    const input = event.target;
    if (event.key === "Enter" && input.value.trim() !== "") this.#enter(input);
    if (event.key !== "ArrowUp" && event.key !== "ArrowDown") return;
    this.#recall(input, event.key === "ArrowUp" ? -1 : 1);
    event.preventDefault();
  }

  #enter(input) {
    const seat = seatOf(input);
    const line = input.value.trim().replace(/\s+/g, " ");
    const fault = this.#call(seat, line);
    if (fault === null) {
      const { lines } = this.#typedBy(seat);
      this.#typed.set(seat, { lines: [...lines, line], at: lines.length + 1, begun: "" });
      input.value = "";
    } else {
      input.setSelectionRange(input.value.length, input.value.length);
    }
    this.#say(seat, fault && explain(line, fault, { seat, undecided: this.#undecidedOf(seat).at(-1) ?? null }));
  }

  // A box would make one line of them.
  #pasted(event) {
    const { length } = event.clipboardData.getData("text/plain").trim().split("\n");
    if (length === 1) return;
    event.preventDefault();
    const says = `A box takes a line at a time, and these are ${length}. Below, under Run a script, they run together.`;
    this.#say(seatOf(event.target), { says });
  }

  // Below the last of the lines that were taken stands what was begun.
  #recall(input, by) {
    const typed = this.#typedBy(seatOf(input));
    if (typed.at === typed.lines.length) typed.begun = input.value;
    typed.at = Math.max(0, Math.min(typed.lines.length, typed.at + by));
    input.value = typed.lines[typed.at] ?? typed.begun;
    this.#say(seatOf(input), null);
  }

  #typedBy(seat) {
    if (!this.#typed.has(seat)) this.#typed.set(seat, { lines: [], at: 0, begun: "" });
    return this.#typed.get(seat);
  }

  #say(seat, wrong) {
    const box = this.#element.querySelectorAll(".seat")[seat];
    box.querySelector(".wrong").innerHTML = wrong ? saysOf(wrong) : "";
    box.querySelector("input").ariaInvalid = wrong ? "true" : "false";
  }

  #add() {
    if (this.#count < MOST) this.#count++;
    this.#draw();
    this.#element.querySelectorAll("input")[this.#count - 1].focus();
  }
}

const seatOf = (input) => Number(input.dataset.seat);

function box(seat) {
  return markup`<div class="seat" style="--seat: ${seatColour(seat)}">
    <label for="seat-${seat}">session ${seat}</label><span class="own"></span>
    <input id="seat-${seat}" data-seat="${seat}" aria-describedby="wrong-${seat}" spellcheck="false" autocomplete="off"
      autocapitalize="off"><div class="wrong" id="wrong-${seat}" role="alert"></div></div>`;
}

function saysOf({ says, command }) {
  const example = command && command.slots.length > 0 && markup`, such as <code>${command.example}</code>`;
  return markup`<p>${says}</p>${command && markup`<p class="usage"><code>${command.form}</code>${example}</p>`}`;
}
