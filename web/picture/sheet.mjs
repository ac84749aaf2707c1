// The sheet that lanes are drawn on, from top to bottom: shapes in three layers, and marks that can be chosen.
import { markup } from "./markup.mjs";
import { short } from "./words.mjs";

export const LETTER = 7.25; // pixels of a letter, which has one width for all
export const LEAST = 4; // letters that a text is cut to
export const LONGEST = 300; // letters of a value, for a name and a tooltip; its meaning has it whole

const BESIDE = 12; // pixels between a lane's name and the lane

/** How many letters there is room for. */
export const lettersIn = (room) => Math.max(0, Math.floor(room / LETTER));

export class Sheet {
  ground = [];
  shapes = [];
  front = [];
  marks = []; // {id, lane, x, name, meaning}, lane by lane
  lane = 0;

  constructor(axis, { left, right, y }) {
    Object.assign(this, { axis, left, right, y });
  }

  /** A lane from here on, with its name at the left as it is or as it is shown, and further words below that. */
  begin(name, { shown = short(name, this.letters), y = 19, colour = "var(--ink)", below = "" } = {}) {
    this.lane++;
    this.#word("name", name, shown, this.y + y, colour);
    if (below) this.#word("below", below, short(below, this.letters), this.y + y + 15, "var(--soft)");
  }

  /** How many letters of a name there is room for. */
  get letters() {
    return lettersIn(this.left - BESIDE);
  }

  end(height) {
    this.y += height;
  }

  // What is cut is whole in its tooltip, and for whoever has it read aloud.
  #word(kind, word, shown, y, colour) {
    const aloud = shown !== word && markup` role="img" aria-label="${word}"`;
    this.shapes.push(markup`<text class="${kind}" x="${this.left - BESIDE}" y="${y}" style="fill: ${colour}"${aloud}>
      ${shown}<title>${word}</title></text>`);
  }

  /** A mark: its name, a function that tells what it means, and its shape, in the layer `shapes` or `front`. */
  mark({ id, x, name, meaning, isFresh = false, layer = "shapes" }, ...shape) {
    this.marks.push({ id, lane: this.lane, x, name, meaning });
    this[layer].push(markup`<g class="mark${isFresh && " fresh"}" data-mark="${id}" tabindex="-1" role="button"
      aria-label="${name}">${shape}</g>`);
  }

  /** A text that is cut where its room ends, as `cut` or in the middle. If next to nothing would be left, it is none. */
  text(x, y, word, room, kind = "", cut = null) {
    const most = lettersIn(room);
    if (word.length <= most) return markup`<text class="${kind}" x="${x}" y="${y}">${word}</text>`;
    if (most < LEAST || cut === "") return "";
    return markup`<text class="${kind}" x="${x}" y="${y}">${cut ?? short(word, most)}<title>${word}</title></text>`;
  }
}

export function line(kind, [x1, y1], [x2, y2]) {
  return markup`<line class="${kind}" x1="${x1}" y1="${y1}" x2="${x2}" y2="${y2}"/>`;
}

export function circle(kind, x, y, radius) {
  return markup`<circle class="${kind}" cx="${x}" cy="${y}" r="${radius}"/>`;
}

export function cross(x, y, size) {
  const path = `M${x - size} ${y - size}l${2 * size} ${2 * size}m0 ${-2 * size}l${-2 * size} ${2 * size}`;
  return markup`<path class="cross" d="${path}"/>`;
}

/** Shapes of a session, in its colour. */
export function ofSeat(seat, kind, ...shapes) {
  return markup`<g class="${kind}" style="--seat: ${seatColour(seat)}">${shapes}</g>`;
}

export const seatColour = (seat) => `var(--seat-${Number(seat) % 8})`;
