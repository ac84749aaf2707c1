// What the shapes of the picture stand for.
import { markup } from "./markup.mjs";
import { circle, cross, line, ofSeat } from "./sheet.mjs";

const body = markup`<rect class="body" x="2" y="2" width="24" height="12"/>`;
const edge = line("edge", [3, 1], [3, 15]);
const version = (kind) => ofSeat(0, `version ${kind}`, body, edge);
const read = ofSeat(0, "reading", line("read", [3, 8], [23, 8]), circle("reader", 23, 8, 3.4));
const feed = (shape) => ofSeat(0, "feed", shape);
const transaction = (shape) => ofSeat(0, "transaction", shape);

const SHAPES = [
  [transaction(circle("committed", 14, 8, 6)), "a committed transaction"],
  [transaction(circle("undecided", 14, 8, 6)), "an undecided transaction"],
  [transaction(cross(14, 8, 5)), "an aborted transaction"],
  [version("committed"), "a committed version, from its timestamp to the next"],
  [version("undecided"), "an undecided version"],
  [version("dead"), "a version that no read can see any more"],
  [ofSeat(0, "version committed", edge, cross(14, 8, 4)), "a delete"],
  [read, "a read: no write may come in along it"],
  [markup`<g class="refusal">${cross(14, 8, 6)}</g>`, "a command that was refused"],
  [feed(circle("cursor", 14, 8, 4.5)), "a feed's cursor, where it begins"],
  [feed(circle("row", 14, 8, 3.6)), "a row that a feed told"],
  [feed(markup`<path class="resolved" d="M14 2l6 6l-6 6l-6 -6z"/>`), "resolved: all up to here was told"],
  [feed(line("behind", [2, 8], [26, 8])), "closed, and still to be told"],
  [markup`<path class="protection" d="M8 1h12v8q0 4 -6 6q-6 -2 -6 -6z"/>`, "a protection"],
  [markup`<rect class="ground closed" x="1" y="1" width="26" height="14"/>`, "closed: it will never change"],
  [markup`<rect class="ground horizon" x="1" y="1" width="26" height="14"/>`, "below the horizon: reads are refused"],
];

export function legend() {
  const drawn = (shape) => markup`<svg width="28" height="16" aria-hidden="true">${shape}</svg>`;
  const list = SHAPES.map(([shape, words]) => markup`<li>${drawn(shape)}${words}</li>`);
  return markup`<details class="legend"><summary>What the shapes mean</summary><ul>${list}</ul></details>`;
}
