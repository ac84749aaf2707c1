// Where timestamps stand from left to right. They are drawn to scale where that can be read. Else wide gaps are made
// narrow, and each timestamp at which something happened keeps a place of its own.
import { LETTER } from "./sheet.mjs";
import { ascending, brief } from "./words.mjs";

const NARROW = 24; // pixels between neighbours, at least, where they are drawn to scale
const BETWEEN = 8; // pixels between two numbers
const TAIL = 64; // pixels behind the last point, at least, for what stands from there on

// A room, shared by weights. Where `needs` has room at all, none gets less than it needs.
function shared(room, weights, needs) {
  const sum = (list) => list.reduce((a, b) => a + b, 0);
  const isEnough = needs !== null && sum(needs) <= room;
  let shares = weights.map((it) => (it / sum(weights)) * room);
  if (!isEnough) return shares;
  const isWanting = weights.map(() => false);
  while (shares.some((it, i) => it < needs[i])) {
    shares.forEach((it, i) => (isWanting[i] ||= it < needs[i]));
    const left = room - sum(needs.filter((_, i) => isWanting[i]));
    const free = sum(weights.filter((_, i) => !isWanting[i]));
    shares = weights.map((it, i) => (isWanting[i] ? needs[i] : (it / free) * left));
  }
  return shares;
}

export class Axis {
  /** Of all points `count` are shown, and `later` of them are left out at the right. The edges are in pixels. */
  constructor(all, { count, later }, left, right) {
    const sorted = [...new Set([0n, ...all])].sort(ascending);
    const end = Math.max(1, sorted.length - later);
    this.points = sorted.slice(Math.max(0, end - count), end);
    [this.before, this.after] = [Math.max(0, end - count), sorted.length - end];
    [this.left, this.right] = [left, right];
    this.places = this.#places(Math.max(TAIL, (right - left) * 0.14));
  }

  // The place of each point. The first stands at the left edge, and the last leaves a tail.
  #places(tail) {
    const gaps = this.points.slice(1).map((it, i) => it - this.points[i]);
    const least = gaps.reduce((a, b) => (a < b ? a : b), gaps[0]);
    const room = this.right - tail - this.left;
    const scale = gaps.map((it) => Number(it) / Number(least));
    const narrowest = room / scale.reduce((a, b) => a + b, 0);
    this.isToScale = gaps.length < 2 || narrowest >= NARROW;
    const weights = this.isToScale ? scale : scale.map((it) => 1 + Math.min(2, Math.log2(it) / 3));
    const places = [this.left];
    for (const it of shared(room, weights, this.isToScale ? null : this.#needs())) places.push(places.at(-1) + it);
    return places;
  }

  // What the numbers of two neighbours need between them.
  #needs() {
    const halves = this.points.map((it) => (brief(it).length * LETTER) / 2);
    return halves.slice(1).map((it, i) => halves[i] + it + BETWEEN);
  }

  /** The place of a timestamp. One outside of what is shown stands at the edge. */
  x(ts) {
    const i = this.points.findLastIndex((it) => it <= ts);
    if (i < 0) return this.left;
    if (this.points[i] === ts) return this.places[i];
    if (i + 1 === this.points.length) return this.right;
    const part = Number(ts - this.points[i]) / Number(this.points[i + 1] - this.points[i]);
    return this.places[i] + part * (this.places[i + 1] - this.places[i]);
  }

  has(ts) {
    return this.points[0] <= ts && ts <= this.points.at(-1);
  }

  /** Whether something that reaches from one timestamp to another is seen. */
  meets(from, to) {
    return from <= this.points.at(-1) && to >= this.points[0];
  }
}
