// Drawing by animation frame: one part a frame, so that none is late for all of them. A part that is asked for again
// before its frame has come is drawn once.

export class Frames {
  #waiting = new Map();

  ask(part, draw) {
    if (this.#waiting.size === 0) requestAnimationFrame(() => this.#next());
    this.#waiting.set(part, draw);
  }

  #next() {
    const [part, draw] = this.#waiting.entries().next().value;
    this.#waiting.delete(part);
    if (this.#waiting.size > 0) requestAnimationFrame(() => this.#next());
    draw();
  }
}
