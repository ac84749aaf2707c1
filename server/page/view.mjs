// Which event is shown: the last one, as events come, or one at which the view was stopped.
//
//     follows        the last event of the live history
//     held           an event that was chosen. Later ones still come to the list
//     paused         as it was when it was paused. Nothing comes to the list
//
// A history that the live one has left behind is kept here for as long as the view is stopped at one of its events.

import { isOwn } from "./live.mjs";

const BELOW = 1000; // events behind one that is held

export class View {
  /** Whether the calls that the server makes of itself are among the events. */
  showsOwn = false;
  #live;
  #state; // the text of the state at the last event of the live history, or undefined
  #stop = null; // {history, place, told, last, state}: `last` ends the list, and null is the history's own last

  constructor(history) {
    this.#live = history;
  }

  /** The live history, which may be another one than before. Of another database nothing is kept. */
  follow(history, state) {
    if (history.story !== this.#live.story) this.#stop = null;
    [this.#live, this.#state] = [history, state];
    if (this.#stop && !this.isPaused && this.#stop.history !== history) this.#extend(this.#stop);
  }

  // Later events still come to a history that the live one has left behind, as far as the list shows them.
  #extend({ history, place }) {
    const from = history.last + 1 - this.#live.first;
    if (from >= 0 && history.last < place + BELOW) history.events.push(...this.#live.events.slice(from, from + BELOW));
  }

  get isStopped() {
    return this.#stop !== null;
  }

  get isPaused() {
    return this.#stop !== null && this.#stop.last !== null;
  }

  get history() {
    return this.#stop?.history ?? this.#live;
  }

  get last() {
    return this.#stop?.last ?? this.history.last;
  }

  get place() {
    return this.#stop?.place ?? this.last;
  }

  /** The place of the event that is told of: while all goes on it is the last one of a client, if there is one. */
  get told() {
    if (this.#stop) return this.#stop.told;
    if (this.showsOwn) return this.place;
    return this.history.events.findLast((it) => !isOwn(it))?.place ?? this.place;
  }

  get event() {
    return this.history.at(this.told);
  }

  /** The text of the state after the event that is shown, or undefined where only the answers tell it. */
  get state() {
    return this.#stop ? this.#stop.state : this.#state;
  }

  pause() {
    const { history, place, told, last, state } = this;
    this.#stop = { history, place, told, last, state };
  }

  hold(place) {
    const state = place === this.place ? this.state : undefined;
    this.#stop = { history: this.history, place, told: place, last: this.#stop?.last ?? null, state };
  }

  goOn() {
    this.#stop = null;
  }
}
