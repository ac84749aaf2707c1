// The picture of a database's history, for any page. It needs no framework and no network. picture.css has its looks.
//
//     import { draw, historyOf } from "./picture/picture.mjs";
//     const history = historyOf(transcript);           // the text of a transcript, of format one or two
//     draw(element, history);                          // the picture of the last event, in an element that was empty
//     history.add(text);                               // the texts of further events, as ripsawbean_call shows them
//     draw(element, history, { place: 12, state });    // draw anew after each change: the zoom and the choice stay
//
// historyOf(text)                  a History: `events` in their order; `add(text)`; `after(place)`, what is known right
//                                  after the event at that place of the list. A line of no transcript is an Error.
//                                  For one that has no end: `know(..)`, what stood before its events, and
//                                  `since(place)`, the same without the events before
// draw(element, history, options)  draws, and listens in the element for clicks and keys. Each option may be left out:
//     place                        the event after which the database is shown; else the last one
//     state                        the state's text there, as ripsawbean_state writes it; else what the answers tell
//     chosen                       the mark that is chosen from here on, null for none; else the choice stays
//     onChoose(id)                 is called with the mark that was chosen, and with null when none is any more
//     told                         the event whose reason is told, where it is another one
//     isQuiet                      whether the sentence isn't read aloud when it changes: it may change each second
// reasonOf(history, place)         why that event was answered so, in a sentence or two
// stateText(history.after(place))  the text of the state there, from the answers alone
// stateOf(text)                    the lines of a state's text, as objects
// REFUSALS                         the answers that refuse a command
//
// A page may use markup.mjs, words.mjs and seatColour of sheet.mjs, too, for what it shows beside the picture.
//
// Keys, once a mark has the focus: arrows go from mark to mark, Enter tells what a mark means, Escape takes that back,
// + and - zoom, [ and ] go to earlier and later timestamps. Whatever comes from a database is escaped.
import { drawingOf } from "./drawing.mjs";
import { History, REFUSALS } from "./history.mjs";
import { legend } from "./legend.mjs";
import { markup } from "./markup.mjs";
import { panelOf } from "./panel.mjs";
import { reasonOf } from "./reasons.mjs";
import { stateOf, stateText } from "./state.mjs";
import { counted } from "./words.mjs";

export { REFUSALS, reasonOf, stateOf, stateText };

export function historyOf(text = "") {
  return new History(text);
}

const pictures = new WeakMap();

export function draw(element, history, options = {}) {
  if (!pictures.has(element)) pictures.set(element, new Picture(element));
  pictures.get(element).show(history, options);
}

const ROOM_OF_A_POINT = 27; // pixels for a timestamp, on the average, before anybody zooms
const FEWEST = 6; // timestamps, however little room there is
const CLOSEST = 3; // timestamps, however often one zooms
const LEAST_WIDTH = 300; // pixels
const KEYS = 8; // lanes of keys, before anybody asks for more
const FEEDS = 4; // lanes of feeds, before anybody asks for more

class Picture {
  #element;
  #history;
  #options;
  #drawing;
  #width; // of the drawing, in pixels
  #zoom; // {count, later}: how many timestamps are shown, null for as many as fit; and how many are left out after them
  #mostKeys;
  #mostFeeds;
  #chosen; // the id of the mark that is told of, or null
  #at; // the id of the mark that keys begin at

  constructor(element) {
    this.#element = element;
    element.classList.add("picture");
    element.innerHTML = markup`<p class="sentence" aria-live="polite"></p>
      <div class="zoom" role="group" aria-label="zoom"></div>
      <div class="drawing"></div>${legend()}<div class="state"></div>`;
    element.addEventListener("click", (event) => this.#clicked(event));
    element.addEventListener("keydown", (event) => this.#pressed(event));
    new ResizeObserver(() => this.#history && this.#width !== this.#fullWidth() && this.#render()).observe(element);
  }

  show(history, options) {
    if (history.story !== this.#history?.story) {
      [this.#mostKeys, this.#mostFeeds] = [KEYS, FEEDS];
      [this.#zoom, this.#chosen, this.#at] = [{ count: null, later: 0 }, null, null];
    }
    this.#part("sentence").ariaLive = options.isQuiet ? "off" : "polite";
    if (options.chosen !== undefined) this.#chosen = options.chosen;
    this.#history = history;
    this.#options = options;
    this.#render();
  }

  #fullWidth() {
    return Math.max(LEAST_WIDTH, this.#part("drawing").clientWidth);
  }

  #part(name) {
    return this.#element.querySelector(`.${name}`);
  }

  #render() {
    const place = this.#options.place ?? this.#history.last;
    const moment = this.#history.after(place);
    const state = stateOf(this.#options.state ?? stateText(moment));
    const hasFocus = this.#part("drawing").contains(document.activeElement);
    this.#width = this.#fullWidth();
    const fitting = (pixels) => Math.max(FEWEST, Math.floor(pixels / ROOM_OF_A_POINT));
    const zoom = (pixels) => ({ count: this.#zoom.count ?? fitting(pixels), later: this.#zoom.later });
    const most = { mostKeys: this.#mostKeys, mostFeeds: this.#mostFeeds };
    this.#drawing = drawingOf(this.#history, moment, state, { width: this.#width, zoom, ...most });
    this.#part("drawing").innerHTML = this.#drawing.svg;
    this.#drawZoom();
    this.#part("state").innerHTML = panelOf(state);
    this.#markAt(hasFocus);
    this.#tell(this.#options.told ?? place);
  }

  // A button that has the focus keeps it: a picture may be drawn anew more often than one goes on by Tab.
  #drawZoom() {
    const bar = this.#part("zoom");
    const how = bar.contains(document.activeElement) ? document.activeElement.dataset.zoom : null;
    bar.innerHTML = zoomOf(this.#drawing, this.#zoom);
    if (how) bar.querySelector(`[data-zoom=${how}]:enabled`)?.focus();
  }

  // Tab reaches one mark, and the arrows go on from there.
  #markAt(hasFocus) {
    const { marks } = this.#drawing;
    if (!marks.some((it) => it.id === this.#at)) this.#at = marks.at(-1)?.id ?? null;
    for (const it of this.#element.querySelectorAll(".mark")) {
      const isAt = it.dataset.mark === this.#at;
      it.tabIndex = isAt ? 0 : -1;
      it.classList.toggle("chosen", it.dataset.mark === this.#chosen);
      if (isAt && hasFocus) it.focus();
    }
  }

  // The sentence of the mark that was chosen, or else of the event that is told of.
  #tell(place) {
    const mark = this.#drawing.marks.find((it) => it.id === this.#chosen);
    const reason = () => (this.#history.at(place) ? reasonOf(this.#history, place) : "Nothing has happened yet.");
    const sentence = mark ? mark.meaning() : reason();
    const element = this.#part("sentence");
    if (element.textContent !== sentence) element.textContent = sentence;
  }

  // A mark that is chosen again isn't any more.
  #choose(id) {
    this.#chosen = id === this.#chosen ? null : id;
    this.#at = id ?? this.#at;
    this.#render();
    this.#options.onChoose?.(this.#chosen);
  }

  #clicked(event) {
    const button = event.target.closest("[data-zoom]");
    const mark = event.target.closest(".mark");
    if (mark) this.#choose(mark.dataset.mark);
    if (!button) return;
    this.#zoomBy(button.dataset.zoom);
    this.#part("zoom").querySelector(`[data-zoom=${button.dataset.zoom}]:enabled`)?.focus();
  }

  #pressed(event) {
    if (!event.target.closest(".mark") || event.ctrlKey || event.metaKey || event.altKey) return;
    if (event.key in STEPS) this.#go(STEPS[event.key]);
    else if (event.key in ZOOMS) this.#zoomBy(ZOOMS[event.key]);
    else if (event.key === "Enter" || event.key === " ") this.#choose(this.#at);
    else if (event.key === "Escape") this.#choose(null);
    else return;
    event.preventDefault();
  }

  // To the next mark of the lane, or to the nearest one of the next lane.
  #go({ marks: along, lanes: across }) {
    const { marks } = this.#drawing;
    const from = marks.find((it) => it.id === this.#at);
    const lane = marks.filter((it) => it.lane === from.lane + across).sort((a, b) => a.x - b.x);
    const to = across ? nearestTo(from.x, lane) : lane[lane.indexOf(from) + along];
    if (!to) return;
    this.#at = to.id;
    this.#markAt(true);
  }

  #zoomBy(how) {
    const { axis } = this.#drawing;
    const shown = axis.points.length;
    const half = Math.ceil(shown / 2);
    const zoom = this.#zoom;
    if (how === "closer") zoom.count = Math.max(CLOSEST, half);
    if (how === "wider") zoom.count = 2 * shown;
    if (how === "all") this.#zoom = { count: Infinity, later: 0 };
    if (how === "earlier") zoom.later += Math.min(axis.before, half);
    if (how === "later") zoom.later = Math.max(0, zoom.later - half);
    if (how === "keys") this.#mostKeys *= 2;
    if (how === "feeds") this.#mostFeeds *= 2;
    this.#render();
  }
}

const STEPS = {
  ArrowLeft: { marks: -1, lanes: 0 }, ArrowRight: { marks: 1, lanes: 0 },
  ArrowUp: { marks: 0, lanes: -1 }, ArrowDown: { marks: 0, lanes: 1 },
};
const ZOOMS = { "+": "closer", "=": "closer", "-": "wider", "[": "earlier", "]": "later" };

function nearestTo(x, marks) {
  return marks.toSorted((a, b) => Math.abs(a.x - x) - Math.abs(b.x - x))[0];
}

// The buttons, where the history is too long to be drawn whole, and what isn't shown.
function zoomOf({ axis, keysLeft, feedsLeft }, { count }) {
  const hidden = axis.before + axis.after;
  const button = (how, word, name, isUseful) => markup`<button type="button" data-zoom="${how}" title="${name}"
    aria-label="${name}" ${!isUseful && "disabled"}>${word}</button>`;
  const times = [
    button("earlier", "‹", "earlier timestamps", axis.before > 0),
    button("later", "›", "later timestamps", axis.after > 0),
    button("closer", "+", "closer: fewer timestamps", axis.points.length > CLOSEST),
    button("wider", "−", "wider: more timestamps", hidden > 0),
    button("all", "all", "all timestamps", hidden > 0),
    markup`<span>${hidden > 0 ? `${counted(hidden, "timestamp")} not shown` : "all timestamps shown"}</span>`,
  ];
  const more = (left, one) => left > 0 && [
    button(`${one}s`, `more ${one}s`, `more ${one}s`, true), markup`<span>${counted(left, one)} not shown</span>`,
  ];
  return markup`${(hidden > 0 || count !== null) && times}${more(keysLeft, "key")}${more(feedsLeft, "feed")}`;
}
