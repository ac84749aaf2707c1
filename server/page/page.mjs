// The page: numbers, who holds what, the picture of the live database, its events, a line to type commands, and rows.
//
// It asks the server each second while it is seen. What was told is drawn by animation frame, a part each (frames.mjs).
import { draw } from "/picture/picture.mjs";
import { Commands } from "./commands.mjs";
import { Events } from "./events.mjs";
import { Frames } from "./frames.mjs";
import { Holders } from "./holders.mjs";
import { Live } from "./live.mjs";
import { Refusals } from "./refusals.mjs";
import { Rows } from "./rows.mjs";
import { View } from "./view.mjs";
import { Vitals } from "./vitals.mjs";

const EVERY = 1000; // milliseconds between two looks

const part = (id) => document.getElementById(id);

class Page {
  #live = new Live();
  #view = new View(this.#live.history);
  #frames = new Frames();
  #vitals = new Vitals();
  #holders = new Holders(part);
  #refusals = new Refusals();
  #events;
  #shown = null; // what the picture was drawn of
  #listed = null; // what the list was drawn of

  constructor() {
    const change = (how) => () => this.#change(how);
    this.#events = new Events(part, {
      onShow: (place) => this.#change((view) => view.hold(place)),
      onLast: change((view) => view.goOn()),
    });
    part("own").onchange = change((view) => (view.showsOwn = part("own").checked));
    new Commands(part, () => this.#look());
    new Rows(part);
    part("pause").onclick = () => this.#turn();
    document.addEventListener("visibilitychange", () => this.#look());
    document.addEventListener("keydown", (event) => this.#pressed(event));
    this.#look();
    setInterval(() => this.#look(), EVERY);
  }

  // ---- what the server tells

  async #look() {
    if (document.hidden) return this.#live;
    try {
      await this.#live.refresh();
    } catch (error) {
      this.#tell(`the server doesn't answer: ${error.message}`, false);
      return this.#live;
    }
    const { identity, shouts } = this.#live.holders.server;
    const wrong = "an answer wasn't the one that had to come: look at the server's standard error";
    this.#tell(shouts > 0 ? wrong : `database ${identity}`, shouts === 0);
    this.#vitals.take(performance.now(), this.#live);
    this.#view.follow(this.#live.history, this.#live.state);
    this.#frames.ask("vitals", () => this.#vitals.draw(part("vitals"), this.#live));
    this.#frames.ask("holders", () => this.#holders.draw(this.#live.holders));
    this.#frames.ask("refusals", () => this.#refusals.draw(part, this.#live));
    this.#draw();
    return this.#live;
  }

  #tell(status, isLive) {
    if (part("status").textContent !== status) part("status").textContent = status;
    part("status").classList.toggle("live", isLive);
  }

  // ---- which event is shown

  #turn() {
    this.#change((view) => (view.isStopped ? view.goOn() : view.pause()));
  }

  // A mark that is chosen stays in the picture: the view stops for it.
  #chose(id) {
    if (id !== null && !this.#view.isStopped) this.#change((view) => view.pause());
  }

  #change(how) {
    how(this.#view);
    this.#draw();
  }

  #pressed(event) {
    if (event.target.matches("textarea, select, #prefix") || event.ctrlKey || event.metaKey || event.altKey) return;
    const act = { "/": () => part("lines").focus(), p: () => this.#turn(), P: () => this.#turn() }[event.key];
    if (!act) return;
    event.preventDefault();
    act();
  }

  // ---- drawing

  #draw() {
    this.#frames.ask("picture", () => {
      this.#drawStanding();
      this.#drawPicture();
    });
    this.#frames.ask("events", () => this.#drawEvents());
  }

  #drawStanding() {
    const { isStopped, isPaused, event } = this.#view;
    const newer = event ? Number(this.#live.holders?.server.next ?? 0) - 1 - Number(event.position) : 0;
    const stands = isPaused ? "paused" : isStopped ? "held" : "live";
    if (part("view").textContent !== stands) part("view").textContent = stands;
    part("view").classList.toggle("live", !isStopped);
    part("newer").textContent = isStopped && newer > 0 ? `${newer.toLocaleString("en")} newer` : "";
    part("pause").firstChild.textContent = isStopped ? "Back to now" : "Pause";
    part("picture").classList.toggle("then", isStopped);
    const line = event ? lineOf(event) : "no event is kept";
    if (part("moment").textContent !== line) part("moment").textContent = line;
  }

  // What hasn't changed isn't drawn anew, so that it can be read and selected.
  #drawPicture() {
    const { history, place, told, state, isStopped } = this.#view;
    const shown = [history.story, history.first, place, told, state, isStopped].map(String).join();
    if (shown === this.#shown) return;
    this.#shown = shown;
    const choice = { onChoose: (id) => this.#chose(id), ...(!isStopped && { chosen: null }) };
    draw(part("picture"), history, { place, told, state, isQuiet: !isStopped, ...choice });
  }

  #drawEvents() {
    const { history, told, last, showsOwn, isStopped } = this.#view;
    const listed = [history.story, history.first, told, last, showsOwn, isStopped].map(String).join();
    if (listed === this.#listed) return;
    this.#listed = listed;
    this.#events.show(this.#view);
  }
}

function lineOf({ position, seat, command, words, answer, details }) {
  return [position, seat, command, ...words, "=>", answer, ...details].join(" ");
}

new Page();
