// The command line: a session of the page's own, examples of the guide, and the answers with what they mean.
import { markup } from "/picture/markup.mjs";
import { REFUSALS } from "/picture/picture.mjs";
import { cut, openCuts } from "./cut.mjs";
import { examples, run, shiftAbove } from "./guide.mjs";
import { saysOf } from "./says.mjs";
import { Session } from "./session.mjs";

const MOST = 300; // lines of answers that are kept
const LONGEST = 48; // letters of a word in an answer
const COMMANDS = `begin                  draws a timestamp
begin TS               . is the one that was begun last
get . KEY              scan . LO HI
put . KEY VALUE        del . KEY
commit .               abort .
readat T KEY           scanat T LO HI
open LO HI CURSOR      openinitial LO HI CURSOR
openevery LO HI CURSOR GAP
openinitialevery LO HI CURSOR GAP
poll FEED MAX          cancel FEED
protect T              release ID
close TO               closehard TO
collect TO             stats

LO HI   keys from LO on and below HI; - is no bound`;

export class Commands {
  #part;
  #look;
  #session = new Session(() => this.#drawSession());
  #typed = [];
  #at = 0; // which of the typed lines is shown
  #examples = [];

  /** `part(name)` gives the page's elements, and `look()` asks the server anew and gives what it told. */
  constructor(part, look) {
    this.#part = part;
    this.#look = look;
    part("commands").textContent = COMMANDS;
    part("lines").addEventListener("keydown", (event) => this.#pressed(event));
    part("lines").addEventListener("input", () => fit(part("lines")));
    part("end").onclick = () => this.#session.end();
    part("run").onclick = () => this.#runExample(this.#examples[part("guide").value]);
    openCuts(part("log"));
    this.#offerExamples();
  }

  #pressed(event) {
    const input = event.target;
    if (event.key === "Enter" && !event.shiftKey) {
      event.preventDefault();
      if (input.value.trim() === "") return;
      this.#at = this.#typed.push(input.value);
      const lines = input.value.replace(/\n*$/, "\n");
      this.#fill("");
      this.#say(lines).then(() => this.#look());
    } else if ((event.key === "ArrowUp" || event.key === "ArrowDown") && !input.value.includes("\n")) {
      event.preventDefault();
      this.#at = Math.max(0, Math.min(this.#typed.length, this.#at + (event.key === "ArrowUp" ? -1 : 1)));
      this.#fill(this.#typed[this.#at] ?? "");
    }
  }

  #fill(text) {
    this.#part("lines").value = text;
    fit(this.#part("lines"));
  }

  async #say(lines) {
    try {
      const text = await this.#session.say(lines);
      this.#log(text.split("\n").slice(0, -1).map(answerOf));
      return text;
    } catch (error) {
      this.#log([markup`<p class="no">${error.message}</p>`]);
      return "";
    }
  }

  async #runExample(example) {
    await this.#session.end();
    const { holders } = await this.#look();
    const shift = shiftAbove(holders.server);
    this.#log([markup`<p class="title">${example.title}, its timestamps moved by ${shift}</p>`]);
    await run(example, shift, (lines) => this.#say(lines));
    await this.#look();
  }

  async #offerExamples() {
    this.#examples = await examples();
    const options = this.#examples.map(({ title }, i) => markup`<option value="${i}">${title}</option>`);
    this.#part("guide").innerHTML = markup`${options}`;
  }

  #log(answers) {
    const log = this.#part("log");
    log.insertAdjacentHTML("beforeend", answers.join(""));
    while (log.childElementCount > MOST) log.firstElementChild.remove();
    log.scrollTop = log.scrollHeight;
  }

  #drawSession() {
    this.#part("end").disabled = !this.#session.isOpen;
    this.#part("seat").textContent = this.#session.isOpen ? "has a seat" : "";
  }
}

// A line of an answer: an event, a row or message behind one, or a fault. A refusal has its words below it.
function answerOf(line) {
  const at = line.lastIndexOf(" => ");
  const fault = /^fault \d+ \d+ (\S+)/.exec(line);
  if (fault) return markup`<p class="no">${fault[0]}</p>${says(fault[1])}`;
  if (at < 0 || !/^\d+ \d+ /.test(line)) return markup`<p class="more">${cut(line, 2 * LONGEST)}</p>`;
  const [name, ...details] = line.slice(at + 4).split(" ");
  const isRefused = REFUSALS.has(name);
  const answer = [name, ...details.map((it) => markup` ${cut(it, LONGEST)}`)];
  const command = line.slice(0, at).split(" ").map((it) => markup`${cut(it, LONGEST)} `);
  const told = markup`<p>${command}=&gt; <span class="${isRefused ? "no" : "ok"}">${answer}</span></p>`;
  return markup`${told}${isRefused && says(name)}`;
}

function says(name) {
  const sentence = saysOf(name);
  return sentence && markup`<p class="says">${sentence}</p>`;
}

// As high as its lines.
function fit(area) {
  area.rows = Math.min(8, area.value.split("\n").length);
}
