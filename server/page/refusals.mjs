// What was refused since the server's start: each name with its count, how often since the last look, and its words.
import { markup } from "/picture/markup.mjs";
import { keep } from "./keep.mjs";
import { saysOf } from "./says.mjs";

export class Refusals {
  #before = new Map(); // name: its count at the last look

  draw(part, { metrics }) {
    const refusals = metrics.named("refusals_total").filter((it) => it.value > 0).sort((a, b) => b.value - a.value);
    const grown = ({ name, value }) => value - (this.#before.get(name) ?? value);
    part("refusals-part").hidden = refusals.length === 0;
    keep(part("refusals"), refusals.map((it) => ({ key: it.name, html: itemOf(it, grown(it)) })));
    this.#before = new Map(refusals.map((it) => [it.name, it.value]));
  }
}

function itemOf({ name, value }, more) {
  const grown = more > 0 && markup` <span class="grown">+${more.toLocaleString("en")}</span>`;
  return markup`<li><b>${name}</b><span class="count">${value.toLocaleString("en")}${grown}</span>
    <span class="says">${saysOf(name)}</span></li>`;
}
