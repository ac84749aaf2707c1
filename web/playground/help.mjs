// The list of all commands.
import { markup } from "../picture/markup.mjs";
import { COMMANDS, WORDS } from "./commands.mjs";

const WIDE = 16; // letters: what is longer takes a line of its own

export function help() {
  const groups = COMMANDS.map(({ title, commands }) => {
    const rows = commands.map(({ form, does }) => row(form, does));
    return markup`<h3>${title}</h3><dl>${rows}</dl>`;
  });
  const words = Object.entries(WORDS).map(([word, meaning]) => row(word, meaning));
  return markup`${groups}<h3>Words</h3><dl>${words}</dl>
    <p>A feed's messages spell keys and values in base64: <code>YXBwbGU=</code> is apple.</p>`;
}

function row(term, meaning) {
  return markup`<dt class="${term.length > WIDE && "wide"}">${term}</dt><dd>${meaning}</dd>`;
}
