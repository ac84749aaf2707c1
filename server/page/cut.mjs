// Long words, cut in the middle. A tooltip has them whole, and so has a click or Enter, which takes it back, too.
import { markup } from "/picture/markup.mjs";
import { short } from "/picture/words.mjs";

const TOOLTIP = 400; // letters: more isn't shown by a browser

/** Words for a place where nothing else can be clicked. */
export function cut(word, most) {
  if (word.length <= most) return word;
  return markup`<span class="cut" role="button" tabindex="0" aria-expanded="false"
    title="${word}">${short(word, most)}</span>`;
}

/** Words for a row that is itself what one clicks, with the tooltip alone. */
export function cutWord(word, most) {
  if (word.length <= most) return word;
  return markup`<span title="${short(word, TOOLTIP)}">${short(word, most)}</span>`;
}

/** Listens in an element for clicks and keys on what is cut there. */
export function openCuts(element) {
  element.addEventListener("click", ({ target }) => turn(target.closest(".cut")));
  element.addEventListener("keydown", (event) => {
    if (event.key !== "Enter" && event.key !== " ") return;
    if (!event.target.matches(".cut")) return;
    event.preventDefault();
    turn(event.target);
  });
}

function turn(element) {
  if (!element) return;
  [element.textContent, element.title] = [element.title, element.textContent];
  element.ariaExpanded = element.ariaExpanded === "true" ? "false" : "true";
}
