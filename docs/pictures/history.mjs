#!/usr/bin/env node
// `docs/pictures/history.mjs` draws the history of history.transcript as the playground does, as history.svg, which
// follows the reader's light or dark colours. web/test says where it is another picture.
import { readFileSync, writeFileSync } from "node:fs";
import { argv } from "node:process";
import { fileURLToPath } from "node:url";
import { drawingOf } from "../../web/picture/drawing.mjs";
import { historyOf, stateOf, stateText } from "../../web/picture/picture.mjs";

const WIDTH = 760;
const TITLE =
  "Transactions of two sessions, versions of two keys, and a feed that has told all that is closed, up to 30";
const at = (name) => new URL(name, import.meta.url);
const read = (name) => readFileSync(at(name), "utf8");

/** The rules of the picture's style sheet that speak of the drawing, and its colours. */
function style() {
  const sheet = read("../../web/picture/picture.css").replace(/\/\*.*?\*\//gs, "");
  const colours = sheet.slice(sheet.indexOf(":root"), sheet.indexOf(".picture {"));
  const rules = sheet.slice(sheet.indexOf(".picture svg {"), sheet.indexOf(".picture .mark {"));
  return colours + rules;
}

export function drawn() {
  const history = historyOf(read("history.transcript"));
  const moment = history.after(history.events.length - 1);
  const zoom = () => ({ count: Infinity, later: 0 });
  const shown = { zoom, width: WIDTH, mostKeys: 8, mostFeeds: 4 };
  const { svg } = drawingOf(history, moment, stateOf(stateText(moment)), shown);
  // What serves a pointer or a reader of marks has no use in a picture that stands still.
  const still = `${svg}`.replace(/\s+(?:tabindex|role|data-mark|aria-\w+)="[^"]*"/g, "")
    .replace(/<title>.*?<\/title>|<(?:rect|circle|line) class="hit"[^>]*\/>/gs, "");
  const height = Number(/height="(\d+)"/.exec(still)[1]) + 16;
  return `<svg xmlns="http://www.w3.org/2000/svg" class="picture" width="${WIDTH}" height="${height}"
  viewBox="0 0 ${WIDTH} ${height}" role="img" aria-label="${TITLE}">
<style>${style()}</style>
<rect width="100%" height="100%" style="fill: var(--paper)"/>
${still.replace("<svg", '<svg y="8"')}
</svg>
`;
}

if (argv[1] === fileURLToPath(import.meta.url)) writeFileSync(at("history.svg"), drawn());
