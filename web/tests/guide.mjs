// What docs/GUIDE.md and examples/ show: transcripts, each with the script that they come of.
import { readFileSync } from "node:fs";

const top = new URL("../../", import.meta.url);
export const read = (name) => readFileSync(new URL(name, top), "utf8");

/** The worked transcripts of the guide, those from position 0 on. */
export function guideTranscripts() {
  const blocks = read("docs/GUIDE.md").split("```").filter((_, i) => i % 2 === 1);
  return blocks.map((it) => it.replace(/^\n/, "")).filter((it) => /^0 \d+ /.test(it));
}

export function exampleTranscripts() {
  return ["first", "replica"].map((name) => read(`examples/${name}.transcript`));
}

/** The lines whose calls a transcript is of. */
export function scriptOf(transcript) {
  return [...transcript.matchAll(/^\d+ (\d+ .*) => .*$/gm)].map((it) => `${it[1]}\n`);
}
