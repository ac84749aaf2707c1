// Writes index.cjs: the same client for programs that `require` it, as Debian's Node finds packages by name. `npm pack`
// runs it. Each module becomes a function, whose imports and exports are names.

import { readFileSync, writeFileSync } from "node:fs";

const MODULES = ["values", "errors", "addresses", "answers", "feeds", "index"]; // each below those that it imports

function converted(name) {
  const text = readFileSync(new URL(`${name}.js`, import.meta.url), "utf8");
  const exported = [...text.matchAll(/^export (?:async )?(?:const|class|function) (\w+)/gm)].map((one) => one[1]);
  for (const [, names, from] of text.matchAll(/^export (\*|\{.*\}) from "\.\/(\w+)\.js";$/gm)) {
    exported.push(...(names === "*" ? [`...${from}`] : names.match(/\w+/g).map((one) => `${one}: ${from}.${one}`)));
  }
  const body = text
    .replace(/^export (?:\*|\{.*\}) from .*\n/gm, "")
    .replace(/^import (\{.*\}) from "\.\/(\w+)\.js";$/gm, "const $1 = $2;")
    .replace(/^export /gm, "")
    .replace("await import(NODES)", "require(NODES)");
  if (/^(import|export)\b|await import/m.test(body)) throw new Error(`${name}.js has a form that isn't known here`);
  return `const ${name} = (() => {\n${body}\nreturn { ${exported.join(", ")} };\n})();\n`;
}

const all = MODULES.map(converted).join("\n");
writeFileSync(new URL("index.cjs", import.meta.url), `"use strict";\n${all}\nmodule.exports = index;\n`);
