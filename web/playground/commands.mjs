// Every command of the program: its form, what it does, and an example. A database that has begun 20 takes the examples
// one after the other, and refuses none.

const GROUPS = {
  "A transaction": [
    ["begin TS", "begins a transaction", "begin 10"],
    ["get TS KEY", "reads a key", "get 10 apple"],
    ["scan TS LO HI", "reads the keys of a span", "scan 10 a q"],
    ["put TS KEY VALUE", "writes a value", "put 10 apple 3"],
    ["del TS KEY", "deletes a key", "del 10 pear"],
    ["commit TS", "lets its writes stand", "commit 10"],
    ["abort TS", "takes its writes back", "abort 20"],
  ],
  "Closing, and what stands then": [
    ["close TO", "promises no change up to TO", "close 30"],
    ["closehard TO", "aborts what is undecided there", "closehard 30"],
    ["readat T KEY", "reads a key as it is at T", "readat 10 apple"],
    ["scanat T LO HI", "reads a span as it is at T", "scanat 10 - -"],
  ],
  "A feed": [
    ["open LO HI CURSOR", "tells what is above CURSOR", "open - - 0"],
    ["openinitial LO HI CURSOR", "tells the rows at CURSOR first", "openinitial a q 10"],
    ["openevery LO HI CURSOR GAP", "says resolved once in GAP, at most", "openevery - - 0 100"],
    ["openinitialevery LO HI CURSOR GAP", "does both", "openinitialevery - - 10 100"],
    ["poll FEED MAX", "takes its next messages", "poll 1 100"],
    ["cancel FEED", "ends it", "cancel 1"],
  ],
  "What is kept": [
    ["protect T", "keeps what is read at T and above", "protect 20"],
    ["release ID", "ends a protection", "release 1"],
    ["collect TO", "moves the horizon, up to TO", "collect 20"],
    ["stats", "counts what there is", "stats"],
  ],
};

/** What the words of a form stand for. */
export const WORDS = {
  TS: "a transaction's name, and its place in time: a number from 1 on",
  "T, TO, CURSOR": "a timestamp",
  "LO HI": "keys from LO on and below HI; - is no bound",
  GAP: "a number from 1 on",
  FEED: "the number that a feed got when it was opened",
  MAX: "how many messages at most",
  ID: "the number that a protection got",
};

const BYTES = new Set(["KEY", "VALUE", "LO", "HI"]);

/** The groups in their order: {title, commands}, of which each has a name, its slots, a form, what it does, an example. */
export const COMMANDS = Object.entries(GROUPS).map(([title, rows]) => ({ title, commands: rows.map(commandOf) }));

function commandOf([form, does, example]) {
  const [name, ...slots] = form.split(" ");
  return { name, slots, form, does, example };
}

const byName = new Map(COMMANDS.flatMap(({ commands }) => commands).map((it) => [it.name, it]));

/** The command of this name, or undefined. */
export const commandNamed = (name) => byName.get(name);

/** Whether a number stands in a slot of a form, and else bytes. */
export const isNumber = (slot) => !BYTES.has(slot);

/** The name that somebody may have meant, or undefined: it begins so, or all but a letter or two are the same. */
export function nearTo(word) {
  const meant = word.toLowerCase();
  const names = [...byName.keys()].filter((it) => it[0] === meant[0]);
  const whole = names.find((it) => meant.length > 2 && (it.startsWith(meant) || meant.startsWith(it)));
  return whole ?? names.find((it) => distance(it, meant) <= Math.min(2, it.length - 2));
}

// How many letters have to be put in, taken out or changed to make one word of the other, where that may be a few.
function distance(one, other) {
  if (other.length > 2 * one.length) return Infinity;
  let row = Array.from({ length: other.length + 1 }, (_, i) => i);
  for (const [i, letter] of [...one].entries()) {
    const next = [i + 1];
    for (let j = 1; j < row.length; j++)
      next.push(Math.min(row[j] + 1, next[j - 1] + 1, row[j - 1] + (letter === other[j - 1] ? 0 : 1)));
    row = next;
  }
  return row.at(-1);
}
