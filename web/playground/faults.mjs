// Why a line made no call, in plain words. The database names the fault, and what is said here points at its place.
import { spell } from "../ripsawbean.mjs";
import { counted, short } from "../picture/words.mjs";
import { commandNamed, isNumber, nearTo } from "./commands.mjs";
import { leaveOut } from "./pasted.mjs";

const GREATEST = 2n ** 64n - 1n; // of all numbers that a line may have
const LONGEST_KEY = 256; // bytes
const LONGEST_TOLD = 40; // letters of a word

const SAYS = {
  wordcount: saysCount, unknowncommand: saysName, number: saysNumber, keylength: saysKey, badbyte: saysSpelling,
  valuelength: () => "A value has 65536 bytes at most.",
  session: () => "A line of a script begins with its session, a number from 0 to 63.",
  linetoolong: () => "A line has 200000 bytes at most.",
  nomemory: () => "There is no memory for it, so no call was made.",
  unwritten: () => "The call was made, but there is no memory for its answer.",
};

/**
 * A fault in plain words, with the command that was meant, where that can be told: {says, command}. `seat` is whose box
 * the line was typed into, and null for a line of a script, which names its own.
 */
export function explain(line, fault, { seat = null, undecided = null } = {}) {
  if (/[^\S ]|  |^ | $/.test(line)) return { says: "One space stands between two words of a line, and none at its ends." };
  const pasted = leaveOut(line, { seat, undecided });
  if (pasted) return pasted;
  const words = line.split(" ").slice(seat === null ? 1 : 0);
  const name = commandNamed(words[0]) ? words[0] : nearTo(words[0] ?? "");
  const command = commandNamed(name);
  return { says: SAYS[fault]?.(words, command) ?? `No call was made: ${fault}.`, command };
}

function saysCount(words, command) {
  if (!command) return "A line has a command behind its session.";
  const { name, slots } = command;
  const given = words.length - 1;
  const wanted = slots.length === 0 ? "no word" : counted(slots.length, "word");
  const space = given > slots.length && slots.some((it) => !isNumber(it)) ? " A space within a word is spelled %20." : "";
  return `${name} takes ${wanted} behind it, and here ${given === 1 ? "is 1" : `are ${given || "none"}`}.${space}`;
}

function saysName([word], command) {
  const meant = command ? `Did you mean ${command.name}?` : "All of them stand below, under Commands.";
  return `No command has the name ${told(word)}. ${meant}`;
}

function saysNumber(words, { slots }) {
  const at = slots.findIndex((it, i) => isNumber(it) && !isTaken(words[i + 1]));
  const word = words[at + 1];
  if (/^0\d+$/.test(word)) return `A number doesn't begin with a zero: write ${told(BigInt(word))} for ${told(word)}.`;
  if (/^\d+$/.test(word)) return `A number is ${GREATEST} at most, and ${told(word)} is greater.`;
  return `${slots[at]} is a number, and ${told(word)} is none.`;
}

const told = (word) => short(`${word}`, LONGEST_TOLD);

const isTaken = (word) => /^(0|[1-9]\d*)$/.test(word) && BigInt(word) <= GREATEST;

function saysKey(words, { slots }) {
  const at = slots.indexOf("KEY") + 1;
  if (at === 0) return `A bound has ${LONGEST_KEY + 1} bytes at most.`;
  return words[at] === "-" ? "A key has 1 byte at least, and - is none. The key - is spelled %2D."
    : `A key has ${LONGEST_KEY} bytes at most.`;
}

// Each list of bytes has one spelling: what is printable stands for itself.
function saysSpelling(words) {
  const wrong = words.find((it) => it !== spell(bytesOf(it)) && it !== "-");
  return wrong === undefined ? "A word spells no bytes." : `Write ${told(spell(bytesOf(wrong)))} for ${told(wrong)}.`;
}

function bytesOf(word) {
  const bytes = (part) => (/^%[0-9a-f]{2}$/i.test(part) ? parseInt(part.slice(1), 16) : [...encoder.encode(part)]);
  return Uint8Array.from((word.match(/%[0-9a-f]{2}|./gisu) ?? []).flatMap(bytes));
}

const encoder = new TextEncoder();
