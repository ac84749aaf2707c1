// Keys, values and numbers, as a transcript spells them and as the picture shows them.
//
// Inside the picture a key is a string with one character for each byte. So keys compare as the database compares them.

/** The bytes of a word: %20 is one byte, and - is none. */
export function bytesOf(word) {
  if (word === "-") return "";
  return word.replace(/%(..)/g, (_, digits) => String.fromCharCode(parseInt(digits, 16)));
}

/** The word of these bytes. */
export function wordOf(bytes) {
  if (bytes === "") return "-";
  if (bytes === "-") return "%2D";
  return bytes.replace(/[^!-$&-~]/g, (it) => `%${it.charCodeAt(0).toString(16).toUpperCase().padStart(2, "0")}`);
}

/** A word that is longer than there is room for, cut in the middle: keys that begin alike differ at their ends. */
export function short(word, most) {
  return cutBehind(word, halfOf(most), most);
}

const halfOf = (most) => Math.ceil(Math.max(0, most - 1) / 2);

// Of a word that is too long so many first letters, and as many last ones as there is room for.
function cutBehind(word, head, most) {
  if (word.length <= most) return word;
  return `${word.slice(0, head)}…${word.slice(word.length - Math.max(0, most - 1) + head)}`;
}

const BEFORE = 2; // letters that are shown before the place where words differ

/**
 * Words for one list. Each is cut in the middle, behind as many first letters as leave no two alike: of lib/a/12/name
 * and lib/a/13/name with 10 letters l…/12/name, and l…/13/name. Where no number of letters does that, see `apart`.
 */
export function shortened(words, most) {
  const cutBy = (head) => words.map((it) => cutBehind(it, head, most));
  const areApart = (head) => new Set(cutBy(head)).size === words.length;
  const half = halfOf(most);
  let head = half;
  while (head > 0 && !areApart(head)) head--;
  if (head === 0) return apart(words, most);
  const fewer = Math.max(1, head - BEFORE);
  return cutBy(head < half && areApart(fewer) ? fewer : head);
}

// Each is cut as `short` does. Those that would then look alike are shown from where they differ on: of lib/dev/12/name
// and lib/doc/12/name with 8 letters …/dev/1…, and …/doc/1….
function apart(words, most) {
  const shown = new Map(words.map((it) => [it, short(it, most)]));
  const alike = (word) => words.filter((it) => it !== word && shown.get(it) === shown.get(word));
  for (const word of words) {
    const others = alike(word);
    if (others.length === 0) continue;
    const same = [word, ...others];
    const differ = [...word].findIndex((letter, i) => same.some((it) => it[i] !== letter));
    const from = Math.max(0, Math.min(differ < 0 ? word.length : differ, word.length - most + 3) - 2);
    for (const it of same) shown.set(it, `…${ended(it.slice(from), most - 1)}`);
  }
  return words.map((it) => shown.get(it));
}

const ended = (word, most) => (word.length > most ? `${word.slice(0, Math.max(0, most - 1))}…` : word);

/** The word of these bytes, cut to so many letters. What is left out of long ones isn't spelled for it. */
export function shortWordOf(bytes, most) {
  const ends = bytes.length > 2 * most ? bytes.slice(0, most) + bytes.slice(-most) : bytes;
  return short(wordOf(ends), most);
}

/** A long timestamp by its last digits, since neighbours differ there. */
export function brief(ts) {
  const digits = String(ts);
  return digits.length > 10 ? `…${digits.slice(-7)}` : digits;
}

/** A long count by its size. */
export function rough(count) {
  const digits = String(count);
  return digits.length > 10 ? `${digits[0]}.${digits[1]}e${digits.length - 1}` : digits;
}

/** A span in words. An empty bound is none. */
export function spanOf({ lo, hi, isUntold = false }) {
  if (isUntold) return "a span that isn't told here";
  if (lo === "" && hi === "") return "every key";
  if (hi === "") return `keys from ${wordOf(lo)} on`;
  return lo === "" ? `keys below ${wordOf(hi)}` : `keys from ${wordOf(lo)} to below ${wordOf(hi)}`;
}

/** The same where there is little room. */
export function briefSpanOf({ lo, hi, isUntold = false }) {
  if (isUntold) return "span not told";
  return lo === "" && hi === "" ? "every key" : `${lo && wordOf(lo)} … ${hi && wordOf(hi)}`.trim();
}

/** Whether a key lies in a span. */
export function holds({ lo, hi }, key) {
  return lo <= key && (hi === "" || key < hi);
}

/** So many things, with the word for one and for many. */
export function counted(number, one, many = `${one}s`) {
  return `${number} ${Number(number) === 1 ? one : many}`;
}

export const ascending = (a, b) => (a < b ? -1 : a > b ? 1 : 0);
