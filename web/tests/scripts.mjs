// Random scripts in which every command comes up, mostly so that it is taken, and some lines are faulty.

/** Numbers below n, drawn anew for each seed. */
function dice(seed) {
  let state = (seed * 2654435761) >>> 0;
  return (n) => {
    state = (Math.imul(state ^ (state >>> 15), 2246822519) + 3266489917) >>> 0;
    return ((state ^ (state >>> 13)) >>> 0) % n;
  };
}

export function randomScript(seed, count) {
  const below = dice(seed);
  const one = (...list) => list[below(list.length)];
  const ts = () => 1 + below(40);
  const key = () => one("a", "b", "c", "d", "%FF", "%2D");
  const bound = () => one("-", "-", "-", "-", "a", "b", "c%00", "%FF");
  const span = () => `${bound()} ${bound()}`;
  const value = () => one("-", `${below(1000)}`, `${"v".repeat(below(30))}${below(1000)}`, "%00%0A");
  const commands = [
    () => `begin ${ts()}`, () => `begin ${ts()}`, () => `begin ${ts()}`, () => `get ${ts()} ${key()}`,
    () => `scan ${ts()} ${span()}`, () => `put ${ts()} ${key()} ${value()}`, () => `put ${ts()} ${key()} ${value()}`,
    () => `del ${ts()} ${key()}`, () => `commit ${ts()}`, () => `commit ${ts()}`, () => `abort ${ts()}`,
    () => `close ${below(45)}`, () => `closehard ${below(12)}`, () => `readat ${below(40)} ${key()}`,
    () => `scanat ${below(40)} ${span()}`, () => `open ${span()} ${below(40)}`,
    () => `openinitial ${span()} ${below(40)}`, () => `openevery ${span()} ${below(40)} ${below(9)}`,
    () => `openinitialevery ${span()} ${below(40)} ${below(9)}`,
    () => `poll ${1 + below(5)} ${below(6)}`,
    () => `poll ${1 + below(5)} ${below(60)}`, () => `cancel ${1 + below(9)}`, () => `protect ${below(40)}`,
    () => `release ${1 + below(6)}`, () => `collect ${below(45)}`, () => "stats",
    () => one("", "begin", "x 1", "put 1 - 1", "put 1 %41 1", "get 01 a"),
  ];
  return Array.from({ length: count }, () => `${below(4)} ${one(...commands)()}\n`);
}
