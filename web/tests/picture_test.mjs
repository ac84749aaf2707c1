// The picture without a browser: what it reads of a transcript, the state that it tells, its sentences, and its drawing
// as text. The states were written by hand from their definitions. web/test runs it.
import assert from "node:assert/strict";
import { readdirSync } from "node:fs";
import test from "node:test";
import { Axis } from "../picture/axis.mjs";
import { drawn as drawnOfReadme } from "../../docs/pictures/history.mjs";
import { drawingOf } from "../picture/drawing.mjs";
import { markup } from "../picture/markup.mjs";
import { historyOf, reasonOf, stateOf, stateText } from "../picture/picture.mjs";
import { panelOf } from "../picture/panel.mjs";
import { bytesOf, short, shortened, wordOf } from "../picture/words.mjs";
import { exampleTranscripts, guideTranscripts, read } from "./guide.mjs";

const last = (history) => history.after(history.events.length - 1);
const zoom = () => ({ count: Infinity, later: 0 });

function drawn(transcript, options = {}) {
  const history = historyOf(transcript);
  const moment = last(history);
  return drawingOf(history, moment, stateOf(stateText(moment)), { zoom, width: 800, mostKeys: 8, mostFeeds: 4, ...options });
}

test("the state of each worked transcript, byte for byte", () => {
  const names = readdirSync(new URL("states", import.meta.url)).filter((it) => it.endsWith(".transcript"));
  assert.equal(names.length, 10);
  for (const name of names) {
    const state = read(`web/tests/states/${name.replace("transcript", "state")}`);
    assert.equal(stateText(last(historyOf(read(`web/tests/states/${name}`)))), state, name);
  }
});

test("the README's picture is that of its transcript", () => {
  assert.equal(drawnOfReadme(), read("docs/pictures/history.svg"));
});

test("a state's text as objects", () => {
  const { database, transactions, protections, feeds } = stateOf(read("web/tests/states/ties.state"));
  const { holder, holder_number, limit, oldest } = database;
  assert.deepEqual([holder, holder_number, limit, oldest], ["protection", 2n, 6n, null]);
  assert.deepEqual([transactions.length, protections.length, feeds.length], [0, 2, 2]);
  assert.deepEqual([feeds[1].hi, feeds[1].lo, feeds[1].initial, feeds[1].gap], ["c", null, false, 4n]);
});

test("each event of the guide has a sentence, and each mark a meaning", () => {
  for (const it of [...guideTranscripts(), ...exampleTranscripts()]) {
    const history = historyOf(it);
    for (const { place } of history.events) {
      assert.match(reasonOf(history, place), /^\S.*\.$/, `${place} of\n${it}`);
      assert.doesNotMatch(reasonOf(history, place), /undefined|null|NaN/);
    }
    for (const mark of drawn(it).marks) assert.match(mark.meaning(), /^\S.*\.$/, mark.id);
  }
});

test("a moment in the middle is the end of a shorter transcript", () => {
  for (const it of guideTranscripts()) {
    const history = historyOf(it);
    last(history);
    for (let place = history.events.length - 1; place >= 0; place--) {
      const shorter = history.events.slice(0, place + 1).map(textOf).join("");
      assert.equal(stateText(history.after(place)), stateText(last(historyOf(shorter))));
    }
  }
});

// An event's text, without the rows of a scan, which change nothing.
function textOf({ position, seat, command, words, answer, details, messages }) {
  const told = messages.map((it) => ("resolved" in it ? { resolved: `${it.resolved}` }
    : { after: it.value === null ? null : btoa(it.value), key: btoa(it.key), updated: `${it.ts}` }));
  const first = [position, seat, command, ...words, "=>", answer, ...details].join(" ");
  return [first, ...told.map((it) => JSON.stringify(it)), ""].join("\n");
}

test("why a write came too late", () => {
  const history = historyOf(guideTranscripts().find((it) => it.includes("3 0 put 10 a 1 => toolate")));
  const why = /^Transaction 20 has read a and found nothing\. A write at 10 would make that answer wrong/;
  assert.match(reasonOf(history, 3), why);
  assert.match(reasonOf(history, 4), /^Transaction 10 was aborted when its write of a came too late/);
});

test("what is drawn of a story", () => {
  const { marks, svg } = drawn(read("web/tests/states/lagging.transcript"));
  const ids = marks.map((it) => it.id);
  const wanted = ["closed", "horizon", "transaction 5", "version a 10", "cursor 1", "row 1 a 10"];
  for (const id of wanted) assert.ok(ids.includes(id), id);
  assert.ok(!ids.some((it) => it.startsWith("resolved")));
  assert.match(`${svg}`, /21 behind/);
  const meaning = marks.find((it) => it.id === "version a 5").meaning();
  assert.match(meaning, /^a is 1 from 5 on, until 10, .* never change\.$/);
});

test("a read keeps writes out from the version that it found", () => {
  const { marks } = drawn("0 0 begin 5 => started\n1 0 put 5 a 1 => written\n2 0 commit 5 => committed 1\n" +
    "3 1 begin 9 => started\n4 1 get 9 a => value 1\n5 1 get 9 b => none\n");
  const meaning = (id) => marks.find((it) => it.id === id).meaning();
  assert.match(meaning("read a 5 9"), /no write of a between 5 and 9/);
  assert.match(meaning("read b 0 9"), /found nothing, so no write of b below 9/);
});

// Session 0 writes a at 12 and then at 5. Session 1 reads it at 15 and at 9, and its own write of b.
const STORY = `0 0 begin 12 => started
1 0 put 12 a 2 => written
2 0 commit 12 => committed 1
3 0 begin 5 => started
4 0 put 5 a 1 => written
5 0 commit 5 => committed 1
6 1 begin 15 => started
7 1 get 15 a => value 2
8 1 begin 9 => started
9 1 get 9 a => value 1
10 0 begin 7 => started
11 0 put 7 a 3 => toolate
12 1 put 15 b 4 => written
13 1 get 15 b => value 4
14 1 commit 9 => committed 0
15 1 commit 15 => committed 1
16 0 close 20 => closed 20 0
17 0 readat 18 a => value 2
18 0 collect 12 => collected 12 1
`;

test("versions stand by their timestamps, and reads by what they found", () => {
  const ids = drawn(STORY).marks.map((it) => it.id);
  const wanted = ["version a 5", "version a 12", "read a 5 9", "read a 12 15", "refusal 11", "version b 15"];
  assert.deepEqual(ids.filter((it) => /^(version|read|refusal)/.test(it)), wanted);
});

test("the reader that kept a write out is named, and the refusal stays in the picture", () => {
  assert.match(reasonOf(historyOf(STORY), 11), /^Transaction 9 has read a and found the version of 5\. A write at 7 /);
});

test("a version is dead from the horizon on at which another replaces it", () => {
  const { marks, svg } = drawn(STORY);
  const meaning = (id) => marks.find((it) => it.id === id).meaning();
  assert.match(meaning("version a 5"), /the version of 12 is read there in its place\.$/);
  assert.match(meaning("version a 12"), /^a is 2 from 12 on, and no later version is committed so far\./);
  assert.equal(`${svg}`.match(/version dead/g).length, 1);
  assert.equal(stateOf(stateText(last(historyOf(STORY)))).database.versions, 2n);
});

test("a version stays as far as it is closed, and above closed a write may come in", () => {
  const meaning = (text, id) => drawn(text).marks.find((it) => it.id === id).meaning();
  assert.match(meaning(STORY, "version a 12"), /Up to closed, 20, this will never change\. Above closed a write may/);
  const earlier = STORY.slice(0, STORY.indexOf("16 0 close")) + "16 0 close 6 => closed 6 0\n";
  assert.match(meaning(earlier, "version a 5"), /until 12, .* Up to closed, 6, this will never change\./);
  assert.match(meaning(earlier, "version a 12"), /It isn't closed yet/);
});

test("what the consumer of a feed has where it says resolved", () => {
  const told = (command) => reasonOf(historyOf("0 0 close 9 => closed 9 0\n" +
    `1 0 ${command} => opened 1\n2 0 poll 1 10 => messages 1\n{"resolved":"9"}\n`), 2);
  assert.match(told("open - - 0"), /Its consumer now has the whole map of 9 for every key\.$/);
  assert.match(told("openinitial k q 5"), /Its consumer now has the whole map of 9 for keys from k to below q\.$/);
  assert.match(told("openinitialevery - - 5 3"), /Its consumer now has the whole map of 9 for every key\.$/);
  assert.match(told("open - - 5"), /A consumer that had the map of 5 now has the whole map of 9 for every key\.$/);
});

test("keys and values are escaped, and spelled as in the transcript", () => {
  const { svg } = drawn("0 0 begin 5 => started\n1 0 put 5 <b>&\"' <i> => written\n2 0 put 5 %FF => => written\n");
  assert.doesNotMatch(`${svg}`, /<b>|<i>/);
  assert.match(`${svg}`, />%FF</);
  const link = markup`<a title="${'"'}">${["<", markup`<br>`, null, false, 0]}</a>`;
  assert.equal(`${link}`, '<a title="&#34;">&#60;<br>0</a>');
  for (const word of ["-", "%2D", "a%20b", "%FF%00", "x-y"]) assert.equal(wordOf(bytesOf(word)), word);
});

test("a long history is drawn by its last part", () => {
  const begun = Array.from({ length: 500 }, (_, i) => `${i} 0 begin ${3 * i + 1} => started\n`).join("");
  const { axis, marks } = drawn(begun, { zoom: () => ({ count: 20, later: 0 }) });
  assert.deepEqual([axis.points.length, axis.before, axis.after, axis.points.at(-1)], [20, 481, 0, 1498n]);
  assert.equal(marks.length, 20);
  const earlier = drawn(begun, { zoom: () => ({ count: 20, later: 30 }) });
  assert.deepEqual([earlier.axis.points.at(-1), earlier.axis.after], [1408n, 30]);
});

test("timestamps stand in their order, to scale where that can be read", () => {
  for (const points of [[1n, 2n, 3n], [1n, 2n, 10n ** 18n], [5n], []]) {
    const axis = new Axis(points, zoom(), 100, 700);
    const places = [0n, ...points].map((it) => axis.x(it));
    assert.deepEqual(places, places.toSorted((a, b) => a - b));
    assert.ok(places[0] === 100 && places.at(-1) <= 700);
    assert.equal(axis.isToScale, points.at(-1) !== 10n ** 18n);
  }
});

test("a line of no transcript is an error, and adds nothing", () => {
  const history = historyOf("mvfeed 2\n0 0 begin 5 => started\n");
  assert.throws(() => history.add("1 0 commit 5 => committed 0\nwhat\n"), /no line of a transcript: what/);
  assert.equal(history.events.length, 1);
  history.add("fault 2 1 wordcount\n");
  assert.equal(history.fault, "fault 2 1 wordcount");
});

test("a transcript that begins in the middle is drawn as far as it goes", () => {
  const { marks } = drawn("15 1 get 26 pear => value 5\n16 1 del 26 kiwi => written\n17 1 commit 26 => committed 1\n" +
    '19 0 close 28 => closed 28 0\n20 2 poll 1 10 => messages 2\n{"after":null,"key":"a2l3aQ==","updated":"26"}\n' +
    '{"resolved":"28"}\n21 0 put 29 a 1 => written\n22 0 release 7 => released\n23 3 cancel 4 => cancelled\n');
  const ids = marks.map((it) => it.id);
  const wanted = ["version kiwi 26", "row 1 kiwi 26", "resolved 1 28", "transaction 29"];
  for (const id of wanted) assert.ok(ids.includes(id), id);
  for (const mark of marks) assert.doesNotMatch(mark.meaning(), /undefined|null/);
});

// A feed of old, whose opening the transcript doesn't have: three rows of it, and then it is resolved.
const MIDDLE = `900 5 begin 40 => started
901 5 put 40 meta/a 1 => written
902 5 commit 40 => committed 1
903 63 close 40 => closed 40 0
904 63 poll 7 10 => messages 2
{"after":"MQ==","key":"bWV0YS9h","updated":"40"}
{"resolved":"40"}
`;
const OLD = { number: "7", seat: 63, opened: "openinitial meta/ meta0 12", floor: "40" };

test("a feed that was opened before the transcript has the span that it was opened for", () => {
  const history = historyOf(MIDDLE);
  assert.match(reasonOf(history, 4), /now has the whole map of 40 for a span that isn't told here\.$/);
  assert.doesNotMatch(`${drawn(MIDDLE).svg}`, /every key/);
  history.know({ feeds: [OLD] });
  assert.match(reasonOf(history, 4), /Its consumer now has the whole map of 40 for keys from meta\/ to below meta0\.$/);
  const [feed] = stateOf(stateText(history.after(4))).feeds;
  assert.deepEqual([feed.lo, feed.hi, feed.cursor, feed.initial, feed.floor], ["meta/", "meta0", 12n, true, 40n]);
  const [before] = stateOf(stateText(history.after(3))).feeds;
  assert.deepEqual([before.lo, before.floor, before.behind], ["meta/", 39n, 1n]);
});

test("what is told of a feed doesn't change what its opening in the transcript says", () => {
  const history = historyOf("0 1 open a b 0 => opened 7\n");
  history.know({ feeds: [OLD] });
  assert.equal(history.after(0).feeds.get("7").lo, "a");
});

test("what stood before the transcript is there from its first event on, and what was released isn't", () => {
  const history = historyOf("8 1 release 3 => released\n9 1 begin 50 => started\n");
  const protections = [{ number: "3", timestamp: "20" }, { number: "4", timestamp: "21" }];
  history.know({ feeds: [{ ...OLD, floor: "30" }], protections, transactions: [{ timestamp: "44", seat: 2 }] });
  const { transactions, protections: stand, feeds } = stateOf(stateText(history.after(0)));
  assert.deepEqual([transactions.map((it) => it.timestamp), stand.map((it) => it.number)], [[44n], [4n]]);
  assert.deepEqual([feeds.length, feeds[0].floor], [1, 12n]); // closed isn't told yet, and no floor is below its cursor
});

test("a history without its first events knows what they left, and places stay", () => {
  const whole = historyOf(STORY + "19 0 open a c 3 => opened 1\n20 0 begin 30 => started\n21 0 put 30 a 9 => written\n" +
    "22 0 close 40 => closed 29 0\n23 0 poll 1 9 => messages 1\n" + '{"resolved":"29"}\n24 0 commit 30 => committed 1\n');
  const later = whole.since(24);
  assert.deepEqual([later.events.length, later.first, later.last, later.story], [1, 24, 24, whole.story]);
  const [before, after] = [later.after(23), whole.after(23)];
  const known = (moment) => [moment.closed, moment.horizon, moment.undecided().map((it) => it.ts)];
  assert.deepEqual(known(before), known(after));
  assert.deepEqual(stateOf(stateText(before)).feeds, stateOf(stateText(after)).feeds);
  assert.match(reasonOf(later, 24), /^Transaction 30 is committed: what it wrote, 1 key, /);
  assert.equal(later.after(24).transactions.get(30n).standing, "committed");
  assert.equal(whole.after(23).transactions.get(30n).standing, "undecided");
  later.add("25 0 begin 31 => started\n");
  assert.equal(later.at(25).place, 25);
  assert.equal(whole.last, 24);
});

test("live feeds come before cancelled ones, and what has no room is counted", () => {
  const opened = [1, 2, 3, 4, 5].map((it) => `${it} 0 open ${it} - 0 => opened ${it}\n`).join("");
  const told = (it) => `10 0 poll ${it} 9 => messages 1\n{"resolved":"9"}\n`;
  const gone = "11 0 cancel 1 => cancelled\n12 0 cancel 2 => cancelled\n";
  const text = `0 0 close 9 => closed 9 0\n${opened}${told(1)}${told(2)}${gone}`;
  const lanes = (most) => {
    const { svg, feedsLeft } = drawn(text, { mostFeeds: most });
    return [`${svg}`.match(/(?<=<title>feed )\d/g).join(""), feedsLeft];
  };
  assert.deepEqual(lanes(8), ["34512", 0]);
  assert.deepEqual(lanes(4), ["3452", 1]);
  assert.deepEqual(lanes(2), ["34", 3]);
});

test("keys of one list are cut in the middle so that they stay apart", () => {
  const names = ["12/name", "13/name", "13/street"].map((it) => `customers/${it}`);
  assert.deepEqual(shortened(names, 12), ["cus…/12/name", "cus…/13/name", "cus…3/street"]);
  assert.deepEqual(shortened(["lib/a/12/name", "lib/a/13/name"], 10), ["l…/12/name", "l…/13/name"]);
  assert.deepEqual(shortened(["lib/12/a-long-end", "low/12/a-long-end"], 9), ["lib/…-end", "low/…-end"]);
  assert.deepEqual(shortened(["lib/dev/12/name", "lib/doc/12/name"], 8), ["…/dev/1…", "…/doc/1…"]);
  assert.deepEqual(shortened(["apple", "a-word-of-18-letters"], 18), ["apple", "a-word-of…-letters"]);
  for (let most = 1; most < 20; most++)
    for (const it of shortened(names, most)) assert.ok(it.length <= Math.max(2, most), `${it} has room for ${most}`);
});

// Three keys that end differently, and what a feed told of them.
const LONG_KEYS = ["17/name", "17/street", "18/name"].map((it) => `customers/europe/${it}`);
const LONG_STORY = "0 0 begin 10 => started\n" +
  LONG_KEYS.map((it, i) => `${i + 1} 0 put 10 ${it} a-value-that-is-long => written\n`).join("") +
  "4 0 commit 10 => committed 3\n5 0 close 15 => closed 15 0\n6 1 open - - 0 => opened 1\n" +
  "7 1 poll 1 9 => messages 4\n" +
  LONG_KEYS.map((it) => `${JSON.stringify({ after: "Mw==", key: btoa(it), updated: "10" })}\n`).join("") +
  '{"resolved":"15"}\n';

test("a key that is cut has its ends, and is whole in its tooltip and for whoever has it read aloud", () => {
  const { svg } = drawn(LONG_STORY, { width: 354 });
  const lanes = [...`${svg}`.matchAll(/<text class="name"([^>]*)>\s*(\S+)<title>(\S+)<\/title>/g)];
  const keys = lanes.filter((it) => LONG_KEYS.includes(it[3]));
  assert.deepEqual(keys.map((it) => it[2]), ["cus…/17/name", "cus…7/street", "cus…/18/name"]);
  for (const [, attributes, , whole] of keys) assert.ok(attributes.includes(` role="img" aria-label="${whole}"`));
  const rows = [...`${svg}`.matchAll(/<text class="" x="\S+" y="\S+">(\S+ \S+)<title>(\S+ 3)<\/title>/g)];
  assert.deepEqual(rows.map((it) => it[2]), LONG_KEYS.map((it) => `${it} 3`));
  for (const [, shown, whole] of rows) assert.ok(shown.includes("…") && shown.slice(-6) === whole.slice(-6), shown);
  assert.equal(new Set(rows.map((it) => it[1])).size, 3);
  const panel = `${panelOf(stateOf(stateText(last(historyOf(LONG_STORY)))))}`;
  assert.match(panel, /<span role="img" title="customers\/europe\/18\/name" aria-label="customers\/europe\/18\/name">cu/);
});

// A feed that told one row at 40, and a next one.
function drawnRows(first, next, ts) {
  const row = ([key, value], ts) => `${JSON.stringify({ after: btoa(value), key: btoa(key), updated: `${ts}` })}\n`;
  return drawn("0 0 close 80 => closed 80 0\n1 1 open - - 0 => opened 1\n2 1 poll 1 9 => messages 2\n" +
    row(first, 40) + row(next, ts), { width: 354 });
}

test("a row of which next to nothing would be left has no words, and its mark has them", () => {
  for (const ts of [41, 60]) {
    const { svg, marks } = drawnRows(["apple", "3"], ["pear", "3"], ts);
    assert.deepEqual([...`${svg}`.matchAll(/>(\S+ 3)</g)].map((it) => it[1]), ["pear 3"]);
    assert.ok(marks.some((it) => it.name === "feed 1 told apple 3 of 40"));
  }
});

test("a long value has what its key leaves, and the key of a long one two thirds", () => {
  const shown = (key, value) => /<text class=""[^>]*>([^<]*)<title>/.exec(drawnRows(["a", "1"], [key, value], 60).svg)[1];
  const [many, few] = [shown("b", "v".repeat(50)), shown("k".repeat(50), "v".repeat(50))];
  assert.match(many, /^b v+…v+$/);
  assert.match(few, /^k+…k+ v+…v+$/);
  assert.equal(many.length, few.length);
  assert.equal(few.split(" ")[1].length, Math.floor(few.length / 3));
});

test("each timestamp has its number where all have room", () => {
  const begun = (all) => all.map((it, i) => `${i} 0 begin ${it} => started\n`).join("");
  const numbers = (all, width) => [...`${drawn(begun(all), { width }).svg}`.matchAll(/class="tick"[^>]*>(\d+)</g)];
  const near = [10, 15, 20, 25, 29, 30, 40];
  assert.deepEqual(numbers(near, 354).map((it) => Number(it[1])), [0, ...near]);
  const crowd = Array.from({ length: 30 }, (_, i) => 1000 + i * i);
  assert.ok(numbers(crowd, 354).length < crowd.length);
});

test("long words are cut in the middle, and a mark tells them whole", () => {
  assert.deepEqual(["abcdef", "abcdefg"].map((it) => short(it, 6)), ["abcdef", "abc…fg"]);
  assert.deepEqual([short("abc", 1), short("abc", 2)], ["…", "a…"]);
  const long = "x".repeat(70) + "%20" + "y".repeat(900);
  const { svg, marks } = drawn(`0 0 begin 5 => started\n1 0 put 5 ${"k".repeat(60)}z ${long} => written\n`);
  assert.match(`${svg}`, /k…k*z</);
  assert.doesNotMatch(`${svg}`, /y{301}/);
  assert.match(marks.find((it) => it.id.startsWith("version")).meaning(), new RegExp(`^k{60}z is ${long} from 5 on`));
});
