// What each fault and each refusal means, and what to do: the lists of docs/GUIDE.md and server/README.md.

const FAULTS = {
  wordcount: "A line or a word is empty, or the number of words is wrong.",
  unknowncommand: "No command has this name. A line here begins with its command, without a session.",
  number: "No number stands where one belongs.",
  keylength: "A key has 1 to 256 bytes, and a bound 257 at most.",
  valuelength: "A value has 65536 bytes at most.",
  session: "The session isn't a number below the number of seats.",
  nonewline: "The line has no newline, so it may be half a line. It made no call.",
  linetoolong: "The line is longer than 200000 bytes.",
  badbyte: "A byte is no printable ASCII, or a word is the spelling of no bytes. A space within a word is %20.",
  reply: "The words behind => are no answer.",
  follow: "A line that has to follow an answer isn't there, or isn't of its form.",
  spent: "No position is left for an event. The database answers no further call.",
  unwritten: "The call was made, and its text found no memory.",
  notyours: "The server streams this feed, or holds this protection for a name: it is the server's own.",
  ahead: "The timestamp lies more than --ahead above all others: it would end the database for everyone.",
  replytoolong: "The answers to this message are longer than --max-reply. This line made no call.",
  answertoolong: "The answers to this message would be longer than --max-answer. Ask for a part of the span.",
  full: "The server's memory has reached --max-memory, so a put makes no call. Delete rows. A line of another kind waits " +
    "until others of its kind are closed, collected or ended.",
  skipped: "A line before it in this message failed, so commit . aborts. It made no call.",
  toomany: "The session holds as many transactions, protections or feeds as it may. End some first.",
  noright: "Your token has no right to this, or isn't for these keys.",
  draining: "The server is about to end, so no transaction begins any more.",
};

const REFUSED = {
  tsrange: "Timestamps end at 9223372036854775807, and those of transactions begin at 1.",
  belowclosed: "Nothing begins at or below closed: choose a greater timestamp.",
  tsused: "A transaction of this timestamp began before: choose another.",
  ended: "The transaction is decided for good, perhaps because it waited too long: begin again above.",
  notxn: "No transaction of this timestamp began: begin it first.",
  notowner: "Another session began or opened it: only that one can go on with it.",
  blocked: "The newest version is another transaction's, which is undecided: try again once it has ended, or abort.",
  toolate: "A later transaction has read what was there before. This one is aborted: begin again above.",
  notclosed: "The timestamp is above closed: close further, or ask lower.",
  belowhorizon: "The timestamp is below the horizon: versions that stood there may be collected.",
  gaprange: "A gap is 1 at least, and 9223372036854775807 at most.",
  nofeed: "No feed of this number was opened.",
  feedcancelled: "The feed was cancelled: open another.",
  noprotection: "No protection of this number stands.",
  nomemory: "There was no memory for it, and nothing has changed: try again.",
};

/** The sentence of a fault or a refusal by its name, or "" where the lists have none. */
export function saysOf(name) {
  return FAULTS[name] ?? REFUSED[name] ?? "";
}
