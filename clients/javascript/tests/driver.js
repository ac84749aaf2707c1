// What the conformance kit runs of this client: calls come as lines of JSON, and what they give or throw goes back so.

import { createInterface } from "node:readline";
import { connect, del, exists, get, Outrun, put, RipsawbeanError, scan, unchanged, valueIs, versionIs } from "../index.js";

const bytes = (value) => (value === null || value === undefined || typeof value === "string" ? value : Uint8Array.from(Buffer.from(value.base64, "base64")));
const json = (value) => {
  if (value instanceof Uint8Array) return { base64: Buffer.from(value).toString("base64") };
  if (Array.isArray(value)) return value.map(json);
  if (value === null || typeof value !== "object") return value;
  return Object.fromEntries(Object.entries(value).map(([name, part]) => [name, json(part)]));
};
const condition = (one) => {
  if (one.span) return unchanged(...one.span.map(bytes), one.unchanged);
  if (one.version) return versionIs(bytes(one.key), one.version);
  if (one.absent === false) return exists(bytes(one.key));
  return valueIs(bytes(one.key), one.absent ? null : bytes(one.value));
};
const step = (one) => {
  if (one.put !== undefined) return put(bytes(one.put), bytes(one.value));
  if (one.scan) return scan(...one.scan.map(bytes), one.limit);
  return one.del !== undefined ? del(bytes(one.del)) : get(bytes(one.get));
};
const change = ({ type, before = null, ...rest }) => json({ ...rest, before });
const message = (one) => (one.type === "change" ? change(one) : { [one.type === "reset" ? "reset" : "resolved"]: one.timestamp, identity: one.identity });

class Stop extends Error {}

async function consume(db, call) {
  let { place = null, outrun } = call;
  const batches = [];
  const store = (batch) => {
    if (outrun) {
      [place, outrun] = [outrun, undefined];
      throw new Outrun();
    }
    if (JSON.stringify(batch.was) !== JSON.stringify(place)) throw new Error("another place");
    const { identity, timestamp, generation } = batch.place;
    place = { identity, timestamp, generation };
    batches.push({ changes: batch.changes.map(change), place, was: batch.was, reset: batch.reset });
    if (batches.length === call.stores) throw new Stop();
  };
  const { name, lo, hi, before, anew } = call;
  await db.consume(name, { load: () => place, store, lo: bytes(lo), hi: bytes(hi), before, anew }).catch((why) => {
    if (!(why instanceof Stop)) throw why;
  });
  return batches;
}

async function transact(db, call) {
  return await db.transact(async (tx) => {
    const found = [];
    for (const one of call.work) {
      if (one.put !== undefined) tx.put(bytes(one.put), bytes(one.value));
      else if (one.del !== undefined) tx.delete(bytes(one.del));
      else found.push(one.scan ? await tx.scan(...one.scan.map(bytes)) : await tx.get(bytes(one.get)));
    }
    return found;
  });
}

const count = (db, { key }) => db.transact(async (tx) => {
  const raised = String(Number((await tx.get(key)) ?? 0) + 1);
  tx.put(key, raised);
  return raised;
});

async function all(iterator, most = Infinity) {
  const found = [];
  for await (const one of iterator) if (found.push(one) >= most) break;
  return found;
}

const CALLS = {
  get: (db, { key, at }) => db.get(bytes(key), { at }),
  row: (db, { key, at }) => db.row(bytes(key), { at }),
  put: (db, { key, value, if: one }) => db.put(bytes(key), bytes(value), { if: one && condition(one) }),
  delete: (db, { key, if: one }) => db.delete(bytes(key), { if: one && condition(one) }),
  txn: (db, { then, if: conditions, else: otherwise }) => db.txn(then.map(step), conditions?.map(condition), otherwise?.map(step)),
  page: (db, { lo, hi, at, limit }) => db.page(bytes(lo), bytes(hi), { at, limit }),
  scan: (db, { lo, hi, at, page }) => all(db.scan(bytes(lo), bytes(hi), { at, page })),
  feed: async (db, { lo, hi, place, before, anew, take }) => (await all(db.feed(bytes(lo), bytes(hi), { place, before, anew }), take)).map(message),
  transact,
  count,
  consume,
};

let db;
for await (const line of createInterface({ input: process.stdin })) {
  const call = JSON.parse(line);
  if (call.connect) {
    const { token, identity, timeout } = call;
    db = connect(call.connect, { token, identity, timeout: 1000 * timeout });
    continue;
  }
  let reply;
  try {
    reply = { gives: json(await CALLS[call.call](db, call)) };
  } catch (why) {
    if (!(why instanceof RipsawbeanError)) throw why;
    const kind = why.name === "RipsawbeanError" ? "Error" : why.name;
    reply = { raises: kind, error: why.error, ...(why.found && { found: json(why.found) }) };
  }
  console.log(JSON.stringify(reply));
}
