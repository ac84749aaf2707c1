import { connect, versionIs, put, ConditionFailed, Outrun, type Message } from "../index.js";
const db = connect("http://x", { token: "a" });
const v: string | Uint8Array | null = await db.get("a");
const row = await db.row("a", { at: "1" });
await db.put("a", "b", { if: versionIs(row.key, row.version) });
await db.txn([put("a", "b")]);
const n: number = await db.transact(async (tx) => { tx.put("a", String(await tx.get("b"))); return 3; });
for await (const m of db.feed("a", "b", { before: true })) {
  if (m.type === "change") console.log(m.key, m.value); else console.log(m.identity);
}
await db.consume("c", { load: () => null, store: async (batch) => { if (batch.was) throw new Outrun(); for (const c of batch.changes) console.log(c.key); } });
try {} catch (why) { if (why instanceof ConditionFailed) console.log(why.found); }
// @ts-expect-error a key is no number
await db.get(3);
