// Uses the installed package for npm. packaging/test runs it, in the folder where that is.

import { readFile } from "node:fs/promises";
import { load } from "ripsawbean";
const library = await load(await readFile(new URL(import.meta.resolve("ripsawbean/ripsawbean.wasm"))));
const db = library.open();
if (db.call("0 begin 10\n") !== "0 0 begin 10 => started\n") throw new Error("another answer");
db.close();
