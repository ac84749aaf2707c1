// The library for ARM64 under an emulator: what the guide shows, byte for byte; random scripts beside the native
// library; the example; the edges of each function, with growths of memory refused one by one. arm64/test runs it, with
// ROOM, the folder of the programs that it builds.
import assert from "node:assert/strict";
import { execFileSync } from "node:child_process";
import { mkdtempSync } from "node:fs";
import { join } from "node:path";
import test from "node:test";
import { exampleTranscripts, guideTranscripts, read, scriptOf } from "../web/tests/guide.mjs";
import { randomScript } from "../web/tests/scripts.mjs";

const { ROOM: room } = process.env;

function run([program, ...words], input = "") {
  return execFileSync(program, words, { input, encoding: "latin1", maxBuffer: 2 ** 28 });
}

const emulated = (name, words = [], input = "") => run(["qemu-aarch64-static", join(room, name), ...words], input);

test("the guide's and the examples' transcripts, with rings of 1 and of 1024", () => {
  const transcripts = [...guideTranscripts(), ...exampleTranscripts()];
  assert.ok(transcripts.length >= 14);
  for (const it of transcripts)
    for (const ring of ["1", "1024"]) assert.equal(emulated("calls", [ring], scriptOf(it).join("")), it);
});

test("random scripts, beside the native library", () => {
  for (let seed = 1; seed <= 100; seed++) {
    const script = randomScript(seed, 400).join("");
    const ring = ["1", "2", "1024"][seed % 3];
    assert.equal(emulated("calls", [ring], script), run([join(room, "native"), ring], script), `seed ${seed}`);
  }
});

test("the example of a cache writes the stored text", () => {
  assert.equal(emulated("cache"), read("embed/expected/cache.txt"));
});

test("the edges of each function", () => {
  emulated("edges", [mkdtempSync(join(room, "edges-"))]);
});
