// The package, imported by its name: worked examples, typed arrays and PGM bytes, what is refused, and the random calls.
import assert from "node:assert/strict";
import fs from "node:fs";
import vm from "node:vm";
import { Refused, load, readPgm, writePgm } from "gco-proved";

const gco = await load();
const other = await load(await WebAssembly.compile(fs.readFileSync("node_modules/gco-proved/gco.wasm")));
const row = (samples, maxval) => ({ width: samples.length, height: 1, maxval, samples });

// The middle level goes: keeping it costs 2 for the pairs and 4 for two levels.
const restored = gco.restore(row([0, 3, 0], 3), { labelCost: 2 });
assert.deepEqual([...restored.labels], [0, 0, 0]);
assert.deepEqual(other.restore(row([0, 3, 0], 3), { labelCost: 2 }), restored);
assert.deepEqual([restored.energy, restored.data, restored.smooth, restored.label, restored.maxval], [5, 3, 0, 2, 3]);
assert.deepEqual(restored.pgm, writePgm(row([0, 0, 0], 3)));

// All but the left column moved by one.
const views = [row(Uint8Array.of(10, 20, 30, 40), 99), row(Uint16Array.of(20, 30, 40, 0), 99)];
const matched = gco.stereo(...views, { labels: 2, cap: 20 });
assert.deepEqual([...matched.labels], [0, 1, 1, 1]);
assert.deepEqual([matched.energy, matched.bound], [11, { vmin: 1, vmax: 1 }]);
assert.deepEqual(gco.stereo(writePgm(...views), { labels: 2, cap: 20 }), matched);

// The seed of label 1 beside a sample of label 0.
const parted = gco.segment(row([0, 0, 200], 255), [2, 0, 0], { low: 0, high: 200, strong: 20, weak: 5, edge: 5 });
assert.deepEqual([[...parted.labels], parted.energy, parted.bound], [[1, 0, 1], 25, null]);

const isRefused = (status, place, words) => (error) =>
  error instanceof Refused && error.status === status && error.place === place && words.test(error.message);
assert.throws(() => gco.segment(row([0, 0], 1), [0, 3], { low: 0, high: 1 }), isRefused(39, 1, /^seed 1 is none/));
assert.throws(() => gco.segment(row([0, 0], 1), [0, 0], { high: 1 }), isRefused(41, 0, /option low/));
assert.throws(() => gco.restore(row([0, 0], 1), { weight: 1001 }), isRefused(41, 2, /option weight/));
assert.throws(() => gco.restore(row([0, 0], 1), { weight: 1.5 }), isRefused(41, 2, /option weight/));
assert.throws(() => gco.restore(row([0, 0], 1), { wieght: 1 }), /restore has no option wieght/);
assert.throws(() => gco.restore(Uint8Array.of(80, 54)), isRefused(30, 0, /no picture/));
assert.throws(() => gco.restore(row([], 1)), isRefused(32, 0, /no columns or no rows/));

// PGM in both forms, with comments, and behind each other.
const text = (words) => new TextEncoder().encode(words);
const plain = readPgm(text("P2 # made\n2 1\n300\n7 300\n\nP5\n1 1\n9\n\x05"));
assert.deepEqual([plain.width, plain.height, plain.maxval, [...plain.samples]], [2, 1, 300, [7, 300]]);
assert.deepEqual([...readPgm(text("P2 # made\n2 1\n300\n7 300\n\nP5\n1 1\n9\n\x05"), plain.next).samples], [5]);
for (const words of ["", "P6\n1 1\n1\n\0", "P5\n2 1\n1\n\0", "P5\n0 1\n1\n", "P2\n1 1\n1\nx", "P5\n90000 90000\n255\n"])
  assert.equal(readPgm(text(words)), null, JSON.stringify(words));

const cases = JSON.parse(fs.readFileSync("cases.json"));
const differing = vm.runInThisContext(`${fs.readFileSync("compare.js")}; differing`);
assert.deepEqual(differing(gco, Refused, cases), []);
console.log(`the package: worked examples, refusals, and ${cases.length} random calls as the native library answers them`);
