// The image commands of gco for JavaScript: the proved library, compiled to WebAssembly, in node and in pages.
// gco.d.ts says what each call takes and answers.
import { instantiate } from "./library.mjs";

export { Gco, Refused } from "./library.mjs";
export { readPgm, writePgm } from "./pgm.mjs";

/** A library of the module's bytes; without them, of gco.wasm beside this file. */
export async function load(module) {
  return instantiate(module ?? (await ownModule()));
}

async function ownModule() {
  const place = new URL("gco.wasm", import.meta.url);
  if (place.protocol !== "file:") return (await fetch(place)).arrayBuffer();
  return (await import("node:fs/promises")).readFile(place);
}
