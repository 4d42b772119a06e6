// The types of the package, as a program in TypeScript meets them. tsc reads this and runs nothing.
import { Gco, Labelled, Picture, Refused, load, readPgm, writePgm } from "gco-proved";

const gco: Gco = await load();
const picture: Picture = { width: 3, height: 1, maxval: 3, samples: Uint16Array.of(0, 3, 0) };
const pgm: Uint8Array = writePgm(picture, picture);
const restored: Labelled = gco.restore(picture, { smooth: "linear", trunc: 2, weight: 1, moves: "swap", labelCost: 2 });
const matched: Labelled[] = [gco.stereo(picture, picture, { labels: 2, cap: 20 }), gco.stereo(pgm, { neighbours: 8 })];
const parted: Labelled[] = [gco.segment(picture, [2, 0, 0], { low: 0, high: 3 }), gco.segment(pgm, { low: 0, high: 3 })];
const labels: Uint8Array = restored.labels;
const times: number | undefined = matched[0].bound ? (2 * matched[0].bound.vmax) / matched[0].bound.vmin : undefined;
const samples: ArrayLike<number> | undefined = readPgm(parted[0].pgm)?.samples;
const told = (error: unknown): number => (error instanceof Refused ? error.status + error.place : gco.memory);
const fromBytes: Promise<Gco> = load(new Uint8Array(8)), fromModule: Promise<Gco> = load(new WebAssembly.Module(new Uint8Array(8)));

// @ts-expect-error: 6 neighbours are none of 4 and 8
gco.restore(picture, { neighbours: 6 });
// @ts-expect-error: the options of segment have no defaults for low and high
gco.segment(picture, [2, 0, 0], { low: 0 });
// @ts-expect-error: stereo has no label costs
gco.stereo(picture, picture, { labelCost: 1 });
// @ts-expect-error: a library comes from load
new Gco();

export { fromBytes, fromModule, labels, samples, times, told };
