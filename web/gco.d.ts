/** A grey picture: `width * height` samples, row by row, each from 0 to `maxval` (1 to 65,535). */
export interface Picture {
  width: number;
  height: number;
  maxval: number;
  samples: ArrayLike<number>;
}

/** What a call answers. */
export interface Labelled {
  width: number;
  height: number;
  /** The greatest label, but at least 1. */
  maxval: number;
  /** The label of each pixel, row by row. */
  labels: Uint8Array;
  /** The same as PGM: the bytes that the program `gco` writes. */
  pgm: Uint8Array;
  /** The energy of the labels: the sum of `data`, `smooth` and `label`. */
  energy: number;
  /** What the labels cost the pixels. */
  data: number;
  /** What the labels cost the pairs of neighbours. */
  smooth: number;
  /** What the labels that some pixel has cost by themselves. */
  label: number;
  /** Where it is known how near the energy is: `vmin` times it is at most twice `vmax` times the least. */
  bound: { vmin: number; vmax: number } | null;
}

/** docs/IMAGES.md says what each option means. A number out of its range is refused with the status 41. */
export interface MoveOptions {
  /** The cost of two labels side by side. Without it: "potts". */
  smooth?: "potts" | "linear" | "quadratic";
  /** At what a cost by distance is cut off, 1 to 10,000. Without it: 1. */
  trunc?: number;
  /** The weight of each pair, 0 to 1,000. Without it: 1. */
  weight?: number;
  /** Without it: 4. */
  neighbours?: 4 | 8;
  /** Without it: "expansion". */
  moves?: "expansion" | "swap";
  /** The most cycles, 0 to 1,000. Without it: 100. */
  cycles?: number;
}

export interface RestoreOptions extends MoveOptions {
  /** What each label costs by itself, 0 to 10,000,000. Without it: 0. */
  labelCost?: number;
}

export interface StereoOptions extends MoveOptions {
  /** How many labels there are, 1 to 256. Without it: 16. */
  labels?: number;
  /** At what the cost of a label at a pixel is cut off, 0 to 10,000,000. Without it: 20. */
  cap?: number;
}

export interface SegmentOptions {
  /** The sample of label 0, 0 to 65,535. */
  low: number;
  /** The sample of label 1, 0 to 65,535. */
  high: number;
  /** The weight of a pair whose samples differ by at most `edge`, 0 to 1,000. Without it: 20. */
  strong?: number;
  /** The weight of another pair, 0 to 1,000. Without it: 5. */
  weak?: number;
  /** The greatest difference between which no edge runs, 0 to 65,535. Without it: 5. */
  edge?: number;
  /** Without it: 4. */
  neighbours?: 4 | 8;
  /** The most cycles, 0 to 1,000. Without it: 100. */
  cycles?: number;
}

/** A call that was refused. The message says why in words. */
export class Refused extends Error {
  /** The status of gco_pictures.h. */
  readonly status: number;
  /** The place that the status names: a byte, a sample, a pair or an option, from 0; else 0. */
  readonly place: number;
}

/** The proved library in a memory of its own. Each call runs to its end: call it in a Worker where that may be long. */
export class Gco {
  private constructor();
  /** How many bytes of memory it holds. They grow with the largest call, and stay. */
  readonly memory: number;
  /** Takes noise out of a picture of at most 256 grey levels. */
  restore(picture: Picture | Uint8Array, options?: RestoreOptions): Labelled;
  /** The shifts of the left view's pixels. */
  stereo(left: Picture, right: Picture, options?: StereoOptions): Labelled;
  /** The same of PGM bytes, the left view and behind it the right one. */
  stereo(pair: Uint8Array, options?: StereoOptions): Labelled;
  /** Parts a picture in two. Of each pixel `seeds` has 0 (free), 1 (label 0) or 2 (label 1). */
  segment(picture: Picture, seeds: ArrayLike<number>, options: SegmentOptions): Labelled;
  /** The same of PGM bytes, the picture and behind it the seeds. */
  segment(pair: Uint8Array, options: SegmentOptions): Labelled;
}

/** A library of gco.wasm: of its bytes, or compiled. Without them it takes the file beside gco.mjs. */
export function load(module?: ArrayBuffer | ArrayBufferView | WebAssembly.Module): Promise<Gco>;

/** The picture that begins at a place of PGM bytes, and the place behind it; null where none does. */
export function readPgm(bytes: Uint8Array, from?: number):
  { width: number; height: number; maxval: number; samples: Uint8Array | Uint16Array; next: number } | null;

/** The bytes of PGM of pictures, one behind the other. */
export function writePgm(...pictures: Picture[]): Uint8Array;
