// The image commands over the WebAssembly module of gco_pictures.
import { readPgm, writePgm } from "./pgm.mjs";

const CODES = {
  smooth: { potts: 0, linear: 1, quadratic: 2 },
  neighbours: { 4: 0, 8: 1 },
  moves: { expansion: 0, swap: 1 },
};

// The options of each command in the order of gco_pictures.h, with their defaults; null: it must be given.
const COMMANDS = {
  restore: { smooth: "potts", trunc: 1, weight: 1, neighbours: 4, moves: "expansion", cycles: 100, labelCost: 0 },
  stereo: { labels: 16, cap: 20, smooth: "potts", trunc: 1, weight: 1, neighbours: 4, moves: "expansion", cycles: 100 },
  segment: { low: null, high: null, strong: 20, weak: 5, edge: 5, neighbours: 4, cycles: 100 },
};

const TOLD_BYTES = 72;
const OUT_OF_MEMORY = 1, OPTION_RANGE = 41;

// Why a call is refused, by the status of gco_pictures.h.
const REASONS = {
  1: () => "there is not enough memory",
  24: ({ place, alpha, beta }) => `the smooth cost is no metric: the term of pair ${place} is not regular in the move of`
    + ` ${alpha === beta ? `label ${alpha}` : `labels ${alpha} and ${beta}`}`,
  27: () => "swaps take no cost of labels by themselves",
  30: () => "no picture stands there: it does not begin with P5 or P2, or a second picture is missing",
  31: ({ place }) => `the header of a picture goes wrong at byte ${place}`,
  32: () => "a picture has no columns or no rows",
  33: () => "a picture is too large: a side is above 4,096, or it has more than 1,048,576 pixels",
  34: () => "the maxval of a picture is 0 or above 65,535",
  35: () => "a picture ends before its last sample",
  36: ({ place }) => `sample ${place} of a picture is above its maxval`,
  37: ({ place }) => `byte ${place} cannot stand among the samples of a plain picture`,
  38: () => "the two pictures have different sizes",
  39: ({ place }) => `seed ${place} is none of 0, 1 and 2`,
  40: () => "the picture has more than 256 grey levels",
  41: ({ option }) => `the option ${option} is out of its range`,
  42: ({ bytes }) => `the picture has ${bytes} bytes, and the buffer fewer`,
};

/** A call that was refused: `status` and `place` are those of gco_pictures.h, the message says it in words. */
export class Refused extends Error {
  constructor(told) {
    super(REASONS[told.status] ? REASONS[told.status](told) : `refused with status ${told.status}`);
    this.name = "Refused";
    this.status = told.status;
    this.place = told.place;
  }
}

// The numbers that options name. What is no whole number of 32 bits is refused as the library refuses what is out of range.
function numbersOf(command, options) {
  const known = COMMANDS[command];
  for (const name of Object.keys(options))
    if (!(name in known)) throw new TypeError(`${command} has no option ${name}`);
  return Object.entries(known).map(([name, value], place) => {
    const given = options[name] ?? value, number = CODES[name] ? CODES[name][given] : given;
    if (!Number.isInteger(number) || number < 0 || number > 0xffffffff)
      throw new Refused({ status: OPTION_RANGE, place, option: name });
    return number;
  });
}

const isBytes = (value) => value instanceof Uint8Array;

/** A library of its own memory. One call runs at a time. */
export class Gco {
  #library;

  constructor(instance) {
    this.#library = instance.exports;
  }

  /** How many bytes of memory the library holds. */
  get memory() {
    return this.#library.memory.buffer.byteLength;
  }

  restore(picture, options = {}) {
    return this.run("restore", isBytes(picture) ? picture : writePgm(picture), options);
  }

  stereo(left, right, options = {}) {
    return isBytes(left) ? this.run("stereo", left, right ?? {}) : this.run("stereo", writePgm(left, right), options);
  }

  segment(picture, seeds, options = {}) {
    return isBytes(picture) ? this.run("segment", picture, seeds ?? {})
      : this.run("segment", writePgm(picture, { ...picture, maxval: 255, samples: seeds }), options);
  }

  /** A command over the bytes of PGM. */
  run(command, input, options = {}) {
    const numbers = numbersOf(command, options), held = [];
    try {
      return this.#answer(command, numbers, input, held);
    } finally {
      for (const place of held) this.#library.gco_free(place);
    }
  }

  // An array of the library's memory, which `held` gives back.
  #give(bytes, held) {
    const place = this.#library.gco_malloc(BigInt(Math.max(1, bytes.length)));
    if (place === 0n) throw new Refused({ status: OUT_OF_MEMORY, place: 0 });
    held.push(place);
    this.#bytes(place, bytes.length).set(bytes);
    return place;
  }

  #bytes(place, length) {
    return new Uint8Array(this.#library.memory.buffer, Number(place), length);
  }

  #answer(command, numbers, input, held) {
    const room = input.length + 2; // the written picture is never longer
    const options = this.#give(new Uint8Array(Uint32Array.from(numbers).buffer), held);
    const source = this.#give(input, held), out = this.#give(new Uint8Array(room), held);
    const outcome = this.#give(new Uint8Array(TOLD_BYTES), held);
    const status = this.#library[`gco_${command}_pgm`](options, source, BigInt(input.length), out, BigInt(room), outcome);
    const told = this.#told(outcome, status);
    if (status !== 0) throw new Refused({ ...told, option: Object.keys(COMMANDS[command])[told.place] });
    const pgm = this.#bytes(out, told.bytes).slice(), { width, height, maxval, samples } = readPgm(pgm);
    const { energy, data, smooth, label, vmin, vmax } = told;
    return { width, height, maxval, labels: samples, pgm, energy, data, smooth, label, bound: vmin ? { vmin, vmax } : null };
  }

  #told(place, status) {
    const view = new DataView(this.#library.memory.buffer, Number(place), TOLD_BYTES);
    const whole = (index) => Number(view.getBigInt64(8 * index, true));
    const [energy, data, smooth, label, bytes, at, vmin, vmax] = [0, 1, 2, 3, 4, 5, 6, 7].map(whole);
    return { status, energy, data, smooth, label, bytes, place: at, vmin, vmax, alpha: view.getUint32(64, true), beta: view.getUint32(68, true) };
  }
}

/** A library of the module, or of its bytes. */
export async function instantiate(module) {
  const made = await WebAssembly.instantiate(module, {});
  return new Gco(made.instance ?? made);
}
