// Grey pictures in the Netpbm project's PGM format, in and out: docs/PGM.md has the rules.
// A picture is { width, height, maxval, samples }, its samples row by row.

const isSpace = (byte) => byte === 32 || (byte >= 9 && byte <= 13);
const isDigit = (byte) => byte >= 48 && byte <= 57;

// A place in bytes, moved on by what is read there.
class Reader {
  constructor(bytes, at) {
    this.bytes = bytes;
    this.at = at;
  }

  // Past white space, and past comments where they may stand.
  skip(comments = true) {
    for (; this.at < this.bytes.length; this.at++)
      if (comments && this.bytes[this.at] === 35) this.toLineEnd();
      else if (!isSpace(this.bytes[this.at])) return;
  }

  toLineEnd() {
    while (this.at + 1 < this.bytes.length && this.bytes[this.at] !== 10 && this.bytes[this.at] !== 13) this.at++;
  }

  // The number that begins here, or -1.
  number(comments) {
    this.skip(comments);
    if (!isDigit(this.bytes[this.at])) return -1;
    let value = 0;
    for (; isDigit(this.bytes[this.at]); this.at++) value = Math.min(value * 10 + this.bytes[this.at] - 48, 1e9);
    return value;
  }
}

/** The picture that begins at a place of PGM bytes, with the place behind it as `next`; null where none does. */
export function readPgm(bytes, from = 0) {
  const reader = new Reader(bytes, from);
  reader.skip(false);
  const form = bytes[reader.at + 1];
  if (bytes[reader.at] !== 80 || (form !== 53 && form !== 50)) return null;
  reader.at += 2;
  const width = reader.number(), height = reader.number(), maxval = reader.number();
  if (width < 1 || height < 1 || maxval < 1 || maxval > 65535) return null;
  const samples = form === 53 ? rawSamples(reader, width * height, maxval) : plainSamples(reader, width * height, maxval);
  return samples && { width, height, maxval, samples, next: reader.at };
}

function rawSamples(reader, count, maxval) {
  const { bytes } = reader, begin = reader.at + 1, size = maxval > 255 ? 2 : 1;
  if (begin + count * size > bytes.length) return null;
  reader.at = begin + count * size;
  if (size === 1) return bytes.slice(begin, reader.at);
  const samples = new Uint16Array(count);
  for (let i = 0, at = begin; i < count; i++, at += 2) samples[i] = bytes[at] * 256 + bytes[at + 1];
  return samples;
}

function plainSamples(reader, count, maxval) {
  if (count > reader.bytes.length) return null; // each sample takes a byte or more
  const samples = new Uint16Array(count);
  for (let i = 0; i < count; i++) {
    const sample = reader.number(false);
    if (sample < 0 || sample > maxval) return null;
    samples[i] = sample;
  }
  return samples;
}

/** The bytes of PGM (`P5`) of pictures, one behind the other. */
export function writePgm(...pictures) {
  const parts = pictures.flatMap(({ width, height, maxval, samples }) =>
    [new TextEncoder().encode(`P5\n${width} ${height}\n${maxval}\n`), raster(samples, maxval)]);
  const bytes = new Uint8Array(parts.reduce((sum, part) => sum + part.length, 0));
  let at = 0;
  for (const part of parts) {
    bytes.set(part, at);
    at += part.length;
  }
  return bytes;
}

function raster(samples, maxval) {
  if (maxval < 256) return Uint8Array.from(samples);
  const wide = new Uint8Array(2 * samples.length);
  for (let i = 0; i < samples.length; i++) {
    wide[2 * i] = samples[i] >> 8;
    wide[2 * i + 1] = samples[i] & 255;
  }
  return wide;
}
