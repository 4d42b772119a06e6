// Pictures of files and of pages: whatever the browser reads, and PGM.
// A picture here has its colours beside its samples: { width, height, maxval, samples, colours }.

const PIXEL_LIMIT = 1048576, SIDE_LIMIT = 4096;

// The grey of a colour by the weights of ITU-R BT.601, as Pillow's convert("L") has it.
const greyOf = (red, green, blue) => (19595 * red + 38470 * green + 7471 * blue + 32768) >> 16;

// Samples from 0 to maxval as levels from 0 on, each to the nearest, a half upwards.
function levelsOf(samples, maxval, levels) {
  return samples.map((sample) => Math.floor((sample * (levels - 1) * 2 + maxval) / (2 * maxval)));
}

// The pictures of a file, each of at most so many pixels: one, or two of a PGM that holds two.
// `from` has the size of the file's picture where that was larger.
async function readPictures(file, most) {
  const bytes = new Uint8Array(await file.arrayBuffer());
  const first = readPgm(bytes);
  if (!first) return [shrunk(await createImageBitmap(new Blob([bytes])), most)];
  const second = readPgm(bytes, first.next);
  return Promise.all((second ? [first, second] : [first]).map((picture) => fitting(picture, most)));
}

async function fitting(picture, most) {
  const coloured = { ...picture, colours: coloursOf(picture) };
  return isTooLarge(picture, most) ? shrunk(await createImageBitmap(coloured.colours), most) : coloured;
}

const isTooLarge = ({ width, height }, most) => width * height > most || Math.max(width, height) > SIDE_LIMIT;

function shrunk(bitmap, most) {
  const { width, height } = bitmap;
  if (!isTooLarge(bitmap, most)) return drawn(bitmap, width, height);
  const by = Math.min(Math.sqrt(most / (width * height)), SIDE_LIMIT / Math.max(width, height));
  const size = (side) => Math.max(1, Math.floor(side * by));
  return { ...drawn(bitmap, size(width), size(height)), from: [width, height] };
}

// A bitmap at a size, on white where it is transparent.
function drawn(bitmap, width, height) {
  const pen = new OffscreenCanvas(width, height).getContext("2d", { willReadFrequently: true });
  pen.imageSmoothingQuality = "high";
  pen.fillStyle = "white";
  pen.fillRect(0, 0, width, height);
  pen.drawImage(bitmap, 0, 0, width, height);
  return ofColours(pen.getImageData(0, 0, width, height));
}

function ofColours(colours) {
  const { width, height, data } = colours, samples = new Uint8Array(width * height);
  for (let i = 0, at = 0; i < samples.length; i++, at += 4) samples[i] = greyOf(data[at], data[at + 1], data[at + 2]);
  return { width, height, maxval: 255, samples, colours };
}

// Grey samples as colours.
function coloursOf({ width, height, maxval, samples }) {
  const colours = new ImageData(width, height), words = new Uint32Array(colours.data.buffer);
  for (let i = 0; i < samples.length; i++) words[i] = 0xff000000 | (0x010101 * Math.round(samples[i] * 255 / maxval));
  return colours;
}

// The seeds that a picture of strokes means: 0, 1 and 2 as they are, else black is free, grey the figure, white the background.
function seedsOf({ samples, maxval }) {
  return Uint8Array.from(samples, (sample) => (maxval <= 2 ? sample : sample > 0.75 * maxval ? 2 : sample > 0.25 * maxval ? 1 : 0));
}

// The picture with noise that is the same each time.
function withNoise({ width, height, samples }, size) {
  const colours = new ImageData(width, height), noisy = new Uint8ClampedArray(samples.length);
  let state = 1;
  const next = () => (state = (Math.imul(state, 1103515245) + 12345) & 0x7fffffff) / 0x7fffffff - 0.5;
  for (let i = 0; i < samples.length; i++) noisy[i] = samples[i] + (next() + next() + next()) * size;
  return { ...ofColours(coloursOf({ width, height, maxval: 255, samples: noisy })), from: undefined };
}
