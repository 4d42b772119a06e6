// What is shown of the picture, its strokes and its labels.

const INKS = { 1: [255, 59, 48], 2: [47, 123, 255] };
const BORDER = [255, 221, 0];
let isPlanned = false;

// Plans one drawing before the next frame.
function draw() {
  if (isPlanned) return;
  isPlanned = true;
  requestAnimationFrame(() => {
    isPlanned = false;
    if (state.picture) drawNow();
  });
}

function drawNow() {
  const { width, height, colours } = state.picture, canvas = $("view");
  if (canvas.width !== width || canvas.height !== height) Object.assign(canvas, { width, height });
  const shown = new ImageData(new Uint8ClampedArray(colours.data), width, height);
  if (state.mode === "segment") drawSegments(shown);
  else if (state.last) drawLabels(shown);
  const pen = canvas.getContext("2d");
  pen.putImageData(shown, 0, 0);
  if (state.mode === "segment") drawCursor(pen);
  else if (state.last) drawSplit(pen);
}

// The labels as grey, right of the split.
function drawLabels({ width, height, data }) {
  const { labels, maxval } = state.last, from = splitColumn();
  for (let y = 0; y < height; y++)
    for (let x = from, i = y * width + from; x < width; x++, i++)
      data.fill(labels[i] * 255 / maxval, 4 * i, 4 * i + 3);
}

const splitColumn = () => Math.round(state.picture.width * value("split") / 100);

function drawSplit(pen) {
  const x = splitColumn();
  if (x <= 0 || x >= state.picture.width) return;
  pen.fillStyle = "#2463eb";
  pen.fillRect(x - 1, 0, Math.max(2, state.picture.width / 300), state.picture.height);
}

function drawSegments({ width, height, data }) {
  if (state.last) drawCut(state.last.labels, width, height, data);
  for (let i = 0; i < state.seeds.length; i++)
    if (state.seeds[i]) blend(data, i, INKS[state.seeds[i]], 0.75);
}

// The background darker, and the border between the two.
function drawCut(labels, width, height, data) {
  for (let y = 0, i = 0; y < height; y++)
    for (let x = 0; x < width; x++, i++) {
      const isBorder = (x + 1 < width && labels[i] !== labels[i + 1]) || (y + 1 < height && labels[i] !== labels[i + width]);
      if (isBorder) blend(data, i, BORDER, 1);
      else if (labels[i] === 1) blend(data, i, [25, 25, 25], 0.7);
    }
}

function blend(data, i, colour, part) {
  for (let c = 0; c < 3; c++) data[4 * i + c] = data[4 * i + c] * (1 - part) + colour[c] * part;
}

// The brush of the keyboard.
function drawCursor(pen) {
  if (!state.cursor) return;
  const { x, y } = state.cursor;
  for (const [colour, wider] of [["black", 1], ["white", 0]]) {
    pen.strokeStyle = colour;
    pen.lineWidth = Math.max(1, state.picture.width / 400) + wider;
    pen.beginPath();
    pen.arc(x, y, Math.max(3, brushSize() / 2), 0, 2 * Math.PI);
    pen.stroke();
  }
}

// Where the pointer is, in pixels of the picture: the canvas holds the picture as object-fit: contain lays it.
function placeOf({ clientX, clientY }) {
  const canvas = $("view"), box = canvas.getBoundingClientRect();
  const by = Math.min(box.width / canvas.width, box.height / canvas.height);
  return { x: (clientX - box.left - (box.width - canvas.width * by) / 2) / by,
    y: (clientY - box.top - (box.height - canvas.height * by) / 2) / by };
}

// The pixels of a result, whole.
function resultPixels({ labels, maxval, width, height }) {
  return coloursOf({ width, height, maxval, samples: labels });
}

// The picture's colours where the label is 0, and nothing elsewhere.
function cutoutPixels({ labels, colours, width, height }) {
  const pixels = new ImageData(new Uint8ClampedArray(colours.data), width, height);
  labels.forEach((label, i) => { if (label === 1) pixels.data[4 * i + 3] = 0; });
  return pixels;
}
