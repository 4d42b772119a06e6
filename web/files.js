// Pictures that come in, and what is saved.

async function take(files) {
  const pictures = [];
  for (const file of [...files].slice(0, 2))
    try {
      pictures.push(...await readPictures(file, value("most")));
    } catch {
      return say(`${file.name} is no picture that this browser reads, or it is too large for it.`, true);
    }
  if (!pictures.length) return;
  if (isRightViewDue() && pictures.length === 1) takeSecond(...pictures);
  else begin(...pictures);
}

const isRightViewDue = () => state.mode === "stereo" && state.isLeft && !state.right;

// Begins with a picture and, where there are two, its right view or its strokes.
function begin(picture, second) {
  stop();
  Object.assign(state, { picture, isLeft: state.mode === "stereo", right: null, undo: [], cursor: null, seeds: new Uint8Array(picture.samples.length) });
  forgetAnswer();
  showParts();
  tellSize(picture);
  if (second) takeSecond(second);
  else say(wantedNext());
  draw();
}

function takeSecond(second) {
  const { width, height } = state.picture;
  if (second.width !== width || second.height !== height)
    return say(`The two pictures have different sizes: ${width} by ${height}, and ${second.width} by ${second.height}.`, true);
  if (state.mode === "segment") {
    keepForUndo();
    state.seeds = seedsOf(second);
    strokesChanged();
  } else {
    state.right = second;
    showParts();
    say(wantedNext());
  }
}

function tellSize({ width, height, from }) {
  $("note").hidden = !from;
  if (from) $("note").textContent = `The picture has ${from[0]} by ${from[1]} pixels. It was made smaller: ${width} by ${height}.`;
}

async function takeStrokes(files) {
  if (!state.picture) return say("Choose a picture before its strokes.", true);
  try {
    takeSecond((await readPictures(files[0], PIXEL_LIMIT))[0]);
  } catch {
    say(`${files[0].name} is no picture that this browser reads.`, true);
  }
}

function save(name, blob) {
  const link = Object.assign(document.createElement("a"), { href: URL.createObjectURL(blob), download: name });
  link.click();
  setTimeout(() => URL.revokeObjectURL(link.href), 10000);
}

async function savePng(name, pixels) {
  const canvas = new OffscreenCanvas(pixels.width, pixels.height);
  canvas.getContext("2d").putImageData(pixels, 0, 0);
  save(name, await canvas.convertToBlob());
}

const SAVES = {
  labels: () => save("labels.pgm", new Blob([state.last.pgm])),
  input: () => save("input.pgm", new Blob([state.last.job.input])),
  picture: () => savePng("result.png", resultPixels(state.last)),
  cutout: () => savePng("cutout.png", cutoutPixels({ ...state.last, colours: state.picture.colours })),
};

// A file input gives its files, and is emptied, so that the same file can be chosen again.
function onFiles(id, call) {
  $(id).onchange = (event) => {
    const files = [...event.target.files];
    event.target.value = "";
    if (files.length) call(files);
  };
}

function listenToFiles() {
  onFiles("file", take);
  onFiles("another", take);
  onFiles("strokes", takeStrokes);
  for (const name of ["dragover", "dragleave", "drop"])
    document.addEventListener(name, (event) => {
      event.preventDefault();
      $("stage").classList.toggle("over", name === "dragover");
      if (name === "drop") take(event.dataTransfer.files);
    });
  document.addEventListener("paste", (event) => take(event.clipboardData.files));
  for (const button of document.querySelectorAll("[data-save]")) button.onclick = SAVES[button.dataset.save];
  $("example").onclick = showExample;
}

async function examplePicture(name) {
  return (await readPictures(new Blob([bytesOf(EXAMPLES[name])]), value("most")))[0];
}

// The example of each command.
async function showExample() {
  if (state.mode === "stereo") {
    choose({ labels: 20, cap: 30, stereoWeight: 8, stereoTrunc: 4 });
    begin(await examplePicture("left"), await examplePicture("right"));
  } else if (state.mode === "restore") begin(withNoise(await examplePicture("figure"), 40));
  else begin(await examplePicture("figure"), exampleStrokes());
  if (state.mode !== "segment") run();
}

// A stroke in the figure of the example and one around it, in parts of its size.
function exampleStrokes() {
  const side = 320, samples = new Uint8Array(side * side);
  const paint = (points, colour) => points.forEach(([x, y]) => {
    for (let row = y - 4; row <= y + 4; row++) samples.fill(colour, row * side + x - 4, row * side + x + 5);
  });
  const line = ([x0, y0], [x1, y1]) => Array.from({ length: 60 }, (_, k) =>
    [Math.round(x0 + (x1 - x0) * k / 59), Math.round(y0 + (y1 - y0) * k / 59)]);
  paint([...line([118, 75], [125, 110]), ...line([125, 110], [108, 180]), ...line([108, 180], [72, 230]), ...line([72, 230], [82, 300])], 1);
  paint([...line([20, 30], [300, 30]), ...line([300, 30], [300, 250]), ...line([12, 60], [8, 146]), ...line([142, 225], [148, 300])], 2);
  return { width: side, height: side, maxval: 2, samples };
}
