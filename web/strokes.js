// Strokes by mouse, finger, pen and keyboard.

const UNDO_LIMIT = 30;
const STEPS = { ArrowLeft: [-1, 0], ArrowRight: [1, 0], ArrowUp: [0, -1], ArrowDown: [0, 1] };

const brush = () => Number(document.querySelector("[name=brush]:checked").value);

// The width of a stroke in pixels of the picture: the same part of each picture, whatever its size.
const brushSize = () => value("size") * Math.max(state.picture.width, state.picture.height) / 512;

function paintLine(from, to) {
  const steps = Math.max(1, Math.ceil(Math.hypot(to.x - from.x, to.y - from.y)));
  for (let step = 0; step <= steps; step++)
    paintDot(from.x + (to.x - from.x) * step / steps, from.y + (to.y - from.y) * step / steps);
}

function paintDot(x, y) {
  const { width, height } = state.picture, radius = Math.max(0.71, brushSize() / 2), colour = brush();
  const low = (middle) => Math.max(0, Math.floor(middle - radius));
  for (let row = low(y); row <= Math.min(height - 1, y + radius); row++)
    for (let column = low(x); column <= Math.min(width - 1, x + radius); column++)
      if ((column + 0.5 - x) ** 2 + (row + 0.5 - y) ** 2 <= radius ** 2) state.seeds[row * width + column] = colour;
}

// What is painted from here on can be undone as one.
function keepForUndo() {
  state.undo.push(state.seeds.slice());
  if (state.undo.length > UNDO_LIMIT) state.undo.shift();
  showUndo();
}

function showUndo() {
  $("undo").disabled = !state.undo.length;
  $("clear").disabled = !state.seeds?.some(Boolean);
}

function strokesChanged() {
  showUndo();
  draw();
  if (!isPainted()) {
    stop();
    forgetAnswer();
  }
  if ($("live").checked && isPainted()) run();
  else if (!state.job) say(wantedNext());
}

const hasBothStrokes = () => state.seeds.includes(1) && state.seeds.includes(2);
const isPainted = () => $("byGrey").checked || hasBothStrokes(); // enough for a cut

function undo() {
  if (state.mode !== "segment" || !state.undo.length) return;
  state.seeds = state.undo.pop();
  strokesChanged();
}

function clearStrokes() {
  keepForUndo();
  state.seeds.fill(0);
  strokesChanged();
}

let last = null; // where the pointer was, while it paints
let pointer = null; // which it is: a second finger paints nothing

function pointerDown(event) {
  if (!state.picture || event.button > 0 || last) return;
  $("view").setPointerCapture(event.pointerId);
  pointer = event.pointerId;
  last = placeOf(event);
  if (state.mode !== "segment") return slideTo(last);
  state.cursor = null;
  keepForUndo();
  paintLine(last, last);
  draw();
}

function pointerMove(event) {
  if (!last || event.pointerId !== pointer) return;
  if (state.mode !== "segment") return slideTo(placeOf(event));
  for (const part of event.getCoalescedEvents?.() ?? [event]) {
    const to = placeOf(part);
    paintLine(last, to);
    last = to;
  }
  draw();
}

function pointerUp({ pointerId }) {
  if (!last || pointerId !== pointer) return;
  last = null;
  if (state.mode === "segment") strokesChanged();
}

function slideTo({ x }) {
  $("split").value = Math.max(0, Math.min(100, 100 * x / state.picture.width));
  draw();
}

// A key in the picture: true where it was one of its own.
function keyInView({ key, shiftKey }) {
  if (STEPS[key]) return moveCursor(STEPS[key], shiftKey);
  if (state.mode !== "segment" || key !== " ") return false;
  keepForUndo();
  paintLine(cursor(), cursor());
  strokesChanged();
  return true;
}

const cursor = () => (state.cursor ??= { x: state.picture.width / 2, y: state.picture.height / 2 });

function moveCursor([dx, dy], paints) {
  if (state.mode !== "segment") return slideBy(dx);
  const { width, height } = state.picture, from = cursor(), step = Math.max(1, brushSize() / 2);
  const within = (place, most) => Math.max(0, Math.min(most - 1, place));
  const to = (state.cursor = { x: within(from.x + dx * step, width), y: within(from.y + dy * step, height) });
  if (paints) {
    keepForUndo();
    paintLine(from, to);
    strokesChanged();
  }
  draw();
  return true;
}

function slideBy(dx) {
  $("split").value = value("split") + dx * 2;
  draw();
  return dx !== 0;
}

function listenToStrokes() {
  const view = $("view");
  view.addEventListener("pointerdown", pointerDown);
  view.addEventListener("pointermove", pointerMove);
  view.addEventListener("lostpointercapture", pointerUp);
  view.addEventListener("keydown", (event) => { if (state.picture && keyInView(event)) event.preventDefault(); });
  view.addEventListener("blur", () => { state.cursor = null; draw(); });
  $("undo").onclick = undo;
  $("clear").onclick = clearStrokes;
  $("split").addEventListener("input", draw);
}
