// The page: what is asked of the Worker, and what it answers.

const $ = (id) => document.getElementById(id);
const value = (id) => Number($(id).value);
const bytesOf = (text) => Uint8Array.from(atob(text), (letter) => letter.charCodeAt(0));

const state = {
  mode: "segment",
  picture: null, // what was read: { width, height, maxval, samples, colours, from }
  isLeft: false, // whether it was chosen as the left view
  right: null, // the right view
  seeds: null, // the strokes: 0 free, 1 figure, 2 background
  undo: [], // the strokes before each change
  cursor: null, // where the keyboard paints
  last: null, // the answer that is shown: { labels, width, height, maxval, pgm, energy, .., job }
  job: null, // the job that runs
  isAgain: false, // whether another run is due when it ends
};

// --- The Worker ---

const WARMING_CUTS = 8;

let worker = null, whenReady = null, sent = 0, ticking = 0;

// It is compiled once, for each Worker that comes.
const libraryModule = compiled(bytesOf(MODULE));

async function compiled(packed) {
  const stream = new Blob([packed]).stream().pipeThrough(new DecompressionStream("gzip"));
  return WebAssembly.compile(await new Response(stream).arrayBuffer());
}

function newWorker() {
  const source = URL.createObjectURL(new Blob([WORKER], { type: "text/javascript" }));
  const made = new Worker(source);
  URL.revokeObjectURL(source);
  return made;
}

function startWorker() {
  const own = worker = newWorker();
  whenReady = new Promise((ready, failed) => {
    libraryModule.then((module) => own.postMessage({ module }), failed);
    worker.onmessage = ({ data }) => {
      if (data.ready) ready();
      else if (data.id === undefined) failed(new Error(data.failed));
      else hear(data);
    };
    worker.onerror = (event) => failed(new Error(event.message || "the Worker did not start"));
  });
  whenReady.catch((error) => {
    finish();
    say(`This browser cannot run the library: ${error.message}.`, true);
  });
}

// A browser compiles a function well once it has run for a while. So another Worker cuts the example out before the
// first cut that a person asks for.
async function warmUp() {
  const input = writePgm(await examplePicture("figure"), exampleStrokes());
  const options = { low: 128, high: 128, strong: 100, weak: 3, edge: 8, neighbours: 4, cycles: CYCLES };
  const helper = newWorker();
  let left = WARMING_CUTS;
  helper.onmessage = () => (left-- > 0 ? helper.postMessage({ id: 0, command: "segment", input, options }) : helper.terminate());
  helper.postMessage({ module: await libraryModule });
}

function restartWorker() {
  worker.terminate();
  startWorker();
}

function stop() {
  if (!state.job) return;
  restartWorker();
  state.isAgain = false;
  finish();
  say("Stopped.");
}

function finish() {
  state.job = null;
  clearInterval(ticking);
  $("progress").hidden = true;
  showButtons();
}

function hear({ id, found, seconds, memory, failed, broken }) {
  if (id !== sent) return;
  const { job } = state;
  finish();
  if (failed) return tellFailure(failed, broken);
  state.last = { ...found, seconds, memory, job };
  showAnswer();
  draw();
  if (state.isAgain) {
    state.isAgain = false;
    run();
  }
}

function tellFailure(reason, isBroken) {
  state.isAgain = false;
  if (isBroken) restartWorker();
  say(isBroken ? `The run ended by an error that is no refusal: ${reason}. The page goes on with a new Worker.`
    : `Refused: ${reason}.`, true);
}

// --- What is asked ---

const isComplete = () => state.picture && (state.mode !== "stereo" || state.right);
const isReady = () => isComplete() && (state.mode !== "segment" || isPainted());

function wantedNext() {
  if (!state.picture) return "No picture yet.";
  if (isRightViewDue()) return "Now the right view, or both views together.";
  if (!isComplete()) return "Choose the left view, or both views together.";
  if (isReady()) return "Press Run.";
  const strokes = [["figure", 1], ["background", 2]].filter(([, seed]) => !state.seeds.includes(seed));
  return `Paint a stroke on the ${strokes.map(([name]) => name).join(", and one on the ")}.`;
}

const CYCLES = 100;

const JOBS = {
  segment() {
    const { picture } = state, scaled = (id) => Math.round(value(id) * picture.maxval / 255);
    const middle = Math.round(128 * picture.maxval / 255); // the same for both labels: then strokes and edges alone decide
    const [low, high] = $("byGrey").checked ? [scaled("low"), scaled("high")] : [middle, middle];
    return { input: writePgm(picture, { ...picture, maxval: 2, samples: state.seeds }),
      options: { low, high, strong: value("strong"), weak: value("weak"), edge: scaled("edge") } };
  },
  restore() {
    const { picture } = state, levels = value("levels") || Math.min(256, picture.maxval + 1);
    const samples = levelsOf(picture.samples, picture.maxval, levels);
    return { input: writePgm({ ...picture, maxval: levels - 1, samples }),
      options: { smooth: $("smooth").value, trunc: value("trunc"), weight: value("weight") } };
  },
  stereo() {
    return { input: writePgm(state.picture, state.right), options: { labels: value("labels"), cap: value("cap"),
      smooth: $("stereoSmooth").value, trunc: value("stereoTrunc"), weight: value("stereoWeight") } };
  },
};

function jobOf() {
  const { input, options } = JOBS[state.mode]();
  return { command: state.mode, input, options: { ...options, neighbours: value("neighbours"), cycles: CYCLES } };
}

// The program's words for a job.
const wordsOf = ({ command, options }) => ["gco", command, ...Object.entries(options).map(([name, it]) => `--${name} ${it}`)].join(" ");

async function run() {
  if (!isReady()) return say(wantedNext(), true);
  if (state.job) {
    state.isAgain = true;
    return;
  }
  state.job = jobOf();
  showRunning();
  const id = ++sent;
  try {
    await whenReady;
  } catch {
    return; // it was told when it was found
  }
  if (id === sent && state.job) worker.postMessage({ id, ...state.job });
}

// --- What is told ---

function say(words, isWrong = false) {
  $("status").textContent = words;
  $("status").className = isWrong ? "wrong" : "";
}

function showRunning() {
  const begun = performance.now();
  const tick = () => { $("seconds").textContent = `${Math.floor((performance.now() - begun) / 1000)} s`; };
  say("Running ..");
  tick();
  ticking = setInterval(tick, 1000);
  $("progress").hidden = false;
  showButtons();
}

function showButtons() {
  $("stop").disabled = !state.job;
  $("run").disabled = Boolean(state.job) || !isComplete();
}

const grouped = (number) => number.toLocaleString("en");

function showAnswer() {
  const { energy, data, smooth, seconds, job } = state.last;
  say(`Done in ${seconds.toFixed(2)} s.`);
  $("energy").textContent = grouped(energy);
  $("parts").textContent = `${grouped(data)} + ${grouped(smooth)}`;
  $("gap").textContent = gapOf(state.last);
  showCommand(`${wordsOf(job)} < input.pgm > labels.pgm`);
  $("answer").hidden = $("save").hidden = false;
  showSides();
}

// A line ends between two options, and not within one.
function showCommand(words) {
  const parts = words.split(/ (?=[-<>])/).map((part) => Object.assign(document.createElement("span"), { textContent: part }));
  $("command").replaceChildren(...parts.flatMap((part) => [part, " "]));
}

// Of two labels the first expansion reaches each labelling.
function gapOf({ job, bound }) {
  if (job.command === "segment") return "equal: none costs less";
  return bound ? `at most ${(2 * bound.vmax / bound.vmin).toLocaleString("en")} times it` : "";
}

function forgetAnswer() {
  state.last = null;
  $("answer").hidden = $("save").hidden = true;
  showSides();
}

function showSides() {
  $("sides").hidden = state.mode === "segment" || !state.last;
}

// The parts of the page for the mode and for what there is.
function showParts() {
  const { mode, picture } = state, wasInDrop = $("drop").contains(document.activeElement);
  for (const tab of document.querySelectorAll("[role=tab]")) {
    tab.setAttribute("aria-selected", tab.dataset.mode === mode);
    tab.tabIndex = tab.dataset.mode === mode ? 0 : -1;
  }
  for (const part of document.querySelectorAll("[data-for]")) part.hidden = !part.dataset.for.split(" ").includes(mode);
  for (const part of document.querySelectorAll("[data-if]")) part.hidden = !$("byGrey").checked;
  $("drop").hidden = isComplete();
  $("frame").hidden = !isComplete();
  if (wasInDrop && isComplete()) $("view").focus({ preventScroll: true }); // and not on what is hidden now
  $("brushes").hidden = mode !== "segment" || !picture;
  $("dropTitle").textContent = isRightViewDue() ? "Drop the right view here"
    : mode === "stereo" ? "Drop two views here, the left one first" : "Drop a photograph here";
  $("view").className = mode === "segment" ? "painting" : "sliding";
  $("view").setAttribute("aria-label", mode === "segment" ? "The picture, to be painted on" : "The picture before and after");
  $("viewHelp").textContent = mode === "segment" ? "Arrows move the brush, Space paints, Shift with an arrow paints on the way."
    : "The arrows left and right move the border between before and after.";
  showSides();
  showButtons();
}

function setMode(mode) {
  stop();
  state.mode = mode;
  forgetAnswer();
  showParts();
  say(wantedNext());
  draw();
}

// --- Settings and keys ---

function choose(values) {
  for (const [id, it] of Object.entries(values)) {
    $(id).value = it;
    $(id).dispatchEvent(new Event("input"));
  }
}

// A cut follows its settings.
function runAgain() {
  if (state.mode === "segment" && state.last) run();
}

function listenToSettings() {
  for (const label of document.querySelectorAll("fieldset label:has(output)")) {
    const input = label.querySelector("input"), show = () => { label.querySelector("output").textContent = input.value; };
    label.htmlFor = input.id; // and not the output, which stands before it
    input.addEventListener("input", show);
    input.addEventListener("change", runAgain);
    show();
  }
  $("neighbours").onchange = runAgain;
  $("byGrey").onchange = () => {
    showParts();
    if (state.picture) strokesChanged();
  };
  $("levels").onchange = () => choose({ trunc: Math.max(1, (value("levels") || 256) / 4) });
  $("run").onclick = run;
  $("stop").onclick = stop;
}

const BRUSH_KEYS = ["1", "2", "0"];

function keyOfPage(event) {
  const { key, target } = event, isPlain = !event.ctrlKey && !event.metaKey && !event.altKey;
  if (key === "Escape") return stop();
  if (key === "z" && (event.ctrlKey || event.metaKey)) return undo();
  if (!isPlain || !state.picture || target.matches("input[type=file], select, button, summary")) return;
  if (key === "Enter") run();
  if (state.mode !== "segment") return;
  if (BRUSH_KEYS.includes(key)) document.querySelector(`[name=brush][value="${key}"]`).checked = true;
  if (key === "[" || key === "]") choose({ size: value("size") + (key === "]" ? 2 : -2) });
}

function listenToTabs() {
  const tabs = [...document.querySelectorAll("[role=tab]")];
  tabs.forEach((tab, place) => {
    tab.onclick = () => setMode(tab.dataset.mode);
    tab.onkeydown = ({ key }) => {
      const by = { ArrowRight: 1, ArrowLeft: -1 }[key];
      if (!by) return;
      const next = tabs[(place + by + tabs.length) % tabs.length];
      next.focus();
      next.click();
    };
  });
}

listenToSettings();
listenToTabs();
listenToStrokes();
listenToFiles();
document.addEventListener("keydown", keyOfPage);
startWorker();
warmUp().catch(() => {}); // then the first cut takes a little longer
setMode(["segment", "restore", "stereo"].find((mode) => location.hash.startsWith(`#${mode}`)) ?? "segment");
if (location.hash.endsWith("example")) showExample();
