#!/usr/bin/env python3
"""Tries the page in real browsers, by its own buttons, beside the built program and the native library.

    python3 tests/test_page.py --page gco.html --module gco.wasm --package gco.tgz --library PATH --gco PATH \
        --shots FOLDER

The first thing that is not as it should be ends the run in status 1.
"""
import argparse
import functools
import http.server
import subprocess
import sys
import tarfile
import tempfile
import threading
import time
from pathlib import Path

HERE = Path(__file__).resolve().parent
sys.path[:0] = [str(HERE), str(HERE.parent)]

from browsers import Chromium, Firefox
from cases import WANTED_STATUSES, Native, random_cases, statuses
from wasm_module import edited, with_memory_of

EXAMPLES = HERE.parent.parent / "examples"
EXPORTS = ["__heap_base", "gco_free", "gco_malloc", "gco_restore_pgm", "gco_segment_pgm", "gco_stereo_pgm", "memory"]
PAGE_LIMIT = 300_000

# Each picture: the mode, the files, the settings, the program's words.
PICTURES = [
    ("segment", ["seeded.pgm"], {"byGrey": True, "low": 40, "high": 170, "strong": 90, "weak": 40, "edge": 60},
     "--low 40 --high 170 --strong 90 --weak 40 --edge 60"),
    ("restore", ["noisy.pgm"], {"levels": 0, "smooth": "potts", "weight": 4}, "--weight 4"),
    ("stereo", ["dots.pgm"], {"labels": 8, "cap": 80, "stereoWeight": 30, "stereoSmooth": "potts"},
     "--labels 8 --cap 80 --weight 30"),
    ("segment", ["camera.jpg", "painted.png"], {"byGrey": False, "strong": 100, "weak": 3, "edge": 8},
     "--low 128 --high 128 --strong 100 --weak 3 --edge 8"),
    ("restore", ["photo.jpg"], {"most": 65536, "levels": 8, "smooth": "linear", "weight": 1, "trunc": 2},
     "--smooth linear --trunc 2"),
    ("restore", ["photo.jpg"], {"most": 262144, "levels": 8, "smooth": "linear", "weight": 1, "trunc": 2},
     "--smooth linear --trunc 2"),
    ("segment", ["camera.jpg", "painted.png"], {"byGrey": True, "low": 40, "high": 170, "neighbours": 8},
     "--low 40 --high 170 --strong 100 --weak 3 --edge 8 --neighbours 8"),
    ("stereo", ["left.jpg", "right.jpg"], {"neighbours": 4, "labels": 40, "cap": 30, "stereoWeight": 8,
     "stereoSmooth": "linear", "stereoTrunc": 4}, "--labels 40 --smooth linear --trunc 4 --weight 8 --cap 30"),
]


def wants(holds, what):
    if not holds:
        raise SystemExit(f"test_page: {what}")


def bytes_of(browser, expression):
    """An array of bytes of the page."""
    return bytes.fromhex(browser.run(
        f"return Array.from({expression}, (byte) => byte.toString(16).padStart(2, '0')).join('')"))


def settle(browser, **values):
    """Sets settings as a person does."""
    for name, value in values.items():
        now = browser.run(
            "const [name, value] = arguments, input = document.getElementById(name);"
            " if (input.type === 'checkbox') input.checked = value; else input.value = value;"
            " input.dispatchEvent(new Event('input')); input.dispatchEvent(new Event('change'));"
            " return input.type === 'checkbox' ? input.checked : input.value", name, value)
        wants(str(now) == str(value), f"the setting {name} is {now}, and not {value}")


def load(browser, paths):
    browser.run("if (state.picture) state.picture.isOld = true")
    browser.choose_files("#another", paths)
    browser.wait("return state.picture && !state.picture.isOld")


def answered(browser, seconds=200):
    """The sentence that ends a run."""
    browser.wait("return !state.job && !/^Running/.test(document.getElementById('status').textContent)", seconds)
    return browser.said()


def run_now(browser):
    browser.run("forgetAnswer()")
    browser.click("#run")
    said = answered(browser)
    wants(browser.run("return state.last !== null"), f"a run has no answer: {said}")


# --- The module ---

def try_module(browser, page, limit=PAGE_LIMIT):
    size = page.stat().st_size
    wants(size <= limit, f"the page has {size:,} bytes, and {limit:,} are allowed")
    wants("://" not in page.read_text().replace("http://www.w3.org", ""), "the page names an address")
    browser.run("window.told = null;"
                "fetch('data:,').then(() => 'open', () => 'closed').then((it) => { window.told = it; })")
    wants(browser.wait("return window.told") == "closed", "the browser lets the page fetch")
    browser.run(
        "window.told = null; libraryModule.then((made) => { window.told = { imports: WebAssembly.Module.imports(made),"
        " exports: WebAssembly.Module.exports(made).map((it) => it.name) }; })")
    found = browser.wait("return window.told")
    wants(found["imports"] == [], f"the module imports {found['imports']}")
    wants(sorted(found["exports"]) == EXPORTS, f"the module exports {found['exports']}")


def try_random_calls(browser, cases):
    """The cases in a Worker of its own, made of the page's own parts."""
    browser.run(
        "window.told = null;"
        "const own = WORKER + arguments[0] + `\\nonmessage = async ({ data }) => {"
        " library = await instantiate(data.module);"
        " postMessage(differing(library, Refused, data.cases)); };`;"
        "const tried = new Worker(URL.createObjectURL(new Blob([own], { type: 'text/javascript' })));"
        "tried.onerror = (event) => { window.told = { wrong: [String(event.message)] }; };"
        "tried.onmessage = ({ data }) => { window.told = { wrong: data }; tried.terminate(); };"
        "const cases = arguments[1]; libraryModule.then((module) => tried.postMessage({ module, cases }))",
        (HERE / "compare.js").read_text(), cases)
    wrong = browser.wait("return window.told", 250)["wrong"]
    wants(wrong == [], f"{browser.name} answers otherwise than the native library: {wrong}")


# --- The page's own buttons ---

class Program:
    """The built program, which is asked each question once."""

    def __init__(self, path):
        self.path, self.known = path, {}

    def answer(self, words, asked):
        """The picture that a command writes, and the seconds that it takes."""
        question = (*words, asked)
        if question not in self.known:
            begun = time.time()
            ran = subprocess.run([self.path, *words], input=asked, capture_output=True)
            wants(ran.returncode == 0, f"gco {' '.join(words)} says {ran.stderr.decode()}")
            self.known[question] = ran.stdout, time.time() - begun
        return self.known[question]


def try_pictures(browser, native, program):
    """Each by the page, the native library and the program: by the words that are meant, and by those that the page tells."""
    for mode, names, settings, words in PICTURES:
        browser.click(f"[data-mode={mode}]")
        settle(browser, live=False, **{name: it for name, it in settings.items() if name == "most"})
        load(browser, [EXAMPLES / names[0]] if names[-1] == "painted.png" else [EXAMPLES / name for name in names])
        if names[-1] == "painted.png":
            browser.choose_files("#strokes", [EXAMPLES / names[-1]])
            browser.wait("return hasBothStrokes()")
        settle(browser, **settings)
        run_now(browser)
        taken = browser.run("return state.last.seconds")
        asked, found = bytes_of(browser, "state.last.job.input"), bytes_of(browser, "state.last.pgm")
        options = {"moves": "expansion", "labelCost": 0, **browser.run("return state.last.job.options")}
        wants(native.answer(mode, options, asked)["pgm"] == found.hex(),
              f"{mode} of {names}: the page's bytes are not the native library's")
        for command in (f"{mode} {words}", browser.run("return wordsOf(state.last.job)").removeprefix("gco ")):
            wanted, seconds = program.answer(command.split(), asked)
            wants(found == wanted, f"the page's bytes are not those of gco {command}")
        print(f"  {mode} {'+'.join(names)}: the same bytes; {taken:.2f} s, and {seconds:.2f} s by the program", flush=True)


def tell_times(browser, gco):
    """How long a cut out of 512 by 512 pixels takes in a fresh page, and how long the program takes for it."""
    settle(browser, live=False, most=262144)
    load(browser, [EXAMPLES / "camera.jpg"])
    browser.choose_files("#strokes", [EXAMPLES / "painted.png"])
    browser.wait("return hasBothStrokes()")
    time.sleep(2)  # less than a person takes to paint
    seconds = []
    for _ in range(8):
        run_now(browser)
        seconds.append(browser.run("return state.last.seconds"))
    words, asked = browser.run("return wordsOf(state.last.job)").split()[1:], bytes_of(browser, "state.last.job.input")
    least = min(Program(gco).answer(words, asked)[1] for _ in range(8))
    print(f"  cut out of 512 by 512: {seconds[0]:.3f} s, then at least {min(seconds[1:]):.3f} s; by the program at least"
          f" {least:.3f} s", flush=True)


def try_strokes(browser):
    """A stroke in the figure and one on the background, by mouse, and a third by a finger; undo, rubber, keys."""
    browser.click("[data-mode=segment]")
    settle(browser, live=True, byGrey=False, size=14, neighbours=4)
    load(browser, [EXAMPLES / "camera.jpg"])
    half = browser.run("return document.getElementById('view').getBoundingClientRect().height") / 2
    browser.drag("#view", [(-0.12 * half, -0.1 * half), (-0.1 * half, 0.3 * half), (-0.2 * half, 0.6 * half)])
    wants(browser.said() == "Paint a stroke on the background.", f"after one stroke: {browser.said()}")
    browser.click("[name=brush][value='2']")
    browser.drag("#view", [(-0.8 * half, -0.85 * half), (0.6 * half, -0.85 * half), (0.85 * half, 0.2 * half)])
    answered(browser)
    first = bytes_of(browser, "state.last.pgm")
    wants(0 < first[-512 * 512:].count(0) < 512 * 512, "two strokes part nothing")
    browser.touch("#view", [(-0.8 * half, 0), (-0.75 * half, 0.3 * half), (-0.7 * half, 0.4 * half)], (0, 0))
    answered(browser)
    wants(browser.run("return state.undo.length") == 3, "a finger with another one beside it paints no stroke, or two")
    browser.click("#undo")
    answered(browser)
    wants(bytes_of(browser, "state.last.pgm") == first, "undo does not bring the answer of before")
    browser.click("[name=brush][value='0']")
    painted = browser.run("return state.seeds.filter(Boolean).length")
    browser.drag("#view", [(-0.12 * half, -0.1 * half), (-0.1 * half, 0.1 * half)])
    answered(browser)
    wants(browser.run("return state.seeds.filter(Boolean).length") < painted, "the rubber takes nothing away")
    try_keys(browser)


def try_keys(browser):
    """The same without a pointer."""
    browser.click("#clear")
    browser.keys("#view", "1", " ", "")
    wants(browser.run("return state.seeds.includes(1)"), "Space paints nothing")
    browser.keys("#view", "2", *["\ue013"] * 30, " ")
    answered(browser)
    wants(browser.run("return hasBothStrokes() && state.last !== null"), "keys alone make no cut")
    browser.keys("[name=brush][value='2']", "0")
    wants(browser.run("return brush()") == 0, "a key changes no brush where a brush has the focus")
    browser.keys("#view", "\ue009z")
    wants(browser.run("return state.last === null && !hasBothStrokes()"), "Ctrl Z keeps a cut of strokes that are gone")
    had = browser.run("return state.undo.length")
    browser.click("[data-mode=restore]")
    browser.keys("#view", "\ue009z")
    wants(browser.run("return state.undo.length") == had, "Ctrl Z undoes strokes that are not shown")


def try_stop(browser):
    browser.click("[data-mode=stereo]")
    load(browser, [EXAMPLES / "left.jpg"])
    wants(browser.said() == "Now the right view, or both views together.", f"with one view: {browser.said()}")
    browser.choose_files("#file", [EXAMPLES / "right.jpg"])
    browser.wait("return state.right")
    settle(browser, labels=128, stereoSmooth="linear", stereoTrunc=4, stereoWeight=8)
    browser.click("#run")
    time.sleep(1)
    wants(browser.run("return state.job !== null"), "a long run is over after a second")
    browser.click("#stop")
    wants(browser.said() == "Stopped." and browser.run("return state.job === null"), "Stop does not stop")
    settle(browser, labels=4)
    run_now(browser)


def try_sentences(browser, folder):
    """What is wrong is told in a sentence, and the page goes on."""
    browser.click("[data-mode=segment]")
    broken, huge = folder / "broken.jpg", folder / "huge.pgm"
    broken.write_bytes((EXAMPLES / "camera.jpg").read_bytes()[:60])
    browser.choose_files("#another", [broken])
    browser.wait("return /broken.jpg is no picture/.test(document.getElementById('status').textContent)")
    huge.write_bytes(b"P5\n3000 2000\n255\n" + bytes(range(250)) * 24000)
    load(browser, [huge])
    note = browser.run("return document.getElementById('note').hidden || document.getElementById('note').textContent")
    wants(note == "The picture has 3000 by 2000 pixels. It was made smaller: 627 by 418.", f"a huge picture: {note}")
    browser.click("#run")
    wants(browser.said() == "Paint a stroke on the figure, and one on the background.", f"no strokes: {browser.said()}")
    settle(browser, live=False, byGrey=True)
    browser.run("JOBS.kept = JOBS.segment; JOBS.segment = () => ({ ...JOBS.kept(), options: { low: 70000, high: 0 } })")
    browser.click("#run")
    said = answered(browser)
    wants(said == "Refused: the option low is out of its range.", f"an option out of its range: {said}")
    browser.run("JOBS.segment = () => ({ input: null, options: { low: 0, high: 0 } })")
    browser.click("#run")
    said = answered(browser)
    wants(said.startswith("The run ended by an error that is no refusal"), f"an error: {said}")
    browser.run("JOBS.segment = JOBS.kept")
    run_now(browser)


def made_page(module, folder, name):
    """The page with another module."""
    path = folder / f"{name}.wasm"
    path.write_bytes(module)
    subprocess.run([sys.executable, HERE.parent / "make_page.py", path, folder / f"{name}.html"], check=True,
                   stdout=subprocess.DEVNULL)
    return (folder / f"{name}.html").as_uri()


def try_little_memory(browser, module, folder):
    """A module of 12 MB at most refuses a large run, and does a small one."""
    browser.open(made_page(with_memory_of(module, 192), folder, "little"))
    browser.click("[data-mode=restore]")
    settle(browser, levels=8, trunc=2)
    load(browser, [EXAMPLES / "photo.jpg"])
    browser.click("#run")
    said = answered(browser)
    wants(said == "Refused: there is not enough memory.", f"with little memory: {said}")
    load(browser, [EXAMPLES / "noisy.pgm"])
    run_now(browser)


def with_small_stack(module):
    """The module whose stack begins at 256 in place of 1 MiB: the first global is the stack's pointer."""
    found = bytes([0x42, 0x80, 0x80, 0xC0, 0x00])  # i64.const 1048576
    wants(module.count(found) >= 1, "the stack of the module does not begin at 1 MiB")
    return edited(module, 6, lambda body: body.replace(found, bytes([0x42, 0x80, 0x82, 0x80, 0x00]), 1))


def try_deep_stack(browser, module, folder):
    """A stack that is too deep ends the Worker with a sentence: it reaches addresses that are out of bounds."""
    browser.open(made_page(with_small_stack(module), folder, "deep"))
    browser.click("[data-mode=restore]")
    load(browser, [EXAMPLES / "noisy.pgm"])
    browser.click("#run")
    said = answered(browser)
    wants(said.startswith("The run ended by an error that is no refusal"), f"with a small stack: {said}")


class Quiet(http.server.SimpleHTTPRequestHandler):
    def log_message(self, *words):
        pass


def try_package(browser, package, folder):
    """The package, as another page imports it from a server."""
    with tarfile.open(package) as archive:
        archive.extractall(folder)
    (folder / "other.html").write_text(
        '<!doctype html><script type="module">import { load } from "./package/gco.mjs"; const gco = await load();'
        " window.told = gco.restore({ width: 3, height: 1, maxval: 3, samples: [0, 3, 0] }, { labelCost: 2 }).energy;"
        "</script>")
    with http.server.ThreadingHTTPServer(("127.0.0.1", 0), functools.partial(Quiet, directory=folder)) as server:
        threading.Thread(target=server.serve_forever, daemon=True).start()
        browser.open(f"http://127.0.0.1:{server.server_port}/other.html")
        energy = browser.wait("return window.told", 20)
        server.shutdown()
    wants(energy == 5, f"a page that imports the package is told the energy {energy}")


# --- What it looks like ---

def shoot(browser, page, folder):
    """Four states at each size."""
    for width, height in browser.sizes:
        browser.size(width, height)
        browser.open(page)
        browser.wait("return document.getElementById('status').textContent !== ''")
        browser.shot(folder / f"{browser.name}_start_{width}.png")
        for mode in ("segment", "restore", "stereo"):
            browser.open(f"{page}#{mode}-example")
            browser.wait("return state.last !== null && !state.job")
            time.sleep(0.3)
            browser.shot(folder / f"{browser.name}_{mode}_{width}.png")
            wide = browser.run("return document.documentElement.scrollWidth")
            wants(wide <= width, f"at {width} the page is {wide} wide")
        unnamed = browser.run(
            "return [...document.querySelectorAll('button, input, select, canvas')].filter((it) => !it.labels?.length"
            " && !it.textContent.trim() && !it.getAttribute('aria-label')).map((it) => it.outerHTML)")
        wants(unnamed == [], f"without a label: {unnamed}")
    browser.size(*browser.sizes[0])


def main():
    parser = argparse.ArgumentParser(description=__doc__.split("\n")[0])
    for name in ("page", "module", "package", "gco", "library", "shots"):
        parser.add_argument(f"--{name}", type=Path, required=True)
    parser.add_argument("--count", type=int, default=2000)
    options = parser.parse_args()
    native, program = Native(options.library.resolve()), Program(options.gco.resolve())
    cases = random_cases(options.library.resolve(), options.count, 1)
    print(f"{len(cases)} random calls by status: {statuses(cases)}", flush=True)
    wants(set(statuses(cases)) == WANTED_STATUSES, "the random calls do not have each status")
    options.shots.mkdir(parents=True, exist_ok=True)
    for make in (Chromium, Firefox):
        browser = make()
        try:
            try_browser(browser, options, native, program, cases)
        finally:
            browser.close()
    print(f"test_page: all passed; the screenshots are in {options.shots}")


def try_browser(browser, options, native, program, cases):
    page, module = options.page.resolve(), options.module.read_bytes()

    def step(what, call, *values):
        begun = time.time()
        call(browser, *values)
        print(f"{browser.name}: {what}: {time.time() - begun:.1f} s", flush=True)

    with tempfile.TemporaryDirectory() as room:
        folder = Path(room)
        browser.open(page.as_uri())
        step("the module", try_module, page)
        browser.complaints()  # of the fetch
        step("times", tell_times, program.path)
        step("the random calls", try_random_calls, cases)
        step("eight pictures", try_pictures, native, program)
        step("strokes by mouse, finger and keys, undo, rubber", try_strokes)
        step("Stop, and the next run", try_stop)
        step("a broken file, a huge one, no strokes, a number out of its range, an error", try_sentences, folder)
        step("screenshots", shoot, page.as_uri(), options.shots)
        wants(browser.complaints() == [], "the console complains")
        step("memory refused, and the next run", try_little_memory, module, folder)
        step("a stack that is too deep", try_deep_stack, module, folder)
        step("the package in another page", try_package, options.package, folder)


if __name__ == "__main__":
    main()
