#!/usr/bin/env python3
"""Measures gco_proved.tiles, as the tables of docs/LARGE.md: make -C bindings measure_tiles, or

    PYTHONPATH=bindings/dist/python tools/pictures/measure_tiles.py [PART ..] [--jobs 4] [--short]

whole       a photograph with noise of 1,000 x 1,000 pixels, by one call of gco.label, and by tiles
            in turn and by processes: the energy above that of the one call, and the times over its
            time, by the clock and of the processor
photograph  one of 12,000,000 pixels by python3 -m gco: segment along strokes, and restore of 32
            levels
volume      10^8 sites of four labels from a memory map, in turn and by processes
band        segments of 1,600 x 1,200 pixels, in bands of several widths: how many pixels are free,
            and the energy. These do not hang on the machine

Without a PART it does all four. Each line is of one run. Memory is the greatest sum over the
processes of a run, where a page that some of them share counts once. Files are made in a folder of
their own, in --folder if that is given; those of the volume are 500 MB. With --short all sides are
an eighth, and the photograph has 1.2 million pixels: so it is seen that all of it runs.
"""
import argparse
import os
import pathlib
import subprocess
import sys
import tempfile
import threading
import time

import numpy as np
from PIL import Image, ImageOps

import gco_proved as gco
from gco_proved.pictures import commands, large
from gco_proved.pictures.options import command_line
from gco_proved.tiles import label_tiles

EXAMPLES = pathlib.Path(__file__).resolve().parents[2] / "examples"
CASES = [(4, "potts", 1), (4, "potts", 4), (16, "linear", 1), (32, "linear", 1)]
GAIN = 0.001  # as python3 -m gco has it
PICTURE, SHORT_PICTURE, BANDED = (3000, 4000), (1000, 1200), (1200, 1600)


def side_of(whole, short):
    return whole // 8 if short else whole


def enlarged(name, sides, kind):
    """A picture of examples/ at so many rows and columns."""
    return Image.open(EXAMPLES / name).convert("L").resize(sides[::-1], kind)


def photograph(sides):
    """A photograph of so many rows and columns, with noise of a standard deviation of 20."""
    clean = np.asarray(enlarged("camera.jpg", sides, Image.BICUBIC))
    noise = np.random.default_rng(1).normal(0, 20, sides)
    return np.rint(np.clip(clean + noise, 0, 255)).astype(np.uint8)


def timed(call):
    """What a call answers, its seconds by the clock, and of the processor with its processes."""
    clock, processor = time.monotonic(), sum(os.times()[:4])
    answer = call()
    return answer, time.monotonic() - clock, sum(os.times()[:4]) - processor


def family(parent):
    """A process and those that it and its processes started."""
    children = {}
    for folder in pathlib.Path("/proc").glob("[0-9]*"):
        try:
            above = (folder / "stat").read_text().rpartition(")")[2].split()[1]
        except OSError:
            continue
        children.setdefault(int(above), []).append(int(folder.name))
    found = [parent]
    for one in found:
        found += children.get(one, [])
    return found


def memory(process):
    """The bytes of a process in memory, its share of the pages that others have too."""
    try:
        rollup = pathlib.Path(f"/proc/{process}/smaps_rollup").read_text()
    except OSError:
        return 0
    shares = (line for line in rollup.splitlines() if line.startswith("Pss:"))
    return 1024 * sum(int(line.split()[1]) for line in shares)


class Peak:
    """The greatest memory of a process and its processes while the block runs, seen five times a
    second."""

    def __init__(self, process):
        self.process, self.bytes, self.ended = process, 0, threading.Event()
        self.thread = threading.Thread(target=self._look, daemon=True)

    def _look(self):
        while not self.ended.wait(0.2):
            self.bytes = max(self.bytes, sum(map(memory, family(self.process))))

    def __enter__(self):
        self.thread.start()
        return self

    def __exit__(self, *_):
        self.ended.set()
        self.thread.join()


def whole(jobs, _, short):
    side = side_of(1000, short)
    print("| Labels, smooth, weight | One call | Energy | In turn | Processes | Settled |")
    print("|---|---|---|---|---|---|")
    for levels, name, weight in CASES:
        samples = np.rint(photograph((side, side)) * ((levels - 1) / 255)).astype(int)
        data = abs(samples[..., None] - np.arange(levels)).astype(np.int32)
        smooth = gco.potts(levels) if name == "potts" else gco.linear(levels, levels // 4)
        one, clock, processor = timed(lambda: gco.label(
            data, smooth, gco.grid_pairs(side, side, weight), stoppable=False))

        def above(found):
            return f"{100 * (found.energy / one.energy - 1):+.4f} %"

        found, turn, busy = timed(lambda: label_tiles(data, smooth, weight, least_gain=GAIN))
        _, by_jobs, _ = timed(lambda: label_tiles(
            data, smooth, weight, least_gain=GAIN, executor=jobs))
        settled = label_tiles(data, smooth, weight, start=found.labels, executor=jobs)
        print(f"| {levels}, {name}, {weight} | {clock:.1f} s, {one.energy:,} | {above(found)} |"
              f" {turn / clock:.2f} ({busy / processor:.2f}) | {by_jobs / clock:.2f} |"
              f" {above(settled)} |", flush=True)


def stroked(folder, sides):
    """A photograph in colour, and strokes on it."""
    clean = enlarged("camera.jpg", sides, Image.BICUBIC)
    ImageOps.colorize(clean, "navy", "white", "peru").save(folder / "clean.jpg", quality=95)
    enlarged("painted.png", sides, Image.NEAREST).save(folder / "painted.png")


def large_photograph(jobs, folder, short):
    sides = SHORT_PICTURE if short else PICTURE
    stroked(folder, sides)
    Image.fromarray(photograph(sides)).save(folder / "noisy.jpg", quality=95)
    print("| python3 -m gco | By the clock | Processor | Memory | Energy |")
    print("|---|---|---|---|---|")
    for words in ("segment clean.jpg painted.png out.png",
                  "segment clean.jpg painted.png out.png --like edges",
                  "restore noisy.jpg out.jpg"):
        command = [sys.executable, "-m", "gco_proved", *words.split(), "--jobs", str(jobs)]
        run, clock, processor = timed(lambda: watched(command, folder))
        said, peak = run
        print(f"| `{words}` | {clock:.1f} s | {processor:.1f} s | {peak >> 20:,} MB |"
              f" {said.splitlines()[-1]} |", flush=True)


def watched(command, folder):
    """What a command says on standard error, and its greatest memory."""
    with subprocess.Popen(command, cwd=folder, stderr=subprocess.PIPE, text=True) as run, \
            Peak(run.pid) as peak:
        said = run.communicate()[1]
    if run.returncode:
        raise SystemExit(f"{' '.join(command)} ended with {run.returncode}:\n{said}")
    return said, peak.bytes


def volume(jobs, folder, short):
    side = side_of(10_000, short)
    made_volume(folder / "costs.npy", side)
    for executor in (None, jobs):
        costs = np.load(folder / "costs.npy", mmap_mode="r")
        labels = np.lib.format.open_memmap(folder / "labels.npy", "w+", np.uint8, (side, side))
        with Peak(os.getpid()) as peak:
            found, clock, processor = timed(lambda: label_tiles(
                costs, gco.potts(4), out=labels, least_gain=GAIN, executor=executor))
        print(f"{side * side:,} sites, {executor or 1} processes: {clock:.0f} s by the clock,"
              f" {processor:.0f} s of processor, {peak.bytes >> 20:,} MB; energies"
              f" {found.energies}", flush=True)


def made_volume(path, side):
    """Squares of four greys with noise, as costs of one byte on the disk."""
    costs = np.lib.format.open_memmap(path, "w+", np.uint8, (side, side, 4))
    rng = np.random.default_rng(1)
    for row in range(0, side, 256):
        part = slice(row, min(row + 256, side))
        grey = (np.add.outer(np.arange(side)[part] // 90, np.arange(side) // 70) % 4
                + (rng.random((part.stop - part.start, side)) < 0.2)) % 4
        costs[part] = abs(grey[..., None] - np.arange(4))
    costs.flush()


def banded(jobs, folder, short):
    stroked(folder, SHORT_PICTURE if short else BANDED)
    print("| Band | Free pixels, smooth by `edges` | Free pixels, energy by `colours` |")
    print("|---|---|---|")
    ended = {}
    for large.BAND in (2, 4, 8, 16, 32):
        cells = []
        for like in ("edges", "colours"):
            told, free, task = segmented(folder, like, jobs)
            ended[like] = told, task
            cells.append(f"{100 * free:.1f} %, {worth(told, like):,}")
        print(f"| {large.BAND} | {' | '.join(cells)} |", flush=True)
    cells = [f"{worth(by_halves(*ended[like], jobs), like):,}" for like in ("edges", "colours")]
    print(f"| tiles of half the picture after it | {' | '.join(cells)} |", flush=True)


def segmented(folder, like, jobs):
    """What segment finds in a band along the border, the share of free pixels, and its task."""
    words = ["segment", folder / "clean.jpg", folder / "painted.png", folder / "out.png"]
    options = command_line("").parse_args([*map(str, words), "--like", like, "--jobs", str(jobs)])
    options.moves = "expansion"
    task = commands.segment(options)
    first = large.first_labels(task.data, task.smooth, task.pairs, options, False)
    told = label_tiles(task.data, task.smooth, task.pairs, shape=task.data.shape,
                       connect=task.pairs.connect, start=first.labels, free=first.free,
                       least_gain=GAIN, executor=jobs)
    return told, first.free.mean(), task


def worth(found, like):
    """The energy; by edges without what the pixels cost, which is the same for each labelling."""
    return found.smooth if like == "edges" else found.energy


def by_halves(found, task, jobs):
    """What tiles of half the sides lower from there, all pixels free."""
    half = tuple((side + 1) // 2 for side in task.data.shape)
    return label_tiles(task.data, task.smooth, task.pairs, shape=task.data.shape, tile=half,
                       connect=task.pairs.connect, start=found.labels, executor=jobs)


PARTS = {"whole": whole, "photograph": large_photograph, "volume": volume, "band": banded}


def main():
    parser = argparse.ArgumentParser(description=__doc__.split("\n")[0])
    parser.add_argument("parts", nargs="*", metavar="PART", help="whole, photograph, volume, band")
    parser.add_argument("--jobs", type=int, default=4)
    parser.add_argument("--folder", type=pathlib.Path)
    parser.add_argument("--short", action="store_true")
    options = parser.parse_args()
    unknown = set(options.parts) - set(PARTS)
    if unknown:
        parser.error(f"no such part: {', '.join(sorted(unknown))}")
    with tempfile.TemporaryDirectory(dir=options.folder) as made:
        for name in options.parts or PARTS:
            PARTS[name](options.jobs, pathlib.Path(made), options.short)


if __name__ == "__main__":
    main()
