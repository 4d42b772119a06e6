#!/usr/bin/env python3
"""Runs the program on small random pictures and problem files, and compares all that it writes
with the definitions:

    python3 tools/trials/program_by_definition.py --gco crates/gco/out/gco [--count 300] [--seed 1]

Each run is one of `restore`, `stereo`, `segment` and `label`, with random options: expansions and
swaps, Potts, linear and quadratic smooth costs and tables, 4 and 8 neighbours, label costs, weights
that differ, bounds, and at times two threads. What is expected is worked out by trying each
labelling that a move reaches, with the definitions of tools/tables/random_moves.py and
tools/tables/random_costed.py alone. The status is 1 if a run said something else.
"""
import argparse
import collections
import itertools
import random
import subprocess
import sys
from pathlib import Path

sys.path.insert(0, str(Path(__file__).resolve().parents[1] / "tables"))
from random_costed import Costed, bound  # noqa: E402
from random_moves import CHANGED, NOT_REGULAR, best  # noqa: E402
from random_runs import moves_of  # noqa: E402

SEED_COST = 10_000_000
THREADS = ["--threads", "2", "--blocks", "3", "--turns", "4"]


def smooth_table(name, trunc, labels):
    """The smooth costs that a name stands for."""
    cost = {
        "potts": lambda a, b: int(a != b),
        "linear": lambda a, b: min(abs(a - b), trunc),
        "quadratic": lambda a, b: min((a - b) ** 2, trunc),
    }[name]
    return [[cost(a, b) for b in range(labels)] for a in range(labels)]


def neighbours(width, height, reach):
    """The pairs of pixels of a picture, pixel by pixel: right, down, down right, down left."""
    steps = [(1, 0), (0, 1), (1, 1), (-1, 1)][: reach // 2]
    for y, x in itertools.product(range(height), range(width)):
        for across, down in steps:
            if 0 <= x + across < width and y + down < height:
                yield y * width + x, (y + down) * width + x + across


def run_of_moves(problem, kind, cycles, labels, count):
    """How the run ends, the place of the pair and the move if that is refused, and the labels."""
    if kind == "swap" and any(problem.costs):
        return "costs", None, labels
    for _ in range(cycles):
        is_changed = False
        for move in moves_of(kind, count):
            answer, labels, place, _ = best(problem, move, labels)
            if answer == NOT_REGULAR:
                return "refused", (place, move), labels
            is_changed |= answer == CHANGED
        if not is_changed:
            return "settled", None, labels
    return "stopped", None, labels


class Run:
    """One run of the program: its words, its input, and the problem that these stand for."""

    def __init__(self, draw):
        self.draw = draw
        self.options, self.words = {}, []
        self.is_picture = True
        self.costs_given = False
        self.start = None
        getattr(self, draw.choice(["restore", "stereo", "segment", "label", "label"]))()
        self.is_bounded = self.command != "segment" and draw.random() < 0.5
        if self.is_bounded:
            self.words.append("--bound")
        if draw.random() < 0.2:
            self.words += THREADS

    def option(self, name, value):
        """A value of an option, which is left out at times if it is the default."""
        default = {
            "neighbours": 4,
            "moves": "expansion",
            "cycles": 100,
            "smooth": "potts",
            "trunc": 1,
        }
        if value != default.get(name) or self.draw.random() < 0.5:
            self.words += [f"--{name}", str(value)]
        return value

    def picture_of(self, command):
        """The command, a size, and what all pictures have."""
        self.command = command
        self.width, self.height = self.draw.choice(
            [(1, 1), (4, 1), (1, 5), (2, 2), (3, 2), (2, 3), (4, 2), (4, 2)]
        )
        self.sites = self.width * self.height
        self.pairs = list(
            neighbours(self.width, self.height, self.option("neighbours", self.draw.choice([4, 8])))
        )
        self.cycles = self.option("cycles", self.draw.choice([0, 1, 2, 100, 100]))

    def smooth_options(self, labels):
        name = self.option(
            "smooth", self.draw.choice(["potts", "linear", "quadratic", "quadratic"])
        )
        table = smooth_table(name, self.option("trunc", self.draw.choice([1, 2, 3, 3, 9])), labels)
        self.kind = {"expansion": "expand", "swap": "swap"}[
            self.option("moves", self.draw.choice(["expansion", "expansion", "swap"]))
        ]
        weight = self.draw.choice([0, 1, 1, 1, 2, 3, 1000])
        self.words += ["--weight", str(weight)]
        return table, [(p, q, weight) for p, q in self.pairs]

    def samples(self, most):
        """Any samples, or two areas side by side with a step between them."""
        if self.draw.random() < 0.5:
            return [self.draw.randint(0, most) for _ in range(self.sites)]
        areas = self.draw.randint(0, most), self.draw.randint(0, most)
        return [areas[2 * (p % self.width) >= self.width] for p in range(self.sites)]

    def pgm(self, samples, maxval):
        return b"P5\n%d %d\n%d\n" % (self.width, self.height, maxval) + bytes(samples)

    def restore(self):
        self.picture_of("restore")
        maxval = self.draw.choice([1, 2, 2, 3, 4, 5])
        grey = self.samples(maxval)
        self.input, self.count, self.maxval = self.pgm(grey, maxval), maxval + 1, maxval
        smooth, pairs = self.smooth_options(self.count)
        cost = self.draw.choice([None, None, 0, 1, 3])
        if cost is not None:
            self.costs_given = True
            self.words += ["--label-cost", str(cost)]
        data = [[abs(sample - label) for label in range(self.count)] for sample in grey]
        self.problem = Costed(data, smooth, pairs, [cost or 0] * self.count)

    def stereo(self):
        self.picture_of("stereo")
        left, right = self.samples(30), self.samples(30)
        self.input = self.pgm(left, 30) + self.pgm(right, 30)
        self.count, cap = self.draw.choice([1, 2, 3, 4, 4, 5]), self.draw.choice([0, 2, 5, 20, 30])
        self.maxval = max(self.count - 1, 1)
        self.words += ["--labels", str(self.count), "--cap", str(cap)]
        smooth, pairs = self.smooth_options(self.count)
        data = [
            [
                cap if p % self.width < d else min(abs(left[p] - right[p - d]), cap)
                for d in range(self.count)
            ]
            for p in range(self.sites)
        ]
        self.problem = Costed(data, smooth, pairs, [0] * self.count)

    def segment(self):
        self.picture_of("segment")
        grey, seeds = self.samples(9), [
            self.draw.choice([0, 0, 0, 1, 2]) for _ in range(self.sites)
        ]
        self.input = self.pgm(grey, 9) + self.pgm(seeds, 2)
        self.count, self.maxval, self.kind = 2, 1, "expand"
        low, high, strong, weak, edge = (self.draw.randint(0, 9) for _ in range(5))
        for name, value in (
            ("low", low),
            ("high", high),
            ("strong", strong),
            ("weak", weak),
            ("edge", edge),
        ):
            self.words += [f"--{name}", str(value)]
        own = {
            0: lambda sample: [abs(sample - low), abs(sample - high)],
            1: lambda _: [0, SEED_COST],
            2: lambda _: [SEED_COST, 0],
        }
        data = [own[seed](sample) for sample, seed in zip(grey, seeds)]
        pairs = [(p, q, strong if abs(grey[p] - grey[q]) <= edge else weak) for p, q in self.pairs]
        self.problem = Costed(data, smooth_table("potts", 1, 2), pairs, [0, 0])

    def label(self):
        draw = self.draw
        self.command, self.is_picture = "label", False
        self.sites, self.count = draw.randint(1, 7), draw.randint(1, 4)
        most = draw.choice([1, 3, 9, 10_000_000])
        data = [[draw.randint(0, most) for _ in range(self.count)] for _ in range(self.sites)]
        shape, trunc = draw.choice(
            ["potts", "linear", "quadratic", "quadratic", "table", "table", "table"]
        ), draw.randint(1, 9)
        if shape == "table":
            smooth = [[draw.randint(0, 4) for _ in range(self.count)] for _ in range(self.count)]
            if draw.random() < 0.5:
                smooth = [
                    [(a != b) * (4 + smooth[min(a, b)][max(a, b)]) for b in range(self.count)]
                    for a in range(self.count)
                ]
        else:
            smooth = smooth_table(shape, trunc, self.count)
        pairs = [
            (*draw.sample(range(self.sites), 2), draw.choice([0, 1, 1, 2, 5]))
            for _ in range(draw.randrange(12) if self.sites > 1 else 0)
        ]
        self.costs_given = draw.random() < 0.4
        costs = (
            [draw.choice([0, 1, 3, most]) for _ in range(self.count)]
            if self.costs_given
            else [0] * self.count
        )
        self.kind, self.cycles = draw.choice(["expand", "expand", "swap"]), draw.choice(
            [0, 1, 2, 100, 100]
        )
        self.start = tuple(draw.randrange(self.count) for _ in range(self.sites))
        self.problem = Costed(data, smooth, pairs, costs)
        named = f'"{shape}"' if shape != "table" else [cost for row in smooth for cost in row]
        lines = [
            f"sites = {self.sites}",
            f"labels = {self.count}",
            f"data = {[cost for row in data for cost in row]}",
            f"smooth = {named}",
            f"trunc = {trunc}",
            f"pairs = {[list(pair) for pair in pairs]}",
            f"start = {list(self.start)}",
            f'moves = "{"swap" if self.kind == "swap" else "expansion"}"',
            f"cycles = {self.cycles}",
        ]
        if self.costs_given:
            lines.append(f"label_costs = {costs}")
        draw.shuffle(lines)
        self.input = ("\n".join(lines) + "\n").encode()

    def expected(self):
        """How the run ends, its status, and what it writes to both outputs."""
        start = self.start or (0,) * self.sites
        ended, refused, labels = run_of_moves(
            self.problem, self.kind, self.cycles, start, self.count
        )
        if ended == "costs":
            return ended, 1, b"", b"refused 27\n"
        if ended == "refused":
            place, (_, alpha, beta) = refused
            also = f" beta {beta}" if self.kind == "swap" else ""
            return ended, 1, b"", f"refused 24 pair {place} alpha {alpha}{also}\n".encode()
        problem = self.problem
        line = f"energy {problem.energy(labels)} data {problem.data_energy(labels)}"
        line += f" smooth {problem.smooth_energy(labels)}"
        line += f" label {problem.label_energy(labels)}\n" if self.costs_given else "\n"
        least, most = bound(problem) if ended == "settled" and self.kind == "expand" else (0, 0)
        last = (
            (f"bound {least} {2 * most}\n" if most else "bound none\n") if self.is_bounded else ""
        )
        if self.is_picture:
            return ended, 0, self.pgm(labels, self.maxval), (line + last).encode()
        listed = " ".join(["labels", *map(str, labels)]) + "\n"
        return ended, 0, (line + listed + last).encode(), b""


def main():
    parser = argparse.ArgumentParser(description=__doc__.split("\n")[0])
    parser.add_argument("--gco", required=True)
    parser.add_argument("--count", type=int, default=300)
    parser.add_argument("--seed", type=int, default=1)
    options = parser.parse_args()
    draw, counts, wrong = random.Random(options.seed), collections.Counter(), 0
    for turn in range(options.count):
        run = Run(draw)
        ended, *wanted = run.expected()
        done = subprocess.run(
            [options.gco, run.command, *run.words], input=run.input, capture_output=True, timeout=60
        )
        counts[f"{run.command} {ended}"] += 1
        if [done.returncode, done.stdout, done.stderr] != wanted:
            wrong += 1
            print(
                f"run {turn}: gco {run.command} {' '.join(run.words)}\n{run.input!r}\n"
                f"wanted {wanted}\nand there was {done}"
            )
    print(", ".join(f"{count} {kind}" for kind, count in sorted(counts.items())))
    print(f"{options.count} runs, {wrong} wrong")
    missing = [
        kind
        for kind in (
            "label costs",
            "label refused",
            "restore costs",
            "restore settled",
            "stereo settled",
            "segment settled",
        )
        if not counts[kind]
    ]
    if missing:
        print(f"no run of these: {', '.join(missing)}")
    sys.exit(1 if wrong or missing else 0)


if __name__ == "__main__":
    main()
