#!/usr/bin/env python3
"""Measures gco beside the same expansions over the library maxflow, where each pair of sites has a
table of its own: montages of photographs that are made up.

    make bench-pairs                                    all sizes, five runs of each: a minute
    make bench-pairs BENCH_OPTIONS='--rounds 9'         more runs

The costs are those of `examples/montage.py`. Both programs read the same file and run in turn.
Each measures itself, from the costs in memory to the labels: the seconds of the table are those of
the processor. Of each the least counts. "Times" is gco's seconds over those of maxflow. The labels
have to be the same, byte for byte, and the energies too: else the status is 1. The table goes to
standard output and into the folder --out.
"""
import argparse
import math
import re
import subprocess
import sys
from pathlib import Path

from pair_problems import photographs, write_problem

HERE = Path(__file__).resolve().parent
TOP = HERE.parent

# The side in pixels, how many photographs, the seed.
MONTAGES = [(64, 3, 1), (128, 3, 2), (128, 4, 3), (256, 4, 4), (256, 8, 5)]
TIMES = re.compile(r"clock (\S+) processor (\S+)\n")


def package_of(dist):
    """gco's package for Python, and `examples/montage.py`, which stands on it."""
    package = dist / "python"
    if not (package / "gco_proved").is_dir():
        sys.exit(f"{package}/gco_proved is missing: make -C bindings")
    sys.path[:0] = [str(package), str(TOP / "examples")]
    import gco_proved
    import montage

    return gco_proved, montage


def make_problems(folder, dist):
    """Writes the problem of each montage that the folder does not have."""
    folder.mkdir(parents=True, exist_ok=True)
    gco, montage = package_of(dist)
    for side, count, seed in MONTAGES:
        path = problem_path(folder, side, count)
        if not path.exists():
            greys = photographs(side, count, seed)
            pairs = gco.grid_pairs(side, side)
            data = montage.data_of(greys).reshape(-1, count)
            write_problem(path, data, montage.tables_of(greys, pairs), pairs)


def problem_path(folder, side, count):
    return folder / f"montage{side}_{count}.bin"


def run_once(program, path):
    """What one run answers, labels and words, and its seconds by the clock and the processor."""
    run = subprocess.run([program, path], capture_output=True, check=False)
    said = run.stderr.decode()
    times = TIMES.search(said)
    if run.returncode or not times:
        sys.exit(f"{program} {path}: status {run.returncode}: {said}")
    clock, processor = map(float, times.groups())
    return {"answer": (run.stdout, TIMES.sub("", said)), "clock": clock, "processor": processor}


def best_of(runs):
    """The least of each figure, and the one answer; it ends the program if there are two."""
    if len({run["answer"] for run in runs}) != 1:
        sys.exit("one program answered twice, and not the same")
    return {key: min(run[key] for run in runs) for key in runs[0]}


def measure(programs, path, rounds):
    """The best of each program, of so many rounds in turn."""
    runs = [[] for _ in programs]
    for _ in range(rounds):
        for program, found in zip(programs, runs):
            found.append(run_once(program, path))
            print(".", end="", file=sys.stderr, flush=True)
    return list(map(best_of, runs))


def mean(ratios):
    """The geometric mean."""
    return math.exp(sum(map(math.log, ratios)) / len(ratios))


def table_of(measured):
    """The lines of the table, and whether an answer differs."""
    lines = [
        "| montage | gco, s | maxflow, s | times, by the clock | by the processor | labels |",
        "|---|---|---|---|---|---|",
    ]
    clocks, processors, differ = [], [], False
    for (side, count, _), (ours, theirs) in zip(MONTAGES, measured):
        clocks.append(ours["clock"] / theirs["clock"])
        processors.append(ours["processor"] / theirs["processor"])
        is_same = ours["answer"] == theirs["answer"]
        differ |= not is_same
        lines.append(
            f"| {side} x {side}, {count} photographs "
            f"| {ours['processor']:.4f} | {theirs['processor']:.4f} "
            f"| {clocks[-1]:.2f} | {processors[-1]:.2f} | {'same' if is_same else '**differ**'} |"
        )
    lines.append(
        f"| mean (most) | | | {mean(clocks):.2f} ({max(clocks):.2f}) "
        f"| {mean(processors):.2f} ({max(processors):.2f}) | {'differ' if differ else 'same'} |"
    )
    return lines, differ


def parsed():
    parser = argparse.ArgumentParser(
        description=__doc__, formatter_class=argparse.RawDescriptionHelpFormatter
    )
    parser.add_argument("--gco", default=HERE / "out/pair_gco", type=Path)
    parser.add_argument("--peer", default=HERE / "out/pair_peer", type=Path)
    parser.add_argument("--dist", default=TOP / "bindings/dist", type=Path)
    parser.add_argument("--rounds", type=int, default=5, help="runs of each program, at least 5")
    parser.add_argument("--out", default=HERE / "out", type=Path)
    options = parser.parse_args()
    if options.rounds < 5:
        parser.error("--rounds: at least 5 runs are wanted")
    for program in (options.gco, options.peer):
        if not program.exists():
            parser.error(f"{program} is missing: make bench-pairs makes it")
    return options


def main():
    options = parsed()
    folder = options.out / "inputs"
    make_problems(folder, options.dist)
    programs = [options.gco.resolve(), options.peer.resolve()]
    measured = [
        measure(programs, problem_path(folder, side, count), options.rounds)
        for side, count, _ in MONTAGES
    ]
    print(file=sys.stderr)
    lines, differ = table_of(measured)
    text = "\n".join(lines) + "\n"
    print(text, end="")
    (options.out / "pairs.md").write_text(text, encoding="utf-8")
    sys.exit(1 if differ else 0)


if __name__ == "__main__":
    main()
