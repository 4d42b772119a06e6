#!/usr/bin/env python3
"""Measures runs that are watched beside runs that are not, as the table of docs/PYTHON.md:
make -C bindings measure_watched, or

    PYTHONPATH=bindings/dist/python tools/pictures/measure_watched.py [--turns 7] [--narrow]

A photograph with noise is labelled by one call, by a run that may be stopped, and by one that tells
its progress, in turn, so often. The first three columns are the least seconds of the processor.
"Over" is the greater of the last two over the first. "Calls" says how often progress was told, and
"longest" by the clock how long it took at most from one call to the next: Ctrl-C is answered within
that time.
"""
import argparse
import time

import numpy as np

import gco_proved as gco
from measure_tiles import photograph

CASES = [(256, 8), (512, 4), (512, 32)]


def problem(side, levels, narrow):
    """The photograph in so many levels: linear costs, cut off at a quarter of them."""
    samples = np.rint(photograph((side, side)) * ((levels - 1) / 255)).astype(int)
    kind = np.int32 if narrow else np.int64
    data = abs(samples[..., None] - np.arange(levels)).astype(kind)
    return data, gco.linear(levels, max(levels // 4, 1)), gco.grid_pairs(side, side)


def timed(call):
    began = time.process_time()
    return call(), time.process_time() - began


def measured(side, levels, options):
    data, smooth, pairs = problem(side, levels, options.narrow)
    told, least = [], [float("inf")] * 3
    longest = calls = 0
    for _ in range(options.turns):
        told = [time.monotonic()]
        ways = [dict(stoppable=False), dict(stoppable=True),
                dict(progress=lambda *_: told.append(time.monotonic()))]
        found, labels = [], None
        for place, way in enumerate(ways):
            told[:] = [time.monotonic()]
            answer, seconds = timed(lambda: gco.label(data, smooth, pairs, **way))
            least[place] = min(least[place], seconds)
            found.append(answer.energy)
            labels = answer.labels if labels is None else labels
            assert (answer.labels == labels).all()
        assert len(set(found)) == 1, found
        calls = len(told) - 1
        longest = max([longest, *(later - now for now, later in zip(told, told[1:]))])
    one, stoppable, watched = least
    print(f"| {side} x {side}, {levels} | {one:.3f} | {stoppable:.3f} | {watched:.3f} |"
          f" {max(stoppable, watched) / one:.2f} | {calls} | {longest:.2f} s |", flush=True)


def main():
    parser = argparse.ArgumentParser(description=__doc__.split("\n")[0])
    parser.add_argument("--turns", type=int, default=7, help="runs of each kind (7)")
    parser.add_argument("--narrow", action="store_true", help="costs of 32 bits, and not of 64")
    parser.add_argument("--short", action="store_true", help="an eighth of the sides: whether it"
                        " runs")
    options = parser.parse_args()
    print("| Pixels, levels | One call | `stoppable` | `progress` | Over | Calls | Longest |")
    print("|---|---|---|---|---|---|---|")
    for side, levels in CASES:
        measured(side // 8 if options.short else side, levels, options)


if __name__ == "__main__":
    main()
