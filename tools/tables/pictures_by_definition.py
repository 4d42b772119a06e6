#!/usr/bin/env python3
"""Answers the image commands on tiny pictures by definition: every labelling that a move reaches is tried.

    python3 tools/tables/pictures_by_definition.py

prints the expected values of the tests in crates/picture_tests: of each case the labels where the chain of best
moves from all 0 ends, and both parts of its energy. It shares nothing with the program.
"""

import itertools


def smooth_cost(shape, trunc, a, b):
    if shape == "potts":
        return int(a != b)
    return min(abs(a - b) if shape == "linear" else (a - b) ** 2, trunc)


def neighbours(width, height, eight):
    """The pairs of pixels that share an edge, or an edge or a corner."""
    for p, q in itertools.combinations(range(width * height), 2):
        dx, dy = abs(p % width - q % width), abs(p // width - q // width)
        if dx + dy == 1 or (eight and max(dx, dy) == 1):
            yield p, q


def energies(problem, labels):
    """The two parts of the energy of a labelling."""
    data = sum(problem["data"](p, label) for p, label in enumerate(labels))
    smooth = sum(w * problem["smooth"](labels[p], labels[q]) for p, q, w in problem["pairs"])
    return data, smooth


def best(problem, move, old):
    """The best labelling that a move reaches, ties by the fewest sites of its favoured label."""
    if move[0] == "expand":
        choices = [(label, move[1]) if label != move[1] else (label,) for label in old]
    else:
        choices = [move[1:] if label in move[1:] else (label,) for label in old]
    reached = list(itertools.product(*choices))
    least = min(sum(energies(problem, new)) for new in reached)
    if sum(energies(problem, old)) == least:
        return old
    ties = [new for new in reached if sum(energies(problem, new)) == least]
    return min(ties, key=lambda new: sum(label == move[-1] for label in new))


def run(problem, swaps, cycles):
    """Where the chain from all 0 ends."""
    k = problem["labels"]
    moves = [("swap", a, b) for a in range(k) for b in range(a + 1, k)] if swaps else [("expand", a) for a in range(k)]
    now = (0,) * problem["sites"]
    for _ in range(cycles):
        before = now
        for move in moves:
            now = best(problem, move, now)
        if now == before:
            break
    return now, energies(problem, now)


def least(problem, swaps=False, cycles=0):
    """The least energy of all labellings, and the problem. It may stand in for `run`."""
    every = itertools.product(range(problem["labels"]), repeat=problem["sites"])
    return min(sum(energies(problem, labels)) for labels in every), problem


def restore(width, maxval, samples, shape="potts", trunc=1, weight=1, eight=False, swaps=False, cycles=100, solve=run):
    height = len(samples) // width
    problem = {
        "sites": len(samples), "labels": maxval + 1,
        "data": lambda p, label: abs(samples[p] - label),
        "smooth": lambda a, b: smooth_cost(shape, trunc, a, b),
        "pairs": [(p, q, weight) for p, q in neighbours(width, height, eight)],
    }
    return solve(problem, swaps, cycles)


def stereo(width, left, right, labels=16, cap=20, shape="potts", trunc=1, weight=1, eight=False, swaps=False, cycles=100, solve=run):
    height = len(left) // width
    problem = {
        "sites": len(left), "labels": labels,
        "data": lambda p, d: cap if p % width < d else min(abs(left[p] - right[p - d]), cap),
        "smooth": lambda a, b: smooth_cost(shape, trunc, a, b),
        "pairs": [(p, q, weight) for p, q in neighbours(width, height, eight)],
    }
    return solve(problem, swaps, cycles)


def segment(width, samples, seeds, low, high, strong=20, weak=5, edge=5, eight=False, cycles=100, solve=run):
    height = len(samples) // width
    mean = (low, high)

    def data(p, label):
        if seeds[p] == 0:
            return abs(samples[p] - mean[label])
        return 0 if seeds[p] == label + 1 else 10_000_000

    problem = {
        "sites": len(samples), "labels": 2, "data": data, "smooth": lambda a, b: int(a != b),
        "pairs": [(p, q, strong if abs(samples[p] - samples[q]) <= edge else weak)
                  for p, q in neighbours(width, height, eight)],
    }
    return solve(problem, False, cycles)


def main():
    for name, answer in [
        ("restore", restore(3, 3, [0, 3, 0])),
        ("restore weight 2", restore(3, 3, [0, 3, 0], weight=2)),
        ("restore linear 2", restore(3, 3, [0, 3, 0], shape="linear", trunc=2)),
        ("restore cycles 0", restore(3, 3, [0, 3, 0], cycles=0)),
        ("restore swaps", restore(3, 3, [0, 3, 0], swaps=True)),
        ("restore one pixel", restore(1, 255, [7])),
        ("restore 2 by 2, four", restore(2, 3, [0, 3, 3, 0])),
        ("restore 2 by 2, eight", restore(2, 3, [0, 3, 3, 0], eight=True)),
        ("restore 2 by 2, eight, weight 2", restore(2, 3, [0, 3, 3, 1], eight=True, weight=2)),
        ("restore ramp linear", restore(5, 4, [0, 1, 4, 3, 4], shape="linear", trunc=2)),
        ("restore ramp linear swaps", restore(5, 4, [0, 1, 4, 3, 4], shape="linear", trunc=2, swaps=True)),
        ("stereo", stereo(4, [0, 9, 0, 0], [9, 0, 0, 0], labels=2, cap=9)),
        ("stereo rows", stereo(3, [5, 7, 9, 1, 5, 7], [7, 9, 9, 5, 7, 7], labels=3, cap=4)),
        ("stereo one label", stereo(2, [3, 4], [3, 1], labels=1)),
        ("segment", segment(3, [10, 12, 200], [1, 0, 2], 11, 200)),
        ("segment edge", segment(2, [10, 15], [0, 0], 10, 16, strong=3, weak=0)),
        ("segment past edge", segment(2, [10, 16], [0, 0], 10, 16, strong=3, weak=0)),
        ("segment eight", segment(2, [0, 9, 9, 0], [1, 2, 0, 0], 0, 9, strong=2, weak=1, edge=0, eight=True)),
    ]:
        print(name, *answer)


if __name__ == "__main__":
    main()
