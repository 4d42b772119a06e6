#!/usr/bin/env python3
"""Small random runs of moves between labellings, each with its answer, worked out over all labellings.

Writes the table of the runs in the tests of the crate `move_tests`. To make it again, at the top of the
repository:

    python3 tools/tables/random_runs.py > crates/move_tests/src/chains.rt

It knows the definitions of tools/tables/random_moves.py, and these. A cycle of expansions takes the labels in rising
order; a cycle of swaps takes each two labels alpha < beta in dictionary order. A run makes cycles of moves, each
move from the labelling that the move before it answered. It ends after the cycles that are allowed, or after the
first cycle that ends with the labelling that it began with, and is then settled. A refused move ends the run,
which keeps the labelling that the moves before made.

A row has the form of tools/tables/random_moves.py. A byte of its costs and weights is a number: a digit is itself; a
small letter is the limit of what stands there less the letter's place in the alphabet, from 0; a capital is so
many parts of 27 of the limit, from 1. The limits are 10,000,000 for a data cost, 10,000 for a smooth cost and
1,000 for a weight.
"""

import itertools
import random

from random_moves import RUN_OF_EXPANSIONS, RUN_OF_SWAPS, Problem, is_regular, print_table, row_of

COUNT = 300
PAIRS = 7
DATA, SMOOTH, WEIGHT = 10_000_000, 10_000, 1_000
STOPPED, SETTLED, REFUSED = range(3)


def value(byte, most):
    """The number that a byte stands for."""
    if byte.isdigit():
        return int(byte)
    if byte.islower():
        return most - (ord(byte) - ord("a"))
    return most * (ord(byte) - ord("A") + 1) // 27


def is_reached(move, old, new):
    """May a site's label become this one by the move?"""
    kind, alpha, beta = move
    if kind == "expand":
        return new in (old, alpha)
    return new in (alpha, beta) if old in (alpha, beta) else new == old


def best(problem, move, labels, count):
    """The best labelling of a move, chosen among all labellings of so many labels."""
    reached = [it for it in itertools.product(range(count), repeat=len(labels))
               if all(is_reached(move, old, new) for old, new in zip(labels, it))]
    least = min(problem.energy(it) for it in reached)
    if problem.energy(labels) <= least:
        return labels
    favoured = move[1] if move[0] == "expand" else move[2]
    chosen = lambda it: {site for site, label in enumerate(it) if label == favoured}
    ties = [it for it in reached if problem.energy(it) == least]
    smallest = [it for it in ties if all(chosen(it) <= chosen(other) for other in ties)]
    assert len(smallest) == 1
    return smallest[0]


def moves_of(kind, count):
    if kind == "expand":
        return [("expand", alpha, 0) for alpha in range(count)]
    return [("swap", alpha, beta) for alpha in range(count) for beta in range(alpha + 1, count)]


def run(problem, kind, allowed, labels, count):
    """The answer of a run, its number (of cycles, or of the pair), the move that was refused, and the moves that
    were made: the whole cycles before each, the move, and the labels before and after it."""
    steps = []
    for cycle in range(allowed):
        before = labels
        for move in moves_of(kind, count):
            for place, pair in enumerate(problem.pairs):
                if not is_regular(problem, move, labels, pair):
                    return REFUSED, place, move, steps
            steps.append((cycle, move, labels, best(problem, move, labels, count)))
            labels = steps[-1][-1]
        if labels == before:
            return SETTLED, cycle + 1, None, steps
    return STOPPED, allowed, None, steps


def random_byte(draw, mixed):
    """A small number, or where numbers are mixed also a great one or one between."""
    if not mixed:
        return str(draw.randint(0, draw.choice([1, 3, 9])))
    return draw.choice("0123456789" + "abcdefghij" + "AGMNTZ")


def random_smooth(draw, labels, mixed):
    """Costs of two labels as bytes: two kinds of metrics, two that often are none, and any numbers."""
    most = draw.randint(1, 9)
    any_cost = [[random_byte(draw, mixed) for _ in range(labels)] for _ in range(labels)]
    alike = draw.choice("abcdM") if mixed else str(most)
    cost = draw.choice([
        lambda a, b: alike if a != b else "0",
        lambda a, b: str(min(abs(a - b), most)),
        lambda a, b: str(min((a - b) ** 2, most)),
        lambda a, b: any_cost[min(a, b)][max(a, b)] if a != b else "0",
        lambda a, b: any_cost[a][b],
    ])
    return [[cost(a, b) for b in range(labels)] for a in range(labels)]


def random_pairs(draw, sites, mixed):
    """Pairs of unequal sites with their weights as bytes, some of them twice, some of weight 0."""
    pairs = []
    while sites > 1 and len(pairs) < PAIRS and draw.random() < 0.88:
        if pairs and draw.random() < 0.15:
            pairs.append(draw.choice(pairs))
        else:
            weight = draw.choice("0112358" + ("abzM" if mixed else ""))
            pairs.append((*draw.sample(range(sites), 2), weight))
    return pairs


def random_run(draw):
    """A run and its answer as a row, with what its kind of answer is told by, and the moves that were made."""
    mixed = draw.random() < 0.25
    sites, labels = draw.choice([1, 2, 3, 4, 5, 6, 6]), draw.choice([1, 2, 2, 3, 3, 4, 4])
    data = [[random_byte(draw, mixed) for _ in range(labels)] for _ in range(sites)]
    smooth, pairs = random_smooth(draw, labels, mixed), random_pairs(draw, sites, mixed)
    problem = Problem([[value(byte, DATA) for byte in row] for row in data],
                      [[value(byte, SMOOTH) for byte in row] for row in smooth],
                      [(p, q, value(weight, WEIGHT)) for p, q, weight in pairs])
    kind, allowed = draw.choice(["expand", "swap"]), draw.choice([0, 1, 2, 2, 3, 3, 4, 4])
    start = tuple(draw.randrange(labels) for _ in range(sites))
    answer, number, move, steps = run(problem, kind, allowed, start, labels)
    after = steps[-1][-1] if steps else start
    row = row_of(RUN_OF_SWAPS if kind == "swap" else RUN_OF_EXPANSIONS, allowed, answer, number,
                 move[1:] if move else (0, 0), (data, smooth, pairs), (start, after),
                 (problem.data_energy(after), problem.smooth_energy(after)))
    return (answer, number, len(steps) + (answer == REFUSED), after != start, row), steps


def kind_of(answer, number, came, changed):
    """The kind of an answer, of which the table has so many."""
    if answer == REFUSED:
        return "refused at once" if came == 1 else "refused after a change" if changed else "refused with no change"
    if answer == STOPPED:
        return "stopped"
    return "settled after " + ("one cycle" if number == 1 else "two cycles" if number == 2 else "more cycles")


def wanted(draw):
    left = {"refused at once": 20, "refused after a change": 45, "refused with no change": 15, "stopped": 80,
            "settled after one cycle": 20, "settled after two cycles": 60, "settled after more cycles": 60}
    assert sum(left.values()) == COUNT
    while any(left.values()):
        *told, row = random_run(draw)[0]
        if left[kind_of(*told)]:
            left[kind_of(*told)] -= 1
            yield row


def main():
    rows = list(wanted(random.Random(1999)))
    swaps = sum(row[3] == str(RUN_OF_SWAPS) for row in rows)
    print("//! Small random runs with their answers. Made by tools/tables/random_runs.py, over all labellings:")
    print(f"//! {len(rows)} runs, {swaps} of them of swaps, 80 that a refused move ends, 45 of these after a change.")
    print()
    print_table("RUNS", "runs", rows)


if __name__ == "__main__":
    main()
