#!/usr/bin/env python3
"""Small random problems of `gco label` with what the program says of each, worked out over all labellings.

Writes the table of the problems in the tests of the crate `gco_tests`. To make it again, at the top of the
repository:

    python3 tools/tables/random_problems.py > crates/gco_tests/src/labels/problems.rt

It knows the definitions of tools/tables/random_moves.py and of a run in tools/tables/random_runs.py, the costs that the
names of `smooth` stand for, and the lines that docs/LABEL.md tells. The fields of a problem stand in any
order, and half of those that have the value that is meant where they are missing are left out.
"""

import random

from random_moves import Problem
from random_runs import REFUSED, kind_of, run

COUNT, PAIRS, WIDTH = 300, 7, 102
DATA, SMOOTH, WEIGHT = 10_000_000, 10_000, 1_000


def random_cost(draw, most, limit):
    """A cost up to the most, or where there is none also the limit or anything up to it."""
    if most is not None:
        return draw.randint(0, most)
    return draw.choice([0, 1, draw.randint(0, limit), limit])


def table_of(cost, labels):
    return [[cost(a, b) for b in range(labels)] for a in range(labels)]


def random_smooth(draw, labels):
    """Costs of two labels: their table, and the fields for them. Of the tables that are not named some are
    metrics, some are only symmetric with 0 for equal labels, and some not even that."""
    cut, most, least = draw.randint(1, 9), draw.choice([2, 5, 5, None]), draw.randint(1, 4)
    named = {"potts": lambda a, b: int(a != b),
             "linear": lambda a, b: min(abs(a - b), cut),
             "quadratic": lambda a, b: min((a - b) ** 2, cut)}
    any_cost = table_of(lambda a, b: random_cost(draw, most, SMOOTH), labels)
    both_ways = lambda a, b: any_cost[min(a, b)][max(a, b)] * (a != b)
    listed_ones = {"metric": lambda a, b: (least + both_ways(a, b) % (least + 1)) * (a != b),
                   "symmetric": both_ways,
                   "any": lambda a, b: any_cost[a][b]}
    name = draw.choice([*named, *listed_ones, "any"])
    if name in named:
        return table_of(named[name], labels), {"smooth": f"'{name}'", "trunc": cut}
    table = table_of(listed_ones[name], labels)
    return table, {"smooth": listed(cost for row in table for cost in row)}


def random_pairs(draw, sites):
    """Pairs of unequal sites with their weights, some of them twice or turned about, some of weight 0."""
    pairs = []
    while len(pairs) < PAIRS and draw.random() < 0.87:
        if pairs and draw.random() < 0.2:
            p, q, weight = draw.choice(pairs)
            pairs.append(draw.choice([(p, q, weight), (q, p, weight)]))
        else:
            weight = draw.choice([0, 1, 1, 1, 1, 2, 2, 3, 5, draw.choice([7, WEIGHT])])
            pairs.append((*draw.sample(range(sites), 2), weight))
    return pairs


def listed(items):
    return "[" + ",".join(map(str, items)) + "]"


def shown_pair(draw, pair):
    """A pair; its weight is mostly left out where it is 1."""
    return listed(pair[:2] if pair[2] == 1 and draw.random() < 0.7 else pair)


def fields_of(draw, fields, sites):
    """The fields, in any order, without half of those whose value is meant where they are missing."""
    missing = {"smooth": "'potts'", "trunc": 1, "pairs": "[]", "start": listed([0] * sites),
               "moves": "'expansion'", "cycles": 100}
    kept = [it for it in fields.items() if it[1] != missing.get(it[0]) or draw.random() < 0.5]
    draw.shuffle(kept)
    return [f"{name}={value}" for name, value in kept]


def random_problem(draw):
    """A problem, its kind of moves, its cycles, its start, how many labels it has, and its fields."""
    sites, labels = draw.randint(2, 7), draw.randint(2, 4)
    most = draw.choice([1, 3, 9, 9, None])
    data = [[random_cost(draw, most, DATA) for _ in range(labels)] for _ in range(sites)]
    smooth, fields = random_smooth(draw, labels)
    pairs = random_pairs(draw, sites)
    is_anywhere = draw.random() < 0.8
    start = tuple(draw.choice([0, draw.randrange(labels)]) * is_anywhere for _ in range(sites))
    kind, cycles = draw.choice(["expand", "swap"]), draw.choice([0, 1, 1, 2, 3, 4, 100, 1000])
    fields |= {"sites": sites, "labels": labels, "data": listed(cost for row in data for cost in row),
               "pairs": listed(shown_pair(draw, pair) for pair in pairs), "start": listed(start),
               "moves": "'swap'" if kind == "swap" else "'expansion'", "cycles": cycles}
    return Problem(data, smooth, pairs), kind, cycles, start, labels, fields_of(draw, fields, sites)


def said(problem, answer, number, move, after):
    """The lines that the program says."""
    if answer == REFUSED:
        kind, alpha, beta = move
        return [f"refused 24 pair {number} alpha {alpha}" + (f" beta {beta}" if kind == "swap" else "")]
    data, smooth = problem.data_energy(after), problem.smooth_energy(after)
    return [f"energy {data + smooth} data {data} smooth {smooth}", "labels " + " ".join(map(str, after))]


def wanted(draw):
    """Random problems of each kind of answer, so many of each: the row, and whether it is of swaps."""
    left = {"refused at once": 20, "refused after a change": 40, "refused with no change": 15, "stopped": 75,
            "settled after one cycle": 30, "settled after two cycles": 60, "settled after more cycles": 60}
    assert sum(left.values()) == COUNT
    while any(left.values()):
        problem, kind, cycles, start, labels, fields = random_problem(draw)
        answer, number, move, after, came = run(problem, kind, cycles, start, labels)
        told = kind_of(answer, number, came, after != start)
        if left[told]:
            left[told] -= 1
            lines = said(problem, answer, number, move, after)
            yield ";".join(fields) + "|" + ";".join(lines) + ";", kind == "swap"


def broken(row):
    """A row in lines of at most the width. A pair is not broken."""
    line, piece, depth = "", "", 0
    for mark in row:
        piece += mark
        depth += (mark == "[") - (mark == "]")
        if mark in ";|" or mark == "," and depth == 1:
            if len(line) + len(piece) > WIDTH:
                yield line
                line = ""
            line, piece = line + piece, ""
    yield line


def main():
    rows = list(wanted(random.Random(2004)))
    swaps = sum(is_swap for _, is_swap in rows)
    print("//! Small random problems with what `gco label` says of them. Made by tools/tables/random_problems.py,")
    print(f"//! over all labellings: {COUNT} problems, {swaps} of them of swaps, 75 that a refused move ends,")
    print("//! 40 of these after a change.")
    print()
    print("/// A line for each problem: its file, a bar, what is said. A semicolon ends a line of these.")
    print('pub const PROBLEMS: &str = "\\')
    for row, _ in rows:
        *lines, last = broken(row)
        for line in lines:
            print(f"    {line}\\")
        print(f"    {last}\\n\\")
    print('";')


if __name__ == "__main__":
    main()
