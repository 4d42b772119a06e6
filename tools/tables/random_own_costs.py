#!/usr/bin/env python3
"""Small random moves and runs over pairs that each have costs of their own, each with its answer, worked out over all
labellings.

Writes the table of such rows in the tests of the crate `move_tests`. To make it again, at the top of the repository:

    python3 tools/tables/random_own_costs.py > crates/move_tests/src/own_costs.rt

It knows the definitions of tools/tables/random_moves.py and of a run in tools/tables/random_runs.py, but for this one:
the energy of a labelling f has the sum of V_n(f(p), f(q)) over the list of pairs, where (p, q) is the n-th pair from 0.
A pair that stands twice has costs of its own each time.

A row begins with the 98 bytes of tools/tables/random_runs.py, in which the smooth costs and the weights are 0. Then come
sixteen costs of each of seven pairs: four of each of four labels of its first site, a byte each. Their limit is
10,000,000.
"""

import random

from random_moves import (CHANGED, EXPANSION, KEPT, NOT_REGULAR, ROW_LABELS, ROW_PAIRS, RUN_OF_EXPANSIONS, RUN_OF_SWAPS,
                          SWAP, Problem, padded, print_table, row_of)
from random_moves import best as best_move
from random_runs import DATA, REFUSED, SETTLED, STOPPED, random_byte, random_pairs, run, value

MOVED, RUN = 200, 100
PAIR_COST = 10_000_000


class OwnCosts(Problem):
    """A problem whose pairs each have costs of their own. The third number of a pair is its place in the list."""

    def pair_cost(self, pair, first, second):
        return self.smooth[pair[2]][first][second]


def random_costs(draw, labels, mixed):
    """The costs of one pair as bytes: two that each move finds regular, one that some do, and any numbers."""
    most = draw.randint(1, 9)
    any_cost = [[random_byte(draw, mixed) for _ in range(labels)] for _ in range(labels)]
    alike = draw.choice("abcdM") if mixed else str(most)
    shift = draw.randint(-1, 1)
    kinds = [
        lambda a, b: alike if a != b else "0",
        lambda a, b: str(min(abs(a - b), most)),
        lambda a, b: str(min(abs(a - b + shift), most)),
        lambda a, b: any_cost[a][b],
    ]
    cost = draw.choices(kinds, [4, 4, 1, 1])[0]
    return [[cost(a, b) for b in range(labels)] for a in range(labels)]


def random_problem(draw):
    """A problem, its tables as bytes, and the labels before."""
    mixed = draw.random() < 0.25
    sites, labels = draw.choice([2, 3, 4, 5, 6, 6]), draw.choice([2, 2, 3, 3, 4, 4])
    data = [[random_byte(draw, mixed) for _ in range(labels)] for _ in range(sites)]
    pairs = [(p, q, place) for place, (p, q, _) in enumerate(random_pairs(draw, sites, False))]
    costs = [random_costs(draw, labels, mixed) for _ in pairs]
    problem = OwnCosts([[value(byte, DATA) for byte in row] for row in data],
                       [[[value(byte, PAIR_COST) for byte in row] for row in table] for table in costs], pairs)
    return problem, (data, pairs, costs), tuple(draw.randrange(labels) for _ in range(sites))


def row_of_answer(problem, tables, kind, allowed, answer, number, move, labels):
    """A move or a run and its answer as a row."""
    data, pairs, costs = tables
    none = [["0"] * len(data[0]) for _ in data[0]]
    after = labels[1]
    row = row_of(kind, allowed, answer, number, move, (data, none, [(p, q, 0) for p, q, _ in pairs]), labels,
                 (problem.data_energy(after), problem.smooth_energy(after)))
    for table in costs:
        row += "".join(map(str, padded([byte for line in table for byte in padded(line, ROW_LABELS)],
                                       ROW_LABELS * ROW_LABELS)))
    return row + "0" * (ROW_LABELS * ROW_LABELS * (ROW_PAIRS - len(costs)))


def random_move(draw):
    """A move and its answer, and its row."""
    problem, tables, labels = random_problem(draw)
    count = len(tables[0][0])
    move = (draw.choice(["expand", "swap"]), draw.randrange(count), draw.randrange(count))
    answer, after, place, _ = best_move(problem, move, labels)
    kind = SWAP if move[0] == "swap" else EXPANSION
    return answer, row_of_answer(problem, tables, kind, 0, answer, place, move[1:], (labels, after))


def random_run(draw):
    """A run and its answer, and its row. Of a refused run, the labels changed before."""
    problem, tables, labels = random_problem(draw)
    kind, allowed = draw.choice(["expand", "swap"]), draw.choice([1, 2, 2, 3, 3, 4])
    answer, number, move, steps = run(problem, kind, allowed, labels, len(tables[0][0]))
    after = steps[-1][-1] if steps else labels
    row = row_of_answer(problem, tables, RUN_OF_SWAPS if kind == "swap" else RUN_OF_EXPANSIONS, allowed, answer, number,
                        move[1:] if move else (0, 0), (labels, after))
    return (None if after == labels else answer), row


def wanted(draw, left, make):
    """Rows of so many of each kind of answer."""
    while any(left.values()):
        answer, row = make(draw)
        if left.get(answer):
            left[answer] -= 1
            yield row


def main():
    draw = random.Random(2004)
    moves = list(wanted(draw, {KEPT: MOVED // 4, CHANGED: MOVED // 2, NOT_REGULAR: MOVED // 4}, random_move))
    runs = list(wanted(draw, {STOPPED: RUN // 4, SETTLED: RUN // 2, REFUSED: RUN // 4}, random_run))
    print("//! Small random moves and runs over pairs with costs of their own, with their answers. Made by")
    print("//! tools/tables/random_own_costs.py, over all labellings.")
    print()
    print_table("MOVES", "moves", moves)
    print()
    print_table("RUNS", "runs", runs)


if __name__ == "__main__":
    main()
