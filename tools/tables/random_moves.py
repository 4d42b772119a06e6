#!/usr/bin/env python3
"""Small random moves between labellings, each with its best answer, worked out over all that it reaches.

Writes the table of the tests of the crate `move_tests`. To make it again, at the top of the repository:

    python3 tools/tables/random_moves.py > crates/move_tests/src/cases.rt

It knows these definitions alone (Boykov, Veksler, Zabih 2001, sections 1 to 3; Kolmogorov, Zabih 2004,
section 4).

A labelling f gives each site a label. Its energy is the sum of D(p, f(p)) over the sites p, plus the sum of
w * V(f(p), f(q)) over the list of pairs (p, q, w). A pair that stands twice in the list counts twice.

Expanding alpha, each site keeps its label or takes alpha. Swapping alpha and beta, each site that has one of
the two takes either of them, and the others keep theirs.

The term of a pair in a move is the table of w * V at 00, 01, 10 and 11, where 0 and 1 stand, at each end, for
its old label and alpha (expansion), or for alpha and beta (swap); an end that the move cannot change has its
one label at both. The term is regular where the entries at 00 and 11 together are at most those at 01 and 10.

A move with a term that is not regular is refused with the first such pair of the list. Any other answers f
where no labelling that it reaches has a lower energy, and else the one of the least energy whose set of sites
labelled alpha (expansion) or beta (swap) lies within that set of every other labelling of that energy.

A row of a table has 98 bytes, in the order that `row_of` tells.
"""

import itertools
import random

COUNT = 500
PAIRS = 6
ROW_SITES, ROW_LABELS, ROW_PAIRS = 6, 4, 7
EXPANSION, SWAP, RUN_OF_EXPANSIONS, RUN_OF_SWAPS = range(4)
KEPT, CHANGED, NOT_REGULAR = range(3)


class Problem:
    """What labels cost sites and pairs of sites, and the list of pairs."""

    def __init__(self, data, smooth, pairs):
        self.data, self.smooth, self.pairs = data, smooth, pairs

    def data_energy(self, labels):
        return sum(self.data[site][label] for site, label in enumerate(labels))

    def pair_cost(self, pair, first, second):
        return pair[2] * self.smooth[first][second]

    def smooth_energy(self, labels):
        return sum(self.pair_cost(pair, labels[pair[0]], labels[pair[1]]) for pair in self.pairs)

    def energy(self, labels):
        return self.data_energy(labels) + self.smooth_energy(labels)


def choices(move, old):
    """The labels that a site with this one may have after the move: at 0 and at 1."""
    kind, alpha, beta = move
    if kind == "expand":
        return old, alpha
    return (alpha, beta) if old in (alpha, beta) else (old, old)


def is_regular(problem, move, labels, pair):
    first, second = choices(move, labels[pair[0]]), choices(move, labels[pair[1]])
    entry = lambda x, y: problem.pair_cost(pair, first[x], second[y])
    return entry(0, 0) + entry(1, 1) <= entry(0, 1) + entry(1, 0)


def best(problem, move, labels):
    """What a move answers: kept, changed or not regular; the labels afterwards; the place of the pair; and
    whether several labellings have the least energy."""
    for place, pair in enumerate(problem.pairs):
        if not is_regular(problem, move, labels, pair):
            return NOT_REGULAR, labels, place, False
    reached = {tuple(it) for it in itertools.product(*(choices(move, label) for label in labels))}
    least = min(problem.energy(it) for it in reached)
    if problem.energy(labels) <= least:
        return KEPT, labels, 0, False
    favoured = move[1] if move[0] == "expand" else move[2]
    chosen = lambda it: {site for site, label in enumerate(it) if label == favoured}
    ties = [it for it in reached if problem.energy(it) == least]
    smallest = [it for it in ties if all(chosen(it) <= chosen(other) for other in ties)]
    assert len(smallest) == 1
    return CHANGED, smallest[0], 0, len(ties) > 1


def random_smooth(draw, labels):
    """Costs of two labels: two kinds of metrics, two that often are none, and any numbers."""
    most = draw.randint(1, 9)
    any_cost = [[draw.randint(0, most) for _ in range(labels)] for _ in range(labels)]
    cost = draw.choice([
        lambda a, b: most * (a != b),
        lambda a, b: min(abs(a - b), most),
        lambda a, b: min((a - b) ** 2, most),
        lambda a, b: any_cost[min(a, b)][max(a, b)] * (a != b),
        lambda a, b: any_cost[a][b],
    ])
    return [[cost(a, b) for b in range(labels)] for a in range(labels)]


def random_pairs(draw, sites):
    """Pairs of unequal sites, some of them twice, some of weight 0."""
    pairs = []
    while sites > 1 and len(pairs) < PAIRS and draw.random() < 0.85:
        if pairs and draw.random() < 0.15:
            pairs.append(draw.choice(pairs))
        else:
            p, q = draw.sample(range(sites), 2)
            pairs.append((p, q, draw.choice([0, 1, 1, 2, 3, 5])))
    return pairs


def random_move(draw):
    """A problem, a move of its labels, and the labels before it."""
    sites, labels = draw.choice([1, 2, 3, 4, 5, 5, 5]), draw.choice([1, 2, 2, 3, 3, 4])
    most = draw.choice([1, 3, 9])
    data = [[draw.randint(0, most) for _ in range(labels)] for _ in range(sites)]
    problem = Problem(data, random_smooth(draw, labels), random_pairs(draw, sites))
    move = (draw.choice(["expand", "swap"]), draw.randrange(labels), draw.randrange(labels))
    return problem, move, tuple(draw.randrange(labels) for _ in range(sites))


def padded(numbers, length):
    return list(numbers) + [0] * (length - len(numbers))


def row_of(kind, allowed, answer, number, move, tables, labels, energies):
    """One row: how many sites, labels and pairs; the kind; the cycles that are allowed; the answer and its
    number; alpha and beta; four data costs of each of six sites; four smooth costs of each of four labels; the
    labels of six sites before and after; seven pairs with their weights; and the data energy and the smooth
    energy after, each of eight digits."""
    data, smooth, pairs = tables
    row = [len(data), len(smooth), len(pairs), kind, allowed, answer, number, *move]
    row += padded([n for costs in data for n in padded(costs, ROW_LABELS)], ROW_SITES * ROW_LABELS)
    row += padded([n for costs in smooth for n in padded(costs, ROW_LABELS)], ROW_LABELS * ROW_LABELS)
    row += [n for it in labels for n in padded(it, ROW_SITES)]
    row += padded([n for pair in pairs for n in pair], 3 * ROW_PAIRS)
    assert all(len(str(it)) == 1 for it in row)
    return "".join(map(str, row)) + "".join(f"{energy:08}" for energy in energies)


def row_of_move(problem, move, labels):
    """A move and its answer as a row."""
    answer, after, place, _ = best(problem, move, labels)
    kind = SWAP if move[0] == "swap" else EXPANSION
    tables = problem.data, problem.smooth, problem.pairs
    return row_of(kind, 0, answer, place, move[1:], tables, (labels, after),
                  (problem.data_energy(after), problem.smooth_energy(after)))


def wanted(draw):
    """Random moves: half of them change the labels, a quarter keep them, a quarter are refused."""
    left = {KEPT: COUNT // 4, CHANGED: COUNT // 2, NOT_REGULAR: COUNT // 4}
    while any(left.values()):
        move = random_move(draw)
        answer = best(*move)[0]
        if left[answer]:
            left[answer] -= 1
            yield move


def print_table(name, kind, rows):
    print(f"/// The {kind}, each a row of `random`.")
    print(f'pub const {name}: &[u8] = b"\\')
    for row in rows:
        print(f"    {row}\\")
    print("\";")


def main():
    moves = list(wanted(random.Random(2001)))
    ties = sum(best(*move)[3] for move in moves)
    twice = sum(len(set(move[0].pairs)) < len(move[0].pairs) for move in moves)
    swaps = sum(move[1][0] == "swap" for move in moves)
    print("//! Small random moves with their best answers. Made by tools/tables/random_moves.py, over all labellings that")
    print(f"//! they reach: {len(moves)} moves, {swaps} of them swaps, {ties} with several answers of the least energy,")
    print(f"//! {twice} with a pair twice.")
    print()
    print_table("MOVES", "moves", [row_of_move(*move) for move in moves])


if __name__ == "__main__":
    main()
