#!/usr/bin/env python3
"""Small random moves and runs where labels cost something by themselves, and small random runs over metrics, each
with its answer and its bound, worked out over all labellings.

Writes the table of such rows in the tests of the crate `move_tests`. To make it again, at the top of the repository:

    python3 tools/tables/random_costed.py > crates/move_tests/src/costs.rt

It knows the definitions of tools/tables/random_moves.py and of a run in tools/tables/random_runs.py, and these (Delong, Osokin,
Isack, Boykov 2012, section 1; Boykov, Veksler, Zabih 2001, theorem 6.1).

The energy of a labelling has a third part: what each label that some site has costs by itself, once. A swap, or a run
of swaps of any number of cycles, is refused where some label costs something by itself; a label that does not exist is
refused first.

Where the smooth costs are a metric and no label costs anything by itself, there is a bound: the least and the
greatest smooth cost of two unequal labels, both 1 where there is one label. The least times the energy where a settled
run of expansions ends is at most twice the greatest times the least energy of all labellings.

An expansion of a label keeps another one that some site has if it costs at most what it costs the sites and the pairs
when its sites take the label of the expansion, all other sites having it. For the last rows it is counted whether the
expansion keeps each that costs something, and if so, whether its own label is in use or what is saved is more, as much
or less than this one costs.

A row begins with the 98 bytes of tools/tables/random_runs.py. Then come the costs of four labels by themselves, a byte each;
the label energy after, of eight digits; the two numbers of the bound, each of five digits, 0 and 0 where there is
none; and the least energy of all, of nine digits.
"""

import itertools
import random

from random_moves import (EXPANSION, ROW_LABELS, ROW_PAIRS, RUN_OF_EXPANSIONS, RUN_OF_SWAPS, SWAP, Problem, is_regular,
                          padded, print_table, row_of)
from random_runs import DATA, REFUSED, SETTLED, SMOOTH, WEIGHT, best, random_byte, random_pairs, random_smooth, run, value

COSTED, BOUNDED, ABOVE = 300, 270, 30
WAYS = {("kept", "in use"): 15, ("kept", "more"): 15, ("kept", "as much"): 15, ("kept", "less"): 10,
        ("kept by a tie", "in use"): 10, ("kept by a tie", "more"): 10, ("one short", "in use"): 15, ("one short", "not"): 10}
COST = 10_000_000
KEPT, CHANGED, NOT_REGULAR, NO_SUCH_LABEL, COST_IN_SWAP = range(5)


class Costed(Problem):
    """A problem whose labels cost something by themselves."""

    def __init__(self, data, smooth, pairs, costs):
        super().__init__(data, smooth, pairs)
        self.costs = costs

    def label_energy(self, labels):
        return sum(self.costs[label] for label in set(labels))

    def energy(self, labels):
        return super().energy(labels) + self.label_energy(labels)


def is_metric(smooth):
    labels = range(len(smooth))
    return all((smooth[a][b] == 0) == (a == b) and smooth[a][b] == smooth[b][a]
               and all(smooth[a][b] <= smooth[a][c] + smooth[c][b] for c in labels)
               for a in labels for b in labels)


def bound(problem):
    """The least and the greatest smooth cost of two unequal labels, and 0 and 0 where there is no bound."""
    if any(problem.costs) or not is_metric(problem.smooth):
        return 0, 0
    apart = [cost for a, row in enumerate(problem.smooth) for b, cost in enumerate(row) if a != b]
    return (min(apart), max(apart)) if apart else (1, 1)


def moved(problem, move, labels, count):
    """The answer of one move, its number, and the labels afterwards."""
    if any(label >= count for label in (move[1:2] if move[0] == "expand" else move[1:])):
        return NO_SUCH_LABEL, 0, labels
    if move[0] == "swap" and any(problem.costs):
        return COST_IN_SWAP, 0, labels
    for place, pair in enumerate(problem.pairs):
        if not is_regular(problem, move, labels, pair):
            return NOT_REGULAR, place, labels
    after = best(problem, move, labels, count)
    return (KEPT if after == labels else CHANGED), 0, after


def made(problem, kind, move, allowed, labels, count):
    """The answer of a move or a run, its number, the labels of the move that is told, and the labels afterwards."""
    if kind in (EXPANSION, SWAP):
        answer, number, after = moved(problem, move, labels, count)
        return answer, number, move[1:], after
    if kind == RUN_OF_SWAPS and any(problem.costs):
        return COST_IN_SWAP, 0, (0, 0), labels
    name = "expand" if kind == RUN_OF_EXPANSIONS else "swap"
    answer, number, refused, steps = run(problem, name, allowed, labels, count)
    return answer, number, refused[1:] if refused else (0, 0), steps[-1][-1] if steps else labels


def random_metric(draw, labels):
    """Costs of two labels that are a metric, as bytes: all between a number and its double."""
    least = draw.randint(1, 4)
    any_cost = [[draw.randint(least, 2 * least) for _ in range(labels)] for _ in range(labels)]
    most = draw.choice([1, 2, 3, 9])
    cost = draw.choice([lambda a, b: any_cost[min(a, b)][max(a, b)] * (a != b), lambda a, b: min(abs(a - b), most)])
    return [[str(cost(a, b)) for b in range(labels)] for a in range(labels)]


def random_costs(draw, labels, mixed):
    if draw.random() < 0.1:
        return ["0"] * labels
    if mixed:
        return [draw.choice("0139" + "abJMZ") for _ in range(labels)]
    most = draw.choice([1, 3, 9])
    return [str(draw.randint(0, most)) for _ in range(labels)]


def close_pairs(draw, sites):
    """As many pairs as a row has, so that runs may end above the least energy."""
    return [(*draw.sample(range(sites), 2), "1") for _ in range(ROW_PAIRS)]


def plain(problem, labels):
    """What labels cost the sites and the pairs."""
    return problem.energy(labels) - problem.label_energy(labels)


def way_of(problem, a, labels):
    """How near an expansion of the label `a` is to giving up another one, and what it pays for its own."""
    others = {label for label in labels if label != a and problem.costs[label]}
    spare = [plain(problem, (a,) * len(labels)) - plain(problem, tuple(it if it == label else a for it in labels))
             - problem.costs[label] for label in others]
    near = min(spare, default=9)
    kept = {0: "kept by a tie", -1: "one short"}.get(near, "kept" if near > 0 else "given up")
    if a in labels:
        return kept, "in use"
    if near < 0:
        return kept, "not"
    least = min(plain(problem, tuple(a if it else label for it, label in zip(bits, labels)))
                for bits in itertools.product((0, 1), repeat=len(labels)))
    left = plain(problem, labels) - least - problem.costs[a]
    return kept, "more" if left > 0 else "as much" if left == 0 else "less"


def rows_by_way(draw):
    """Rows of expansions, so many of each way."""
    left = dict(WAYS)
    while any(left.values()):
        told = random_row(draw, False, by_way=True)
        if left.get(told[4], 0):
            left[told[4]] -= 1
            yield told


def random_row(draw, bounded, close=False, by_way=False):
    """The kind of a row and its answer, whether a label changed, whether it ends above the least energy, by which way an
    expansion is made, where that is asked, and the row."""
    mixed = draw.random() < 0.25 and not close and not by_way
    sites, labels = draw.choice([1, 2, 3, 4, 5, 6, 6]), draw.choice([1, 2, 2, 3, 3, 4, 4])
    sites, labels = (5, 4) if close else (sites, labels)
    data = [[str(draw.randint(0, 6)) if close else random_byte(draw, mixed) for _ in range(labels)] for _ in range(sites)]
    smooth = random_metric(draw, labels) if bounded else random_smooth(draw, labels, mixed)
    pairs = close_pairs(draw, sites) if close else random_pairs(draw, sites, mixed)
    costs = ["0"] * labels if bounded else random_costs(draw, labels, mixed)
    problem = Costed([[value(byte, DATA) for byte in row] for row in data],
                     [[value(byte, SMOOTH) for byte in row] for row in smooth],
                     [(p, q, value(weight, WEIGHT)) for p, q, weight in pairs],
                     [value(byte, COST) for byte in costs])
    kind = RUN_OF_EXPANSIONS if bounded else EXPANSION if by_way else draw.choice(
        [EXPANSION] * 3 + [SWAP] + [RUN_OF_EXPANSIONS] * 3 + [RUN_OF_SWAPS])
    is_run = kind in (RUN_OF_EXPANSIONS, RUN_OF_SWAPS)
    allowed = 9 if bounded else draw.choice([0, 1, 2, 3, 4, 4]) if is_run else 0
    beyond = labels if draw.random() < 0.05 else labels - 1
    move = ("expand" if kind == EXPANSION else "swap", draw.randint(0, beyond), draw.randint(0, labels - 1))
    start = tuple(draw.randrange(labels) for _ in range(sites))
    answer, number, told, after = made(problem, kind, move, allowed, start, labels)
    row = row_of(kind, allowed, answer, number, told, (data, smooth, pairs), (start, after),
                 (problem.data_energy(after), problem.smooth_energy(after)))
    row += "".join(map(str, padded(costs, ROW_LABELS))) + f"{problem.label_energy(after):08}"
    least, most = bound(problem)
    lowest = min(problem.energy(it) for it in itertools.product(range(labels), repeat=sites))
    row += f"{least:05}{most:05}{lowest:09}"
    if bounded:
        assert answer == SETTLED and least * problem.energy(after) <= 2 * most * lowest
    way = way_of(problem, move[1], start) if by_way and answer in (KEPT, CHANGED) else None
    return kind, answer, after != start, lowest < problem.energy(after), way, row


def wanted(draw):
    """Rows of each kind of answer: of moves and runs with label costs; of settled runs over metrics; of some that end
    above the least energy; and of expansions of each way."""
    left = {(EXPANSION, KEPT): 25, (EXPANSION, CHANGED): 85, (EXPANSION, NOT_REGULAR): 10,
            (EXPANSION, NO_SUCH_LABEL): 5, (SWAP, KEPT): 3, (SWAP, CHANGED): 3, (SWAP, NO_SUCH_LABEL): 4,
            (SWAP, COST_IN_SWAP): 15, (RUN_OF_EXPANSIONS, 0): 30, (RUN_OF_EXPANSIONS, SETTLED): 85,
            (RUN_OF_EXPANSIONS, REFUSED): 15, (RUN_OF_SWAPS, 0): 2, (RUN_OF_SWAPS, SETTLED): 3,
            (RUN_OF_SWAPS, COST_IN_SWAP): 15}
    assert sum(left.values()) == COSTED
    while any(left.values()):
        told = random_row(draw, False)
        if left.get(told[:2], 0):
            left[told[:2]] -= 1
            yield told
    for _ in range(BOUNDED):
        yield random_row(draw, True)
    above = (told for told in iter(lambda: random_row(draw, True, True), None) if told[3])
    yield from itertools.islice(above, ABOVE)
    yield from rows_by_way(draw)


def main():
    rows = list(wanted(random.Random(2012)))
    changed = sum(told[2] for told in rows[:COSTED])
    above = sum(told[3] for told in rows[COSTED:COSTED + BOUNDED + ABOVE])
    print("//! Small random moves and runs where labels cost something by themselves, and runs over metrics. Made by")
    print(f"//! tools/tables/random_costed.py, over all labellings: {COSTED} moves and runs with label costs, {changed} of which change a")
    print(f"//! label, and {BOUNDED + ABOVE} settled runs of expansions over metrics, {above} of which end above the least energy;")
    print(f"//! then {sum(WAYS.values())} expansions that keep each label, or give up one that costs 1 too much.")
    print()
    print_table("COSTED", "rows", [told[-1] for told in rows])


if __name__ == "__main__":
    main()
