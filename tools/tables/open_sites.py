#!/usr/bin/env python3
"""How many sites of moves are left for a cut: of a first cycle on a picture that a formula gives, and of listed moves.

The numbers of the test `few_sites_are_left_open` of the crate `move_tests`, and the table of its test
`listed_moves_are_best`. To make them again, at the top of the repository:

    python3 tools/tables/open_sites.py
    python3 tools/tables/open_sites.py --rows > crates/move_tests/src/listed.rt

It knows these definitions alone (Boykov, Veksler, Zabih 2001, sections 1 to 3; Iyer, Jegelka, Bilmes, ICML
2013, section 4), those of moves by tools/tables/random_moves.py.

The picture has 64 by 64 pixels, site x + 64 * y in column x of row y, and its samples are 0 to 3. A label costs
a pixel 5 times its distance from the sample. Two pixels that share an edge cost 2 where their labels differ. The
first labelling is 0 everywhere, and the first cycle expands the labels 0, 1, 2 and 3.

A pixel is 1 in an expansion where it takes the label, and 0 where it keeps its own. It may be decided 0 where its
turning to 1 does not lower the energy even if every undecided neighbour is 1, and 1 where its turning to 1
lowers the energy even if every undecided neighbour is 0. Pixels are decided until none can be.

The labelling that a move of the picture ends with is worked out by a cut of the whole network, no pixel being
decided: the least energy, and of these the set of ones that lies within every other.

The listed moves are of small graphs, and of swaps too, where a site with one of the two labels is 0 where it
takes the first and 1 where it takes the second. What each ends with is worked out over all values of the sites
that are left open, and where it has at most 16 sites also over all labellings that it reaches. A site turns where it
was decided to get another label than it has. Where no labelling that a move reaches has a lower energy, the move
keeps all labels, those of such sites too. No site is ever open alone: with all else decided its value is known.
"""
import functools
import itertools
import random
import sys
from collections import deque

from random_moves import Problem, best as best_of_all, choices, is_regular, padded

SIDE = 64
LABELS = 4
# What two neighbours cost whose labels differ.
UNLIKE = 2


def sample(x, y):
    """A board of fields of 16 by 16 pixels, some of which have another sample."""
    noise = (x * x * 7 + y * 13 + x * y * 5) % 11
    return (x // 16 + y // 16 + (noise if noise < 4 else 0)) % LABELS


def neighbours(site):
    """The pixels that share an edge with this one."""
    x, y = site % SIDE, site // SIDE
    if x > 0:
        yield site - 1
    if x + 1 < SIDE:
        yield site + 1
    if y > 0:
        yield site - SIDE
    if y + 1 < SIDE:
        yield site + SIDE


def data_cost(site, label):
    return 5 * abs(sample(site % SIDE, site // SIDE) - label)


def smooth_cost(first, second):
    return UNLIKE if first != second else 0


def rise(labels, alpha, values, site, undecided):
    """What turning the pixel from 0 to 1 adds, where each undecided neighbour has this value."""
    total = data_cost(site, alpha) - data_cost(site, labels[site])
    for other in neighbours(site):
        value = undecided if values[other] is None else values[other]
        label = alpha if value else labels[other]
        total += smooth_cost(alpha, label) - smooth_cost(labels[site], label)
    return total


def decided(labels, alpha):
    """Each pixel's value, or None where it is left open."""
    values = [None] * len(labels)
    changed = True
    while changed:
        changed = False
        for site in range(len(labels)):
            if values[site] is None:
                if rise(labels, alpha, values, site, 1) >= 0:
                    values[site], changed = 0, True
                elif rise(labels, alpha, values, site, 0) < 0:
                    values[site], changed = 1, True
    return values


def residuals_of(labels, alpha):
    """A network whose cuts cost what the move's labellings do, but for a constant: the ones are the sink's side.

    A pair of a move costs A, B, C, D at 00, 01, 10, 11, with D = 0 here: A + (C - A) * first + (D - C) * second +
    (B + C - A - D) where the first is 0 and the second 1 (Kolmogorov, Zabih 2004, section 4).
    """
    source, sink = len(labels), len(labels) + 1
    costs = [data_cost(site, alpha) - data_cost(site, labels[site]) for site in range(len(labels))]
    residual = [dict() for _ in range(len(labels) + 2)]

    def add(tail, head, capacity):
        residual[tail][head] = residual[tail].get(head, 0) + capacity
        residual[head].setdefault(tail, 0)

    for first in range(len(labels)):
        for second in neighbours(first):
            if first < second:
                none = smooth_cost(labels[first], labels[second])
                one = smooth_cost(alpha, labels[second])
                other = smooth_cost(labels[first], alpha)
                costs[first] += one - none
                costs[second] -= one
                add(first, second, other + one - none)
    for site, cost in enumerate(costs):
        if cost > 0:
            add(site, sink, 0)
            add(source, site, cost)
        else:
            add(site, sink, -cost)
            add(source, site, 0)
    return residual, source, sink


def levels_to(residual, source, sink):
    """How many residual arcs lead from each node to the sink at the least."""
    levels = {sink: 0}
    waiting = deque([sink])
    while waiting:
        node = waiting.popleft()
        for other in residual[node]:
            if other not in levels and residual[other][node] > 0:
                levels[other] = levels[node] + 1
                waiting.append(other)
    return levels


def push_all(residual, levels, source, sink):
    """Pushes along paths of falling levels until there is none (Dinic 1970)."""
    heads = [list(ends) for ends in residual]
    places = [0] * len(residual)
    path = [source]
    while path:
        node = path[-1]
        if node == sink:
            amount = min(residual[tail][head] for tail, head in zip(path, path[1:]))
            for tail, head in zip(path, path[1:]):
                residual[tail][head] -= amount
                residual[head][tail] += amount
            path = [source]
        elif places[node] == len(heads[node]):
            path.pop()
            if path:
                places[path[-1]] += 1
        else:
            other = heads[node][places[node]]
            if residual[node][other] > 0 and levels.get(other) == levels[node] - 1:
                path.append(other)
            else:
                places[node] += 1


def after(labels, alpha):
    """The best labelling that the move reaches: the ones are the nodes that reach the sink."""
    residual, source, sink = residuals_of(labels, alpha)
    levels = levels_to(residual, source, sink)
    while source in levels:
        push_all(residual, levels, source, sink)
        levels = levels_to(residual, source, sink)
    return [alpha if site in levels else label for site, label in enumerate(labels)]


# ---- listed moves

ROW_SITES, ROW_LABELS, ROW_PAIRS = 24, 3, 40
KEPT, CHANGED = range(2)
MOST_TRIED = 6


class Listed:
    """A problem, a move of it and the labels before: which sites are decided, and what the move ends with."""

    def __init__(self, problem, move, labels):
        self.problem, self.move, self.labels = problem, move, tuple(labels)
        self.pairs_of = [[pair for pair in problem.pairs if site in pair[:2]] for site in range(len(labels))]
        self.options = [choices(move, label) for label in labels]
        self.values = self.decided(range(len(labels)))
        assert self.values == self.decided(range(len(labels) - 1, -1, -1))
        self.open = [site for site, value in enumerate(self.values) if value is None]
        self.turning = [site for site, value in enumerate(self.values)
                        if value is not None and self.options[site][value] != labels[site]]

    @functools.cached_property
    def is_allowed(self):
        return all(is_regular(self.problem, self.move, self.labels, pair) for pair in self.problem.pairs)

    def rise(self, values, site, undecided):
        """What turning the site from 0 to 1 adds, where each undecided neighbour has this value."""
        none, one = self.options[site]
        total = self.problem.data[site][one] - self.problem.data[site][none]
        for p, q, weight in self.pairs_of[site]:
            other = q if p == site else p
            label = self.options[other][undecided if values[other] is None else values[other]]
            cost = lambda own: self.problem.smooth[own][label] if p == site else self.problem.smooth[label][own]
            total += weight * (cost(one) - cost(none))
        return total

    def decided(self, order):
        """Each site's value, or None where it is left open; whatever the order, they are the same."""
        values = [None] * len(self.labels)
        changed = True
        while changed:
            changed = False
            for site in order:
                if values[site] is None:
                    if self.rise(values, site, 1) >= 0:
                        values[site], changed = 0, True
                    elif self.rise(values, site, 0) < 0:
                        values[site], changed = 1, True
        return values

    def made(self, ones):
        """The labelling that the decided sites and these ones among the open sites make."""
        values = [site in ones if value is None else value for site, value in enumerate(self.values)]
        return tuple(self.options[site][value] for site, value in enumerate(values))

    @functools.cached_property
    def best(self):
        """The best labelling over all values of the open sites, and how many of them have its energy."""
        sets = [frozenset(ones) for count in range(len(self.open) + 1)
                for ones in itertools.combinations(self.open, count)]
        energies = {ones: self.problem.energy(self.made(ones)) for ones in sets}
        least = min(energies.values())
        ties = [ones for ones in sets if energies[ones] == least]
        assert all(ties[0] <= other for other in ties)
        if self.problem.energy(self.labels) <= least:
            return self.labels, len(ties)
        return self.made(ties[0]), len(ties)

    @property
    def after(self):
        return self.best[0]

    @property
    def ties(self):
        return self.best[1]

    def links(self, some, others):
        """How many pairs lead from these sites to those."""
        return sum((p in some and q in others) or (q in some and p in others) for p, q, _ in self.problem.pairs)

    def row(self):
        """One row: how many sites, labels and pairs; the kind of move, alpha and beta; how many sites are open;
        whether a label changes; three data costs of each of 24 sites; three smooth costs of each of three labels;
        the labels of 24 sites before and after; and 40 pairs with their weights. A byte is 48 more than its
        number."""
        kind, alpha, beta = self.move
        problem, changed = self.problem, CHANGED if self.after != self.labels else KEPT
        row = [len(self.labels), len(problem.smooth), len(problem.pairs), int(kind == "swap"), alpha, beta,
               len(self.open), changed]
        row += padded([n for costs in problem.data for n in padded(costs, ROW_LABELS)], ROW_SITES * ROW_LABELS)
        row += padded([n for costs in problem.smooth for n in padded(costs, ROW_LABELS)], ROW_LABELS * ROW_LABELS)
        row += padded(self.labels, ROW_SITES) + padded(self.after, ROW_SITES)
        row += padded([n for pair in problem.pairs for n in pair], 3 * ROW_PAIRS)
        assert len(row) == 257 and all(0 <= n < 44 for n in row)
        return "".join(chr(48 + n) for n in row)


def grid_pairs(draw, width, height):
    """The pairs of a grid's neighbours with weights, two of them twice, and some written the other way round."""
    pairs = []
    for site in range(width * height):
        if site % width + 1 < width:
            pairs.append((site, site + 1, draw.choice([0, 1, 1, 2, 2, 3])))
        if site + width < width * height:
            pairs.append((site, site + width, draw.choice([0, 1, 1, 2, 2, 3])))
    pairs += draw.sample(pairs, 2)
    return [(q, p, weight) if draw.random() < 0.3 else (p, q, weight) for p, q, weight in pairs]


def random_smooth(draw, labels):
    """Costs of two labels: metrics, and one that is no metric."""
    most = draw.randint(1, 4)
    cost = draw.choice([
        lambda a, b: most * (a != b),
        lambda a, b: most * (a != b),
        lambda a, b: abs(a - b),
        lambda a, b: 2 * (a < b) + 3 * (a > b),
    ])
    return [[cost(a, b) for b in range(labels)] for a in range(labels)]


def random_listed(draw, width, height, labels, kind):
    """A move of a grid, from a labelling that is near a least one: where a few moves ended, a few sites changed."""
    sites, most = width * height, draw.randint(3, 12)
    data = [[draw.randint(0, most) for _ in range(labels)] for _ in range(sites)]
    problem = Problem(data, random_smooth(draw, labels), grid_pairs(draw, width, height))
    at = tuple(min(range(labels), key=costs.__getitem__) for costs in data)
    for alpha in range(draw.randint(0, labels)):
        step = Listed(problem, ("expand", alpha, 0), at)
        at = step.after if len(step.open) <= MOST_TRIED and step.is_allowed else at
    at = tuple(draw.randrange(labels) if draw.random() < 0.2 else label for label in at)
    alpha = draw.randrange(labels)
    beta = draw.choice([label for label in range(labels) if label != alpha])
    return Listed(problem, (kind, alpha, beta if kind == "swap" else 0), at)


def searched(seed, sizes, kind, wanted):
    """The first random move of these sizes that is wanted."""
    draw = random.Random(seed)
    while True:
        it = random_listed(draw, *sizes, kind)
        if len(it.open) <= MOST_TRIED and it.is_allowed and wanted(it):
            return it


def is_few(count, turning):
    """So many open, so many that turn, pairs from these to those, and a change in both."""
    return lambda it: (len(it.open) == count and len(it.turning) >= turning and it.links(it.open, it.open)
                       and it.links(it.open, it.turning)
                       and 0 < sum(it.after[site] != it.labels[site] for site in it.open))


def keeps_what_would_turn(count):
    """A move with sites that are decided to turn, and so many open, that keeps all labels."""
    return lambda it: it.after == it.labels and len(it.turning) >= 2 and len(it.open) == count


def is_tied(count, ones):
    """A move of so many open sites where several values of theirs are least; are some 1 in each of these?"""
    return lambda it: (len(it.open) == count and it.ties > 1 and it.turning and it.after != it.labels
                       and (it.after != it.made(frozenset())) == ones)


def chain(count, data, smooth, move, labels):
    """A chain of equal pairs."""
    pairs = [(site, site + 1, 1) for site in range(count - 1)]
    return Listed(Problem([list(data)] * count, smooth, pairs), move, labels)


def listed():
    """The moves of the table, each with what it is there for."""
    potts = [[0, 2], [2, 0]]
    yield "one site that takes the label", chain(1, (3, 1), potts, ("expand", 1, 0), (0,))
    yield "one site that ties, and keeps its label", chain(1, (3, 3), potts, ("expand", 1, 0), (0,))
    yield "one site of a swap, decided back to its first label", chain(1, (1, 3), potts, ("swap", 0, 1), (1,))
    yield "no pairs", Listed(Problem([[2, 1], [1, 2], [5, 0]], potts, []), ("expand", 1, 0), (0, 0, 0))
    yield "every site open, and each takes the label", chain(6, (2, 1), potts, ("expand", 1, 0), (0,) * 6)
    yield "every site open, and each takes the first label", chain(6, (1, 2), potts, ("swap", 0, 1), (0, 1, 0, 1, 0, 1)[::-1])
    yield "two open, of sixteen sites: an eighth", searched(1, (4, 4, 3), "expand", is_few(2, 3))
    yield "the same in a swap", searched(2, (4, 4, 3), "swap", is_few(2, 3))
    yield "two open, of fifteen: more than an eighth", searched(3, (5, 3, 3), "expand", is_few(2, 2))
    yield "three open, of sixteen", searched(4, (4, 4, 3), "swap", is_few(3, 2))
    yield "three open, of twenty-four: an eighth", searched(5, (6, 4, 3), "expand", is_few(3, 3))
    yield "the same in a swap", searched(6, (6, 4, 3), "swap", is_few(3, 3))
    yield "two open, of twenty-four: fewer", searched(7, (6, 4, 3), "swap", is_few(2, 4))
    yield "four open, of twenty-four: more", searched(8, (6, 4, 3), "expand", is_few(4, 3))
    yield "all decided, many turn", searched(9, (6, 4, 3), "expand", lambda it: not it.open and len(it.turning) > 4)
    yield "the same in a swap", searched(10, (6, 4, 3), "swap", lambda it: not it.open and len(it.turning) > 4)
    yield "all decided, none turns", searched(
        11, (6, 4, 3), "expand", lambda it: not it.open and not it.turning and 0 < len(set(it.labels)))
    yield "sites that would turn at the same energy", searched(12, (4, 3, 2), "swap", keeps_what_would_turn(0))
    yield "the same with two open", searched(13, (4, 4, 2), "swap", keeps_what_would_turn(2))
    yield "two open that may be both 0 or both 1", searched(14, (4, 4, 3), "expand", is_tied(2, False))
    yield "the same in a swap", searched(15, (4, 4, 3), "swap", is_tied(2, False))
    yield "five open, two of which may be both 0 or both 1", searched(16, (6, 4, 3), "expand", is_tied(5, True))


def print_rows():
    moves = list(listed())
    for name, it in moves:
        assert it.is_allowed, name
        if len(it.labels) <= 16:
            assert best_of_all(it.problem, it.move, it.labels)[1] == it.after, name
    print("//! Moves of which few sites are left for a cut, with their best answers. Made by tools/tables/open_sites.py.")
    print()
    print("/// The moves, each a row of `few_open`.")
    print("pub const LISTED: &[&[u8; 257]] = &[")
    for name, it in moves:
        row = it.row()
        print(f"    // {name[0].upper() + name[1:]}: {len(it.open)} open, {len(it.turning)} decided to turn.")
        print(f'    b"{row[:89]}\\')
        print(f"    {row[89:191]}\\")
        print(f'    {row[191:]}",')
    print("];")


def first_cycle():
    labels = [0] * (SIDE * SIDE)
    for alpha in range(LABELS):
        values = decided(labels, alpha)
        best = after(labels, alpha)
        for site, value in enumerate(values):
            assert value is None or (best[site] == alpha) == (value == 1) or labels[site] == alpha
        print(f'label {alpha}: {values.count(None)} open, {sum(a != b for a, b in zip(labels, best))} changed')
        labels = best


def main():
    if sys.argv[1:] == ["--rows"]:
        print_rows()
    else:
        first_cycle()


if __name__ == '__main__':
    main()
