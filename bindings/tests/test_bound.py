"""lower_bound and Found.gap against every labelling, at their limits, in the fronts' units, and on what is refused."""
import fractions
import itertools
import math
import pickle
import random
import sys

if "--without-numpy" in sys.argv:
    sys.modules["numpy"] = None
import gco
from definitions import PairProblem, Problem
from refusing import flat, refused

DATA = [[4, 6, 9], [7, 5, 6], [8, 4, 7], [9, 7, 3], [6, 8, 5]]
PAIRS = [(0, 1, 3), (1, 2, 2), (2, 3, 2), (3, 4, 4), (1, 3, 1), (0, 4, 1)]
np = gco.arrays.numpy


def smooth_costs(rng, k):
    top, step = rng.choice([1, 3, 9]), rng.choice([1, 2])
    table = [rng.randrange(0, 5) for _ in range(k * k)]
    kinds = {
        "potts": lambda a, b: top * (a != b),
        "linear": lambda a, b: min(step * abs(a - b), top),
        "quadratic": lambda a, b: min(step * (a - b) ** 2, top),
        "any": lambda a, b: table[a * k + b],
        "no zero": lambda a, b: table[a * k + b] + 1,
    }
    kind = rng.choice([*kinds])
    return kind, [[kinds[kind](a, b) for b in range(k)] for a in range(k)]


def pairs_of(rng, sites):
    """Any pairs, more than once and either way; or those of a path or a star."""
    shape = rng.choice(["any", "path", "star"])
    if shape == "any":
        ends = [tuple(rng.sample(range(sites), 2)) for _ in range(rng.randrange(0, 2 * sites) if sites > 1 else 0)]
    elif shape == "path":
        ends = [(site, site + 1) for site in range(sites - 1)]
    else:
        ends = [(0, site) for site in range(1, sites)]
    if rng.random() < 0.5:
        ends = [(second, first) if rng.random() < 0.5 else (first, second) for first, second in ends]
    return shape, [(first, second, rng.choice([0, 1, 1, 2, 7])) for first, second in ends]


def by_every_labelling(count):
    rng = random.Random(69)
    met, all_of = {}, {}
    for _ in range(count):
        sites, k = rng.randrange(1, 7), rng.randrange(1, 5)
        data = [[rng.randrange(0, rng.choice([3, 10, 40])) for _ in range(k)] for _ in range(sites)]
        kind, smooth = smooth_costs(rng, k)
        shape, pairs = pairs_of(rng, sites)
        costs = [rng.randrange(0, 5) for _ in range(k)] if rng.random() < 0.2 else []
        problem, freed = Problem(data, smooth, pairs, costs), Problem(data, smooth, pairs, [])
        if pairs and rng.random() < 0.3:  # a table for each pair
            smooth = [smooth_costs(rng, k)[1] for _ in pairs]
            problem, freed = PairProblem(data, smooth, k, pairs, costs), PairProblem(data, smooth, k, pairs, [])
        least = min(map(problem.energy, itertools.product(range(k), repeat=sites)))
        bound = gco.lower_bound(data, smooth, pairs, label_costs=costs, passes=rng.choice([0, 1, 3, 20, 100]))
        where = (data, smooth, pairs, costs, bound)
        assert bound.low <= least, where
        assert bound.low >= sum(map(min, data)), where
        labels = flat(bound.labels)
        assert len(labels) == sites and all(0 <= label < k for label in labels), where
        start = gco.label(data, smooth, pairs, label_costs=costs, cycles=0, start=bound.labels)
        assert start.energy == problem.energy(labels), where
        more = gco.lower_bound(data, smooth, pairs, passes=100).low
        free = min(map(freed.energy, itertools.product(range(k), repeat=sites)))
        assert more <= free, where
        all_of[shape] = all_of.get(shape, 0) + 1
        met[shape] = met.get(shape, 0) + (more == free)
    return met, all_of


def gaps():
    found = gco.label(DATA, gco.potts(3), PAIRS)
    low = gco.lower_bound(DATA, gco.potts(3), PAIRS).low
    assert 21 <= low <= found.energy == 27
    gap = found.gap()
    assert isinstance(gap, float) and fractions.Fraction(gap) >= fractions.Fraction(27, low) - 1 and 0 <= gap < 0.3
    assert gco.label([[0, 5], [5, 0]], gco.potts(2), [(0, 1)]).gap() == 0.0
    # a whole bound of 0, and an energy above it
    above = gco.label([[0, 1], [1, 0]], [[0, 9], [9, 0]], [(0, 1)])
    assert above.energy == 1 and above.gap(passes=0) == math.inf
    again = pickle.loads(pickle.dumps(found))
    assert flat(again.labels) == flat(found.labels) and again[1:] == found[1:]
    refused(ValueError, again.gap, says="not kept")
    data = [row[:] for row in DATA]
    changed = gco.label(data, gco.potts(3), PAIRS)
    data[0][int(changed.labels[0])] += 1
    refused(ValueError, changed.gap, says="changed since the run")
    moved = gco.expand(DATA, gco.potts(3), PAIRS, 2)
    assert moved.gap() >= gap
    if np is not None:
        picture = np.array(DATA).reshape(1, 5, 3)
        assert gco.lower_bound(picture, gco.potts(3), PAIRS).labels.shape == (1, 5)


def refusals():
    potts = gco.potts(3)
    bytes_taken = (8 * 5 + 4 * 6) * 3
    assert gco.lower_bound(DATA, potts, PAIRS, most_bytes=bytes_taken).low > 0
    refused(gco.Refused, gco.lower_bound, DATA, potts, PAIRS, most_bytes=bytes_taken - 1, status=9, says="most_bytes")
    refused(gco.Refused, gco.lower_bound, DATA, potts, [(0, 5, 1)], status=10, says="the sites are 0 to 4")
    refused(gco.Refused, gco.lower_bound, DATA, potts, [(0, 0, 1)], status=12)
    refused(gco.Refused, gco.lower_bound, DATA, potts, [(0, 1, 1001)], status=14, says="1001")
    refused(gco.Refused, gco.lower_bound, [[-1, 2, 3]], potts, [], status=15, place=0)
    refused(gco.Refused, gco.lower_bound, DATA, [[0, 1, 1], [1, 0, 1], [1, 10001, 0]], PAIRS, status=16, place=7)
    refused(gco.Refused, gco.lower_bound, DATA, potts, PAIRS, label_costs=[0, -1, 0], status=17, place=1)
    refused(gco.Refused, gco.lower_bound, DATA, potts, PAIRS, label_costs=[0], status=7)
    tables = [potts] * 6
    assert gco.lower_bound(DATA, tables, PAIRS, most_bytes=bytes_taken).low == gco.lower_bound(DATA, potts, PAIRS).low
    refused(gco.Refused, gco.lower_bound, DATA, tables, PAIRS, most_bytes=bytes_taken - 1, status=9, says="most_bytes")
    refused(gco.Refused, gco.lower_bound, DATA, tables[1:], PAIRS, status=5)
    refused(gco.Refused, gco.lower_bound, DATA, [[[0, 5000001], [1, 0]]], [(0, 1, 2)], status=4)
    refused(gco.Refused, gco.lower_bound, [[1, 2]] * 2, [[[0, 5000001], [1, 0]]], [(0, 1, 2)], status=32, place=0)
    refused(OverflowError, gco.lower_bound, DATA, potts, PAIRS, passes=-1, says="passes")
    refused(TypeError, gco.lower_bound, DATA, potts, PAIRS, passes=1.5, says="passes")
    refused(TypeError, gco.lower_bound, [[0.5, 1]], gco.potts(2), [])
    assert gco.lower_bound([], potts, []).low == 0


def limits():
    """1,048,576 sites and 4,194,304 pairs with every cost at its limit: no sum leaves its range."""
    side = 1024
    data = np.full((side, side, 2), 10_000_000, dtype=np.int32)
    pairs = gco.grid_pairs(side, side, connect=8).copy()
    pairs = np.concatenate([pairs, pairs])[:4_194_304]
    pairs[:, 2] = 1000
    smooth = [[10000, 10000], [10000, 10000]]
    bound = gco.lower_bound(data, smooth, pairs, passes=4)
    energy = side * side * 10_000_000 + len(pairs) * 10_000_000
    assert side * side * 10_000_000 <= bound.low <= energy, bound.low
    assert bound.low == energy, (bound.low, energy)
    # the same by a table for each pair
    tables = np.full((len(pairs), 2, 2), 10000, dtype=np.int64)
    assert gco.lower_bound(data, tables, pairs, passes=2).low == energy
    del tables
    # costs of 0 and of the limit side by side
    data[::2, :, 0] = 0
    data[1::2, :, 1] = 0
    low = gco.lower_bound(data, [[0, 10000], [10000, 0]], pairs, passes=4).low
    ran = gco.label(data, [[0, 10000], [10000, 0]], pairs)
    assert 0 < low <= ran.energy


def units():
    """The fronts' bounds in the caller's own costs, never above the least energy by exact sums."""
    rng = random.Random(7)
    for turn in range(300):
        height, width, k = rng.randrange(1, 3), rng.randrange(1, 4), rng.randrange(1, 4)
        whole = turn % 3 == 0
        scale = rng.choice([1, 1e-3, 7.7, 1e6])
        def cost(least):
            return rng.randrange(least, 9) if whole else scale * rng.uniform(least, 9)
        unary = np.array([[[cost(-5) for _ in range(k)] for _ in range(width)] for _ in range(height)])
        binary = np.array([[cost(-2 if turn % 2 else 0) * (a != b) for b in range(k)] for a in range(k)])
        bound = gco.maxflow.fastmin.lower_bound_grid(unary, binary)
        assert bound.labels.shape == (height, width)
        ids = np.arange(height * width).reshape(height, width)
        ends = [*zip(ids[:, :-1].ravel(), ids[:, 1:].ravel()), *zip(ids[:-1].ravel(), ids[1:].ravel())]
        exact = fractions.Fraction
        rows = unary.reshape(-1, k)

        def energy(f, weights=itertools.repeat(1)):
            return sum(exact(rows[s, l].item()) for s, l in enumerate(f)) + sum(
                exact(w) * exact(binary[f[p], f[q]].item()) for (p, q), w in zip(ends, weights))
        least = min(map(energy, itertools.product(range(k), repeat=height * width)))
        assert exact(bound.low) <= least, (bound.low, float(least))
        if whole:
            assert isinstance(bound.low, int)
        assert float(least) - bound.low <= 0.3 * scale * 9 * height * width + 1, (bound.low, float(least))
        weights = [rng.choice([1, 2, 3]) if whole else rng.choice([0.25, 1.5, 2.7]) for _ in ends]
        problem = gco.GCO()
        problem.create_general_graph(height * width, k, energy_is_float=not whole)
        problem.set_data_cost(rows)
        if ends:
            problem.set_all_neighbors([p for p, _ in ends], [q for _, q in ends], weights)
        problem.set_smooth_cost(binary)
        least = min(energy(f, weights) for f in itertools.product(range(k), repeat=height * width))
        assert exact(problem.lower_bound()) <= least
        before = problem.get_labels().tolist()
        assert before == [0] * len(before)
    refused(ValueError, gco.maxflow.fastmin.lower_bound_grid, np.zeros((2, 2, 3)), np.zeros((2, 2)), says="binary: one cost")


met, all_of = by_every_labelling(2000)
assert all(met[shape] >= 0.9 * all_of[shape] for shape in ("path", "star")), (met, all_of)
gaps()
refusals()
if np is not None:
    limits()
    units()
said = ", ".join(f"{met[shape]} of {all_of[shape]} by {shape} pairs" for shape in sorted(met))
print(f"python: bounds of 2,000 random problems against every labelling, the least energy met: {said}")
