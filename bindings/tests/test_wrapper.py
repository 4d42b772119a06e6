"""Programs as they are written for gco-wrapper and pygco, against chains of best moves by the definition."""
import itertools
import random
import sys
from fractions import Fraction

if "--without-numpy" in sys.argv:
    sys.modules["numpy"] = None
import gco
from definitions import PairProblem, Problem, chain
from refusing import flat, refused

np = gco.arrays.numpy


def general_graph():
    """Four sites in a row, three labels: the chain of one cycle and of all, whole and with fractions."""
    unary = [[1, 7, 8], [6, 2, 7], [9, 7, 1], [5, 3, 6]]
    edges, weights = [(0, 1), (1, 2), (2, 3)], [3, 10, 1]
    pairwise = [[0, 2, 1], [2, 0, 1], [1, 1, 0]]
    problem = Problem(unary, pairwise, [(*edge, weight) for edge, weight in zip(edges, weights)], [])
    for algorithm, cycles in (("expansion", 1), ("expansion", -1), ("swap", 1), ("swap", -1)):
        wanted = chain(problem, algorithm, 99 if cycles < 0 else cycles, [0] * 4)
        assert flat(gco.cut_general_graph(edges, weights, unary, pairwise, n_iter=cycles, algorithm=algorithm)) == wanted
        start = [2, 1, 0, 1]
        wanted = chain(problem, algorithm, 99 if cycles < 0 else cycles, start)
        assert flat(gco.cut_general_graph(edges, weights, unary, pairwise, cycles, algorithm, start)) == wanted
    refused(ValueError, gco.cut_general_graph, edges, weights, unary, pairwise, algorithm="both", says="algorithm: expansion or swap")
    refused(gco.Refused, gco.cut_general_graph, edges, [3, 10000, 7], unary, pairwise, status=14, says="sites 1 and 2")
    refused(ValueError, gco.cut_general_graph, edges, weights, unary, pairwise, init_labels=[0], says="start")
    if np is None:
        return
    unary, edges, weights, pairwise = map(np.array, (unary, edges, weights, pairwise))
    for factor in (None, 2.0, 8):
        told = gco.cut_general_graph(edges, weights / 4, unary / 8, pairwise / 2, down_weight_factor=factor, return_scale=True)
        assert flat(told.labels) == chain(problem, "expansion", 99, [0] * 4) and told.exact, told
        assert told.energy == problem.energy(flat(told.labels)) / 8
        assert told.scale >= 8 / (factor or 1) / 8 and (unary / 8 * told.scale * 1024 % 1 == 0).all()
    # weights and pairwise costs beyond gco's limits, where a common factor moves
    heavy = gco.cut_general_graph(edges, weights * 1000, unary * 1000, pairwise)
    steep = gco.cut_general_graph(edges, weights, unary * 50000, pairwise * 50000)
    assert flat(heavy) == flat(steep) == chain(problem, "expansion", 99, [0] * 4)


def fractions(count):
    """Random problems with fractions of no power of two: the labels are those of the scaled costs, and within rounding of the best."""
    rng = np.random.default_rng(3)
    for turn in range(count):
        sites, k = int(rng.integers(2, 6)), int(rng.integers(2, 4))
        unary, edges = rng.normal(size=(sites, k)), np.array([(p, p + 1) for p in range(sites - 1)])
        weights, step = rng.random(sites - 1), rng.random() + 0.1
        pairwise = step * np.minimum(abs(np.subtract.outer(range(k), range(k))), 2)
        told = gco.cut_general_graph(edges, weights, unary, pairwise, return_scale=True)
        # the rule by hand: shifted to 0 on, one power of two, its two parts
        exact = Problem((unary - unary.min()).tolist(), pairwise.tolist(), [(int(p), int(q), float(w)) for (p, q), w in zip(edges, weights)], [])
        got = exact.energy(flat(told.labels))
        best = min(exact.energy(f) for f in all_labels(sites, k))
        assert got <= 2 * 2 * best + 0.02 * sites and not told.exact, (turn, got, best)
        assert abs(told.energy - (got + sites * unary.min())) < 1e-9
        assert np.log2(told.scale) % 1 == 0 and told.scale > 1
        # the same problem in other units: only the scale changes
        for power in (2.0 ** -40, 2.0 ** 70):
            again = gco.cut_general_graph(edges, weights, unary * power, pairwise * power, return_scale=True)
            assert flat(again.labels) == flat(told.labels) and again.scale == told.scale / power, (turn, power, again, told)
        if k == 2:
            assert got <= best + 0.02 * sites, (turn, got, best)


def all_labels(sites, k):
    return itertools.product(range(k), repeat=sites)


def grid_graphs(count):
    rng = random.Random(23)
    for turn in range(count):
        height, width, k = rng.choice([(2, 3, 2), (3, 2, 3), (2, 2, 3), (1, 4, 2), (4, 1, 2)])
        data = [[[rng.randrange(-5, 9) for _ in range(k)] for _ in range(width)] for _ in range(height)]
        smooth = [[abs(a - b) * 2 - 3 for b in range(k)] for a in range(k)]
        ways = {"cost_v": (1, 0), "cost_h": (0, 1), "cost_dr": (1, 1), "cost_dl": (1, -1)}
        costs, pairs = {}, []
        for name, (down, over) in ways.items():
            high, wide = height - down, width - abs(over)
            if name in ("cost_dr", "cost_dl") and (turn % 2 or high < 1 or wide < 1):
                continue
            costs[name] = [[rng.randrange(5) for _ in range(wide)] for _ in range(high)]
            for y in range(high):
                for x in range(wide):
                    here = x + (over < 0)
                    pairs.append((y * width + here, (y + down) * width + here + over, costs[name][y][x]))
        problem = Problem([site for row in data for site in row], smooth, pairs, [])
        wanted = chain(problem, "expansion", 99, [0] * (height * width))
        got = gco.cut_grid_graph(data, smooth, **costs)
        assert flat(got) == wanted, (turn, data, costs, wanted, got)
        assert np is None or got.shape == (height, width)
        for connect in (4, 8):
            pairs = [(y * width + x, (y + down) * width + x + over, 1) for y in range(height) for x in range(width)
                     for down, over in ((0, 1), (1, 0), (1, 1), (1, -1))[:2 if connect == 4 else 4] if y + down < height and 0 <= x + over < width]
            problem = Problem([site for row in data for site in row], smooth, pairs, [])
            wanted = chain(problem, "swap", 99, [0] * (height * width))
            assert flat(gco.cut_grid_graph_simple(data, smooth, -1, connect, "swap")) == wanted
            if np is not None:
                told = gco.cut_grid_graph_simple(np.array(data) / 4, np.array(smooth) / 4, connect=connect, algorithm="swap", return_scale=True)
                assert flat(told.labels) == wanted and told.energy == problem.energy(wanted) / 4 and told.exact


def pygco():
    """Its two examples: two halves of noise, and three stripes with a table that lets neighbours touch for less."""
    rng = np.random.default_rng(8)
    noise = np.where(np.arange(10) < 5, 1, -1) + rng.normal(0, 0.8, (10, 10))
    unaries = (10 * np.stack([noise, -noise], axis=-1)).astype(np.int32)
    pairwise = -10 * np.eye(2, dtype=np.int32)
    labels = gco.cut_simple(unaries, pairwise)
    assert labels.shape == (10, 10)
    ids = np.arange(100).reshape(10, 10)
    edges = np.vstack([np.c_[ids[:, :-1].ravel(), ids[:, 1:].ravel()], np.c_[ids[:-1].ravel(), ids[1:].ravel()]]).astype(np.int32)
    by_graph = gco.cut_from_graph(edges, unaries.reshape(-1, 2), pairwise)
    assert by_graph.shape == (100,) and (by_graph.reshape(10, 10) == labels).all()
    weighed = gco.cut_from_graph(np.c_[edges, np.ones(len(edges), dtype=int)], unaries.reshape(-1, 2), pairwise)
    assert (weighed == by_graph).all()
    # two labels are one cut, so they are least: no flip of one pixel, row or column is less
    def energy(f):
        own = np.take_along_axis(unaries, f[..., None], -1).sum()
        return own - 10 * ((f[1:] == f[:-1]).sum() + (f[:, 1:] == f[:, :-1]).sum())
    labels = labels.astype(int)
    for places in [np.s_[y, x] for y in range(10) for x in range(10)] + [np.s_[y] for y in range(10)] + [np.s_[:, x] for x in range(10)]:
        other = labels.copy()
        other[places] = 1 - other[places]
        assert energy(labels) <= energy(other)
    assert 0 < labels.sum() < 100
    # each way its own weights, the last row and column not used
    ones, wide = np.ones((10, 10), dtype=int), np.full((10, 10), 7)
    assert (gco.cut_simple_vh(unaries, pairwise, ones, ones) == labels).all()
    same = gco.cut_grid_graph(unaries, pairwise, ones[:9], wide[:, :9], n_iter=5)
    assert (gco.cut_simple_vh(unaries, pairwise, ones, wide) == same).all() and (same != labels).any()
    refused(ValueError, gco.cut_simple_vh, unaries, pairwise, ones[:5], ones, says="cost_v")
    stripes = np.zeros((6, 6, 3))
    for label in range(3):
        stripes[:, 2 * label:2 * label + 2, label] = -1
    unaries = ((3 * stripes + rng.normal(size=stripes.shape)) * 10).astype(np.int32)
    table = -15 * np.eye(3, dtype=np.int32) - 8
    table[0, 2] = table[2, 0] = 0
    got = gco.cut_simple(unaries, table)
    flat_costs, shifted = unaries.reshape(-1, 3).tolist(), (table + 23).tolist()
    ids = np.arange(36).reshape(6, 6)
    pairs = [(int(p), int(q), 1) for a, b in ((ids[:, :-1], ids[:, 1:]), (ids[:-1], ids[1:])) for p, q in zip(a.ravel(), b.ravel())]
    wanted = gco.label([[cost + 100 for cost in row] for row in flat_costs], shifted, pairs, cycles=5)
    assert flat(got) == flat(wanted.labels) and len(set(flat(got))) == 3


def by_class(count):
    rng = random.Random(31)
    for turn in range(count):
        sites, k = rng.randrange(2, 6), rng.randrange(2, 4)
        data = [[rng.randrange(-3, 9) for _ in range(k)] for _ in range(sites)]
        smooth = [[2 * (a != b) for b in range(k)] for a in range(k)]
        pairs = [(*rng.sample(range(sites), 2), rng.randrange(4)) for _ in range(4)]
        part = rng.choice([1, 0.5])
        problem = Problem(data, smooth, pairs, [])
        g = gco.GCO()
        g.create_general_graph(sites, k, energy_is_float=part != 1)
        g.set_data_cost(np.array(data) * part)
        g.set_all_neighbors([p for p, _, _ in pairs[1:]], [q for _, q, _ in pairs[1:]], [w for _, _, w in pairs[1:]])
        g.set_neighbor_pair(*pairs[0])
        g.set_smooth_cost(np.array(smooth) * part)
        start = [rng.randrange(k) for _ in range(sites)]
        for site, label in enumerate(start):
            g.init_label_at_site(site, label)
        assert g.compute_energy() == problem.energy(start) * part
        f = problem.best((1,), tuple(start))
        assert g.expansion_on_alpha(1) == problem.energy(f) * part and flat(g.get_labels()) == list(f)
        f = problem.best((0, 1), f)
        assert g.alpha_beta_swap(0, 1) == problem.energy(f) * part and flat(g.get_labels()) == list(f)
        f = chain(problem, "expansion", 99, f)
        assert g.expansion() == problem.energy(f) * part and flat(g.get_labels()) == f
        own, beside, _ = problem.parts(f)
        assert (g.compute_data_energy(), g.compute_smooth_energy()) == (own * part, beside * part)
        assert g.swap(1) == problem.energy(chain(problem, "swap", 1, f)) * part
        assert g.get_label_at_site(0) == g.get_labels()[0]
        g.set_site_data_cost(0, 1, -9)
        g.set_pair_smooth_cost(0, 1, 0)
        assert g.get_labels().shape == (sites,)
        g.destroy_graph()
        refused(RuntimeError, g.expansion, says="create_general_graph")
    g = gco.GCO()
    g.create_grid_graph(3, 2, 2)
    g.set_data_cost([[[0, 2], [2, 0], [0, 2]], [[0, 2], [2, 0], [0, 2]]])
    g.set_smooth_cost([[0, 1], [1, 0]])
    assert g.expansion() == 4 and flat(g.get_labels()) == [0] * 6
    refused(TypeError, g.set_site_data_cost, 0, 1, 0.5, says="energy_is_float=True")
    refused(ValueError, g.init_label_at_site, 6, 0, says="no site 6")
    refused(ValueError, g.expansion_on_alpha, 2, says="no label 2")
    refused(ValueError, g.set_data_cost, [[1, 2]] * 5, says="unary_cost")
    refused(ValueError, g.set_all_neighbors, [0, 1], [1], [1], says="three rows")


def of_class(data, pairs, is_float=False, start=()):
    """A problem with its unary costs, its pairs and its first labels."""
    g = gco.GCO()
    g.create_general_graph(len(data), len(data[0]), energy_is_float=is_float)
    g.set_data_cost(data)
    for pair in pairs:
        g.set_neighbor_pair(*pair)
    for site, label in enumerate(start):
        g.init_label_at_site(site, label)
    return g


DATA, ROW = [[0, 5], [9, 0], [0, 5]], [(0, 1, 1), (2, 1, 2)]


def steps(s1, s2, l1, l2):
    """A step up costs one more than the number of its first site, and a step down three more than that."""
    return 0 if l1 == l2 else 1 + s1 + 3 * (l1 > l2)


def function_by_hand():
    """Three sites in a row: 011 costs 5 + 1, 010 1 + 2 * 3, 000 9, 111 10, 110 5 + 2 * 3. With a pair of both ends, of the weight 3,
    011 costs 3 more and 010 the same."""
    for move in (lambda g: g.expansion(), lambda g: g.swap(), lambda g: g.expansion_on_alpha(0), lambda g: g.alpha_beta_swap(0, 1)):
        for is_float in (False, True):
            g = of_class(DATA, ROW, is_float, [1, 1, 1])
            g.set_smooth_cost_function(steps)
            assert (g.compute_energy(), g.compute_data_energy(), g.compute_smooth_energy()) == (10, 10, 0)
            assert move(g) == 6 and flat(g.get_labels()) == [0, 1, 1] and g.scale == 1
            assert (g.compute_data_energy(), g.compute_smooth_energy()) == (5, 1) and g.lower_bound() <= 6
            assert {type(told) for told in (g.compute_energy(), g.compute_smooth_energy(), g.lower_bound())} == {float if is_float else int}
            g.set_neighbor_pair(0, 2, 3)
            assert g.compute_energy() == 9 and g.lower_bound() <= 7
            assert g.expansion() == 7 and flat(g.get_labels()) == [0, 1, 0]
            g.set_neighbor_pair(2, 0, 1)
            g.init_label_at_site(0, 1)
            assert g.compute_smooth_energy() == 0 + 2 * 3 + 3 * 4 + 3
            g.destroy_graph()
            refused(RuntimeError, g.set_smooth_cost_function, steps, says="create_general_graph")
    g = of_class([[4], [5]], [])
    g.set_smooth_cost_function(steps)
    assert g.expansion() == 9 and g.lower_bound() == 9 and g.compute_smooth_energy() == 0


def a_table(rng, k):
    """A metric, and a cost of each label at each end, which no move minds."""
    far, toll = [rng.randrange(6) for _ in range(k)], rng.randrange(3)
    here, there = ([rng.randrange(-3, 6) for _ in range(k)] for _ in range(2))
    return [[(a != b) * (toll + abs(far[a] - far[b])) + here[a] + there[b] for b in range(k)] for a in range(k)]


class Asked:
    """A function by a table for each two sites, by the order in which they stand, that notes what it is asked."""

    def __init__(self, rng, sites, k, part):
        self.labels, self.part, self.calls = k, part, []
        self.tables = {ends: a_table(rng, k) for ends in itertools.permutations(range(sites), 2)}

    def __call__(self, *words):
        assert all(type(word) is int for word in words)
        self.calls.append(words)
        s1, s2, l1, l2 = words
        return self.tables[s1, s2][l1][l2] * self.part

    def problem(self, data, pairs):
        return PairProblem(data, [self.tables[p, q] for p, q, _ in pairs], self.labels, pairs, [])

    def was_asked_once(self, pairs):
        called, self.calls = sorted(self.calls), []
        return called == sorted((p, q, a, b) for p, q, _ in pairs for a in range(self.labels) for b in range(self.labels))


def by_function(count):
    """Functions of any costs: each move, run and energy by the definition, and what the function is asked."""
    rng = random.Random(37)
    for turn in range(count):
        sites, k = rng.randrange(2, 6), rng.randrange(1, 4)
        data = [[rng.randrange(-3, 9) for _ in range(k)] for _ in range(sites)]
        pairs = [(*rng.sample(range(sites), 2), rng.randrange(4)) for _ in range(rng.randrange(7))]
        part, by_weight = rng.choice([(1, 1), (0.5, 1), (1, 0.25), (0.5, 0.5)])
        start, whole = [rng.randrange(k) for _ in range(sites)], part * by_weight
        fun = Asked(rng, sites, k, part)
        problem = fun.problem(data, pairs)
        said = turn, problem.__dict__, start
        g = of_class([[cost * whole for cost in row] for row in data], [(p, q, w * by_weight) for p, q, w in pairs], whole != 1, start)
        g.set_smooth_cost_function(fun)
        assert not fun.calls
        own, beside, _ = problem.parts(start)
        assert (g.compute_data_energy(), g.compute_smooth_energy(), g.compute_energy()) == (own * whole, beside * whole, (own + beside) * whole), said
        alpha, beta = rng.randrange(k), rng.randrange(k)
        f = problem.best((alpha,), tuple(start))
        assert g.expansion_on_alpha(alpha) == problem.energy(f) * whole and flat(g.get_labels()) == list(f), said
        if alpha != beta:
            f = problem.best((alpha, beta), f)
            assert g.alpha_beta_swap(alpha, beta) == problem.energy(f) * whole and flat(g.get_labels()) == list(f), said
        assert 1 <= g.scale <= 1 / whole and np.log2(g.scale) % 1 == 0
        for moves, run, cycles in (("expansion", g.expansion, 1), ("expansion", g.expansion, -1), ("swap", g.swap, 1), ("swap", g.swap, -1)):
            for site, label in enumerate(start):
                g.init_label_at_site(site, label)
            f = chain(problem, moves, 99 if cycles < 0 else cycles, start)
            assert run(cycles) == problem.energy(f) * whole and flat(g.get_labels()) == f, (*said, moves, cycles)
        least = min(map(problem.energy, all_labels(sites, k))) * whole
        assert g.lower_bound() <= least and flat(g.get_labels()) == f and isinstance(g.lower_bound(), int if whole == 1 else float), said
        assert fun.was_asked_once(pairs), said
        # another pair, and the function set anew: it is asked anew
        pairs.append((*rng.sample(range(sites), 2), 2))
        problem = fun.problem(data, pairs)
        least = min(map(problem.energy, all_labels(sites, k))) * whole
        g.set_neighbor_pair(*pairs[-1][:2], 2 * by_weight)
        for _ in range(2):
            assert g.compute_energy() == problem.energy(f) * whole and g.lower_bound() <= least, said
            f = chain(problem, "expansion", 99, f)
            assert g.expansion() == problem.energy(f) * whole and flat(g.get_labels()) == f and fun.was_asked_once(pairs), said
            g.set_smooth_cost_function(fun)


def fractions_of_function(count):
    """Costs of no power of two: the scale by hand, the labels of the whole numbers by the definition, and bounds that are below."""
    rng = np.random.default_rng(5)
    for turn in range(count):
        sites, k, size = int(rng.integers(2, 6)), int(rng.integers(2, 4)), 10.0 ** rng.integers(-9, 12)
        pairs = [(*map(int, rng.permutation(sites)[:2]), float(rng.random())) for _ in range(4)]
        unary, far, toll = rng.normal(size=(sites, k)) * size, rng.random(k), rng.random(sites) * size * rng.choice([0.1, 10])

        def fun(s1, s2, l1, l2):
            return toll[s1] * abs(far[l1] - far[l2])
        g = of_class(unary, pairs, True)
        g.set_smooth_cost_function(fun)
        energy, f = g.expansion(), flat(g.get_labels())
        data = unary - np.minimum(unary.min(axis=1), 0)[:, None]
        tables = np.array([[[w * fun(p, q, a, b) for b in range(k)] for a in range(k)] for p, q, w in pairs])
        assert 5000000 < max(data.max(), tables.max()) * g.scale <= 10000000 and np.log2(g.scale) % 1 == 0, (turn, g.scale)
        whole = np.rint(data * g.scale).astype(int).tolist(), np.ceil(tables * g.scale - 1e-6).astype(int).tolist()
        problem = PairProblem(*whole, k, [(p, q, 1) for p, q, _ in pairs], [])
        assert f == chain(problem, "expansion", 99, [0] * sites), (turn, problem.__dict__)

        def exact(f):
            return sum(Fraction(float(unary[s, l])) for s, l in enumerate(f)) + sum(Fraction(w) * Fraction(float(fun(p, q, f[p], f[q]))) for p, q, w in pairs)
        assert abs(exact(f) - Fraction(energy)) <= 1e-11 * size
        least, low = min(map(exact, all_labels(sites, k))), g.lower_bound()
        assert Fraction(low) <= least, (turn, low, float(least))


def products():
    """A product of fractions is rounded down for a bound, where it cannot be exact, and to the nearest for a move."""
    rng = np.random.default_rng(6)
    tables, weights = rng.random((500, 3, 3)) * 10.0 ** rng.integers(-20, 20, (500, 3, 3)), rng.random(500)
    tables[::3], weights[::2] = np.rint(tables[::3] * 8) / 8, np.rint(weights[::2] * 64) / 64
    tables[:, 0, 0] *= -1
    near, below = gco.scaling.weighted_tables(tables, weights), gco.scaling.weighted_tables(tables, weights, down=True)
    exact = [Fraction(cost) * Fraction(weights[place]) for place, table in enumerate(tables.tolist()) for cost in np.ravel(table)]
    for product, one, other in zip(exact, near.ravel().tolist(), below.ravel().tolist()):
        assert one == float(product) and other == (one if one <= product else np.nextafter(one, -np.inf)), (product, one, other)
    assert {bool(one < product) for product, one in zip(exact, below.ravel().tolist())} == {False, True}
    assert (gco.scaling.weighted_tables(np.full((1, 1, 1), 1e305), np.ones(1), down=True) < 1e305).all()
    # three times the float below a third is below 1, and to the nearest 1
    g = of_class([[0], [0]], [(1, 0, 3)], True)
    g.set_smooth_cost_function(lambda *words: 1 / 3)
    assert g.expansion() == 1 and g.scale == 1 and 1 - 1e-6 < g.lower_bound() and Fraction(g.lower_bound()) <= 3 * Fraction(1 / 3) < 1


def function_as_table(count):
    """A function that is one table for all pairs: the labels and energies of that table, by the definition and by set_smooth_cost."""
    rng = random.Random(38)
    for turn in range(count):
        sites, k, part = rng.randrange(2, 6), rng.randrange(2, 4), rng.choice([1, 0.5])
        data = [[rng.randrange(-3, 9) for _ in range(k)] for _ in range(sites)]
        pairs = [(*rng.sample(range(sites), 2), rng.randrange(4)) for _ in range(5)]
        problem = Problem(data, a_table(rng, k), pairs, [])
        table = (np.array(problem.smooth) * part).tolist()
        one, other = (of_class(np.array(data) * part, pairs, part != 1) for _ in range(2))
        one.set_smooth_cost(table)
        other.set_smooth_cost_function(lambda s1, s2, l1, l2: table[l1][l2])
        for moves in ("expansion", "swap"):
            f = chain(problem, moves, 99, flat(one.get_labels()))
            for g in (one, other):
                assert getattr(g, moves)() == problem.energy(f) * part and flat(g.get_labels()) == f, (turn, moves, problem.__dict__)
                assert (g.compute_data_energy(), g.compute_smooth_energy()) == tuple(cost * part for cost in problem.parts(f)[:2])


def functions_replaced():
    """Of a table and a function the last counts. At 011 the pairs cost 2 and 0 by the table here, and by the function 1 and 0."""
    table = [[0, 2], [1, 0]]
    g = of_class(DATA, ROW, start=[0, 1, 1])
    g.set_smooth_cost(table)
    assert g.compute_energy() == 7 and g.expansion() == 6 and flat(g.get_labels()) == [0, 1, 0] and g.compute_smooth_energy() == 2 + 2 * 2
    g.set_smooth_cost_function(steps)
    assert g.compute_energy() == 1 + 2 * 3 and g.expansion() == 6 and flat(g.get_labels()) == [0, 1, 1]
    g.set_smooth_cost_function(lambda *words: 7 * steps(*words))
    assert g.compute_smooth_energy() == 7 and g.expansion() == 9 and flat(g.get_labels()) == [0, 0, 0]
    g.set_smooth_cost(table)
    assert g.expansion() == 6 and flat(g.get_labels()) == [0, 1, 0]
    # one entry goes into the table, and after a function into a table of zeros
    g.set_pair_smooth_cost(0, 1, 1)
    assert g.compute_smooth_energy() == 1 + 2 * 1
    g.set_smooth_cost_function(steps)
    g.set_pair_smooth_cost(1, 0, 4)
    assert g.compute_smooth_energy() == 0 and g.expansion() == 0
    g.set_pair_smooth_cost(0, 1, 1)
    assert g.compute_smooth_energy() == 1 + 2 * 1
    # what is refused leaves the function
    g.set_smooth_cost_function(steps)
    for kind, bad in ((ValueError, (0, 2, 1)), (TypeError, (0, 1, 0.5)), (TypeError, (0, 1, "1"))):
        refused(kind, g.set_pair_smooth_cost, *bad)
    refused(ValueError, g.set_smooth_cost, [[0, 1]], says="cost: costs of shape (2, 2)")
    refused(TypeError, g.set_smooth_cost_function, table, says="fun: a function of two sites and two labels is wanted, and not list")
    refused(TypeError, g.set_smooth_cost_function, None, says="fun: a function of two sites and two labels is wanted, and not NoneType")
    assert g.compute_smooth_energy() == 1 + 2 * 3
    # another graph has neither
    g.create_general_graph(2, 2)
    g.set_neighbor_pair(0, 1, 1)
    g.init_label_at_site(1, 1)
    assert g.compute_smooth_energy() == 0


def bad_functions():
    """What a function answers that is no cost, and what it raises: nothing is changed by it."""
    calls = ("expansion",), ("swap",), ("expansion_on_alpha", 0), ("alpha_beta_swap", 0, 1), ("lower_bound",), ("compute_energy",), ("compute_smooth_energy",)

    def bad(kind, fun, says, is_float):
        g = of_class(DATA, ROW, is_float, [1, 1, 1])
        g.set_smooth_cost_function(steps)
        assert g.expansion() == 6
        g.set_smooth_cost_function(fun)
        for name, *words in calls:
            refused(kind, getattr(g, name), *words, says=says)
        assert flat(g.get_labels()) == [0, 1, 1] and g.scale == 1 and g.compute_data_energy() == 5
        g.set_smooth_cost_function(steps)
        assert g.compute_smooth_energy() == 1 and g.expansion() == 6

    def wrong(kind, answer, says, is_float):
        bad(kind, lambda *words: answer, says, is_float)
        bad(kind, lambda *words: answer if words == (2, 1, 1, 0) else 0, says, is_float)
    wrong(TypeError, 0.5, "fun: costs with a fraction want energy_is_float=True", False)
    for is_float in (False, True):
        wrong(TypeError, None, "fun: whole numbers are wanted", is_float)
        wrong(TypeError, "1", "fun: whole numbers are wanted", is_float)
        wrong(OverflowError, 2**64, "fun: a number is not from", is_float)
        wrong((ValueError, TypeError), [1, 2], "fun: ", is_float)
        wrong((ValueError, TypeError), np.ones(1), "fun: ", is_float)
        bad(ValueError, lambda *words: np.zeros((2, 2)), "fun: one number is wanted for the sites 0 and 1 and two labels", is_float)
        bad(TypeError, lambda s1, s2, l1, l2: l1 != l2, "fun: whole numbers are wanted, and not bool", is_float)
        bad(TypeError, lambda s1, s2: 0, "positional argument", is_float)
        bad(KeyError, lambda s1, s2, l1, l2: {(0, 1): 0}[s1, s2], "(2, 1)", is_float)
    wrong(ValueError, np.nan, "fun: a cost is no number (nan)", True)
    for endless in (np.inf, -np.inf):
        wrong(ValueError, endless, "fun: a cost has no limit", True)
    for kind, is_float in ((int, False), (np.int8, False), (np.uint64, False), (np.array, False), (float, True), (np.float32, True)):
        g = of_class(DATA, ROW, is_float)
        g.set_smooth_cost_function(lambda *words: kind(steps(*words)))
        assert g.expansion() == 6


def limits_of_function():
    """A weight times a cost comes to 10,000,000; more is refused, and with fractions allowed it is scaled."""
    moves = ("expansion",), ("swap",), ("expansion_on_alpha", 0), ("alpha_beta_swap", 0, 1), ("lower_bound",)

    def told(kind, pairs, fun, is_float=False, **more):
        g = of_class(DATA, pairs, is_float)
        g.set_smooth_cost_function(fun)
        (one,) = {refused(kind, getattr(g, name), *words, **more) for name, *words in moves}
        assert flat(g.get_labels()) == [0, 0, 0] and g.scale == 1
        return one
    # the sites 0 and 2 have one label for nothing, and the one between has the other for nothing
    def up(s1, s2, l1, l2):
        return 16 * (l1 < l2)
    g = of_class(DATA, [(0, 1, 625000), (2, 1, 1)])
    g.set_smooth_cost_function(up)
    assert g.expansion() == 9 and g.lower_bound() <= 9
    pairs, said = [(0, 1, 1), (2, 1, 625001)], "smooth: labels {} cost the pair of sites 2 and 1 10,000,016: a cost of the very pair is from 0 to 10,000,000"
    assert told(gco.Refused, pairs, up, status=16, place=5) == said.format("0 and 1")
    assert told(gco.Refused, pairs, lambda *words: -up(*words), status=16, place=0) == (
        "smooth: labels 0 and 0 cost the pair of sites 0 and 1 10,000,016: a cost of the very pair is from 0 to 10,000,000")
    g = of_class(DATA, pairs, True)
    g.set_smooth_cost_function(up)
    assert g.expansion() == 9 and g.scale == 0.5 and g.lower_bound() <= 9 and g.compute_smooth_energy() == 0
    for site, label in enumerate([0, 1, 0]):
        g.init_label_at_site(site, label)
    assert g.compute_smooth_energy() == 10000032
    # beyond 64 bits, where an energy is told all the same, and weights below 0
    g = of_class([[-2**62, 5]] * 3, [(0, 1, 2**40), (2, 1, 3)])
    g.set_smooth_cost([[2**40, 0], [0, 0]])
    assert (g.compute_data_energy(), g.compute_smooth_energy()) == (-3 * 2**62, 2**80 + 3 * 2**40)
    g.set_smooth_cost_function(lambda *words: -2**50)
    assert (g.compute_smooth_energy(), g.compute_energy()) == (-2**90 - 3 * 2**50, -2**90 - 3 * 2**50 - 3 * 2**62)
    assert told(OverflowError, [(0, 1, 2**40), (2, 1, 2**40)], lambda s1, s2, l1, l2: s1 * 2**20 * l1) == (
        "fun: the pair of sites 2 and 1 costs up to 1099511627776 times 2097152, which is beyond 64 bits")
    told(OverflowError, [(0, 1, 2**62)], lambda s1, s2, l1, l2: l1 - 2, says="fun: the pair of sites 0 and 1 costs up to 4611686018427387904 times 2, which")
    told(OverflowError, [(0, 1, 1e200)], lambda *words: 1e200, True, says="fun: the pair of sites 0 and 1 costs up to 1e+200 times 1e+200")
    told(ValueError, [(0, 1, -1)], steps, says="weights: -1 is below 0: a weight is from 0 on")
    told(ValueError, [(0, 1, -0.5)], steps, True, says="weights: -0.5 is below 0: a weight is from 0 on")
    # a term that no expansion takes
    g = of_class(DATA, ROW, start=[1, 1, 1])
    g.set_smooth_cost_function(lambda s1, s2, l1, l2: 9 * (s1 == 2 and l1 == l2 == 0))
    refused(gco.Refused, g.expansion, status=24, place=1, says="are no metric")


def never():
    """A label without limit: by hand, the middle one of three sites alone keeps label 0, whose borders cost 2."""
    unary, pairwise = np.array([[9, 0], [0, np.inf], [9, 0]]), [[0, 2], [2, 0]]
    for step in (1, 0.7):
        told = gco.cut_general_graph([(0, 1), (1, 2)], [1, 1], unary * step, np.array(pairwise) * step, return_scale=True)
        assert flat(told.labels) == [1, 0, 1] and abs(told.energy - 4 * step) < 1e-9
        assert flat(gco.cut_grid_graph_simple(unary.reshape(1, 3, 2) * step, np.array(pairwise) * step)) == [1, 0, 1]
    g = gco.GCO()
    g.create_general_graph(3, 2, energy_is_float=True)
    g.set_data_cost(unary)
    g.set_smooth_cost(pairwise)
    g.set_all_neighbors([0, 1], [1, 2], [1, 1])
    g.init_label_at_site(1, 1)
    assert g.compute_energy() == np.inf and g.expansion() == 4 and flat(g.get_labels()) == [1, 0, 1]
    refused(ValueError, gco.cut_general_graph, [(0, 1)], [np.inf], [[1, 2], [2, 1]], [[0, 1], [1, 0]], says="edge_weights: a cost has no limit")


general_graph()
grid_graphs(120)
if np is not None:
    fractions(200)
    never()
    pygco()
    by_class(100)
    function_by_hand()
    by_function(300)
    fractions_of_function(300)
    products()
    function_as_table(100)
    functions_replaced()
    bad_functions()
    limits_of_function()
else:
    refused(ImportError, gco.GCO, says="numpy is wanted")
    refused(TypeError, gco.cut_general_graph, [(0, 1)], [0.5], [[1, 2], [2, 1]], [[0, 1], [1, 0]], says="edge_weights")
print("gco-wrapper's and pygco's names:", "with numpy" if np is not None else "without numpy")
