"""The package against worked examples, against the definitions tried in every case, and on what is refused."""
import array
import contextlib
import io
import itertools
import random
import sys
import threading
import types

if "--without-numpy" in sys.argv:
    sys.modules["numpy"] = None
import gco
from definitions import Problem
from refusing import flat, refused

DATA = [[4, 6, 9], [7, 5, 6], [8, 4, 7], [9, 7, 3], [6, 8, 5]]
PAIRS = [(0, 1, 3), (1, 2, 2), (2, 3, 2), (3, 4, 4), (1, 3, 1), (0, 4, 1)]


def districts():
    found = gco.label(DATA, gco.potts(3), PAIRS)
    assert list(found.labels) == [1, 1, 1, 2, 2]
    assert (found.energy, found.data, found.smooth, found.label, found.settled, found.bound) == (27, 23, 4, 0, True, (1, 1))
    again = gco.label(DATA, gco.potts(3), PAIRS, start=found.labels, cycles=0)
    assert (again.energy, again.cycles, again.settled, again.bound) == (27, 0, False, None)
    edges, weights = [p[:2] for p in PAIRS], [p[2] for p in PAIRS]
    assert list(gco.cut_general_graph(edges, weights, DATA, gco.potts(3))) == [1, 1, 1, 2, 2]
    assert list(gco.cut_general_graph(edges, weights, DATA, gco.potts(3), algorithm="swap", n_iter=3)) == [1, 1, 1, 2, 2]
    moved = gco.expand(DATA, gco.potts(3), PAIRS, 2)
    assert (list(moved.labels), moved.energy, moved.settled) == ([0, 2, 2, 2, 2], 29, False)
    moved = gco.swap(DATA, gco.potts(3), PAIRS, 2, 1, start=moved.labels)
    assert (list(moved.labels), moved.energy, moved.settled) == ([0, 1, 1, 2, 2], 28, False)


def given(rng, data, pairs):
    """The same costs and pairs in one of the forms that they may be given in."""
    labels = len(data[0]) if data else 0
    forms = [(data, pairs), (array.array("q", [x for row in data for x in row]), pairs), (array.array("i", [x for row in data for x in row]), pairs)]
    np = gco.arrays.numpy
    if np is not None and data:
        table, listed = np.array(data), np.array(pairs, dtype=int).reshape(-1, 3)
        forms += [(table.astype(kind), listed) for kind in (np.uint8, np.int16, np.int32, np.uint64, ">i4")]
        forms += [(np.asfortranarray(table), listed[:, :]), (np.repeat(table, 2, axis=1)[:, ::2], listed.astype(np.uint16)),
                  (table.reshape(len(data), 1, labels), listed)]
    return rng.choice(forms)


def by_definition(count):
    rng = random.Random(5)
    kinds = {"answered": 0, 24: 0, 27: 0, "bound": 0}
    for turn in range(count):
        sites, k = rng.randrange(0, 6), rng.randrange(1, 4)
        data = [[rng.randrange(0, rng.choice([3, 10])) for _ in range(k)] for _ in range(sites)]
        shape = rng.choice(["potts", "linear", "any"])
        smooth = [[{"potts": int(a != b), "linear": min(abs(a - b), 2), "any": rng.randrange(0, 4)}[shape] for b in range(k)] for a in range(k)]
        pairs = [(*rng.sample(range(sites), 2), rng.choice([0, 1, 2, 5])) for _ in range(rng.randrange(0, 2 * sites + 1) if sites > 1 else 0)]
        costs = rng.choice([[], [], [rng.randrange(0, 5) for _ in range(k)]])
        start = tuple(rng.randrange(k) for _ in range(sites))
        moves, cycles = rng.choice(["expansion", "swap"]), rng.choice([0, 1, 2, 50])
        problem = Problem(data, smooth, pairs, costs)
        wanted = problem.run(moves, cycles, start)
        for progress in (None, lambda *told: None):
            try:
                f = gco.label(*(lambda d, p: (d, array.array("q", [x for row in smooth for x in row]), p))(*given(rng, data, pairs)), label_costs=costs or None, moves=moves,
                              cycles=cycles, start=start, progress=progress)
                got = (tuple(flat(f.labels)), f.data, f.smooth, f.label, f.cycles, f.settled)
                kinds["answered"] += 1
                if f.bound:
                    kinds["bound"] += 1
                    least = min(map(problem.energy, itertools.product(range(k), repeat=sites)))
                    assert f.bound[0] * f.energy <= 2 * f.bound[1] * least, (turn, f)
            except gco.Refused as error:
                got = ("refused", error.status, error.place, error.alpha, error.beta)
                kinds[error.status] += 1
            assert got == wanted, (turn, data, smooth, pairs, costs, start, moves, cycles, wanted, got)
    assert all(kinds.values()), kinds
    return kinds


def assignments(count):
    rng = random.Random(7)
    kinds = {"answered": 0, 20: 0}
    for turn in range(count):
        n = rng.randrange(1, 6)

        def some(variables):
            if n < variables:
                return []
            return [(*rng.sample(range(n), variables), [rng.randrange(-4, 5) for _ in range(2 ** variables)]) for _ in range(rng.randrange(0, 3))]
        ones, twos, threes, constant = some(1), some(2), some(3), rng.randrange(-9, 10)
        terms = ones + twos + threes
        irregular = [(place, fixed) for place, (*names, table) in enumerate(terms) for fixed in failing(len(names), table)]

        def value(x):
            return constant + sum(table[int("".join(str(x[name]) for name in names), 2)] for *names, table in terms)
        try:
            got = gco.minimise(n, ones, twos, threes, constant)
            least = min(map(value, itertools.product((0, 1), repeat=n)))
            every = [x for x in itertools.product((0, 1), repeat=n) if value(x) == least]
            assert not irregular and got == (least, array.array("B", min(every, key=sum))), (turn, got)
            kinds["answered"] += 1
        except gco.Refused as error:
            assert irregular and error.status == 20 and (error.place, error.fixed) == irregular[0], (turn, error)
            assert str(error).endswith(" fixed %d at %d" % error.fixed if error.fixed else "is not regular"), error
            kinds[20] += 1
    assert all(kinds.values()), kinds
    return kinds


def failing(variables, table):
    """Where a term is not regular: of one of two variables None, of one of three each variable and value that fix it."""
    if variables == 2:
        return [None] if table[0] + table[3] > table[1] + table[2] else []
    at, found = {bits: table[place] for place, bits in enumerate(itertools.product((0, 1), repeat=variables))}, []
    for fixed in range(3 if variables == 3 else 0):
        for bit in (0, 1):
            four = [number for bits, number in at.items() if bits[fixed] == bit]
            if four[0] + four[3] > four[1] + four[2]:
                found.append((fixed, bit))
    return found


def bad_input():
    potts = gco.potts(3)
    refused(TypeError, gco.label, [[0.5, 1, 2]] * 5, potts, PAIRS)
    refused(OverflowError, gco.label, [[2**63, 1, 2]] * 5, potts, PAIRS)
    refused(OverflowError, gco.label, DATA, potts, [(0, -1, 1)])
    refused(OverflowError, gco.label, DATA, potts, [(0, 1, 2**32)])
    refused(TypeError, gco.label, DATA, potts, [(0, 1, 0.5)])
    refused(ValueError, gco.label, DATA, potts, [0, 1])
    refused(ValueError, gco.label, DATA, potts, PAIRS, moves="both")
    refused(TypeError, gco.label, DATA, potts, PAIRS, cycles=1.5)
    refused(OverflowError, gco.label, DATA, potts, PAIRS, cycles=-1)
    refused(gco.Refused, gco.label, DATA, potts, [(0, 5, 1)], status=10, place=0)
    refused(gco.Refused, gco.label, DATA, potts, PAIRS[:2] + [(1, 1, 1)], status=12, place=2)
    refused(gco.Refused, gco.label, DATA, potts, PAIRS[:3] + [(0, 1, 1001)], status=14, place=3)
    refused(gco.Refused, gco.label, [[-1, 0, 0]] * 5, potts, PAIRS, status=15, place=0)
    refused(gco.Refused, gco.label, DATA, gco.potts(3, 10001), PAIRS, status=16, place=1)
    refused(gco.Refused, gco.label, DATA, potts, PAIRS, label_costs=[1, 2], status=7)
    refused(gco.Refused, gco.label, DATA, potts, PAIRS, label_costs=[1, 2, -3], status=17, place=2)
    refused(gco.Refused, gco.label, DATA, potts, PAIRS, label_costs=[0, 2, 0], moves="swap", cycles=0, status=27)
    refused(gco.Refused, gco.label, DATA, potts, PAIRS, start=[0, 1, 2, 3, 4], status=11, place=3)
    refused(gco.Refused, gco.label, DATA[:4] + [[1, 2]], potts, PAIRS, status=4)
    refused(gco.Refused, gco.label, [], [], [], status=3)
    refused(gco.Refused, gco.label, [[0]] * 1048577, [[0]], [], status=2)
    refused(gco.Refused, gco.expand, DATA, potts, PAIRS, 3, status=8)
    refused(gco.Refused, gco.swap, DATA, potts, PAIRS, 0, 3, status=8)
    refused(gco.Refused, gco.label, [[0, 9, 9], [9, 9, 0]], [[0, 1, 4], [1, 0, 1], [4, 1, 0]], [(0, 1, 1)], start=[0, 2], status=24, place=0)
    refused(gco.Refused, gco.minimise, 1, constant=10**9 + 1, status=18)
    refused(gco.Refused, gco.minimise, 1, [(0, (1, 2)), (1, (0, 0))], status=10, place=1)
    refused(gco.Refused, gco.minimise, 2, [(0, (1, 2))], [(1, 1, (0, 0, 0, 0))], status=12, place=1)
    refused(gco.Refused, gco.minimise, 2, [(0, (1, 10**9 + 1))], status=14, place=0)
    refused(OverflowError, gco.minimise, 2, [(0, (1, 2**63))])
    refused(TypeError, gco.minimise, 2, [(0, (1, 0.5))])
    refused(gco.Refused, gco.minimise, 2**21 + 1, status=2)
    refused(ValueError, gco.minimise, 2, [(0, (1, 2, 3))])


def progress():
    """Calls in the order of the moves: energies never rise, and the last one tells the end. Where a stretch is one move, there is
    one for each."""
    whole, kept = gco.label(DATA, gco.potts(3), PAIRS), gco.stretches.SECONDS
    moves = [(c, l) for c in range(1, whole.cycles + 1) for l in range(3)]
    for seconds in (kept, 0):
        told = []
        gco.stretches.SECONDS = seconds
        steps = gco.label(DATA, gco.potts(3), PAIRS, progress=lambda *words: told.append(words))
        assert list(steps.labels) == list(whole.labels) and steps[1:] == whole[1:]
        named, energies = [words[:2] for words in told], [words[3] for words in told]
        assert named[-1] == moves[-1] and energies[-1] == whole.energy
        assert sorted(set(named)) == named and sorted(energies, reverse=True) == energies and any(words[2] for words in told)
    # 0, 1 and then 1 1 1 2 2 everywhere. The moves 0 and 1 of cycle 2 change nothing, so its move 2 is not made
    assert told == [(1, 0, 0, 34), (1, 1, 5, 30), (1, 2, 2, 27), (2, 0, 0, 27), (2, 2, 0, 27)], told
    for stop in range(len(told)):
        seen = []
        stopped = gco.label(DATA, gco.potts(3), PAIRS, progress=lambda *words: seen.append(words) or len(seen) <= stop)
        assert seen == told[:stop + 1] and stopped.energy == told[stop][3]
        # the last call comes where the run is at its end, so nothing is stopped there
        assert (stopped.cycles, stopped.settled) == ((2, True) if stop == len(told) - 1 else (told[stop][0], False))
    gco.stretches.SECONDS = kept


class Bar:
    """What stands for a bar of tqdm: how long it is, how far it came, and the last words beside it."""
    made = []

    def __init__(self, total, **words):
        self.total, self.n, self.closed = total, 0, False
        Bar.made.append(self)

    def set_postfix(self, energy, changed, refresh):
        self.energy = energy

    def update(self, more=1):
        assert not self.closed
        self.n += more

    def close(self):
        self.closed = True


def bars():
    """A bar for each cycle, as long as the cycle has moves, by tqdm; and without it a line for each call that saw a change."""
    data, kept, seconds = [[*costs, 5] for costs in DATA], sys.modules.get("tqdm"), gco.stretches.SECONDS
    sys.modules["tqdm"] = types.SimpleNamespace(tqdm=Bar)
    for moves, count, gco.stretches.SECONDS in (("expansion", 4, seconds), ("swap", 6, seconds), ("expansion", 4, 0), ("swap", 6, 0)):
        Bar.made.clear()
        found = gco.label(data, gco.potts(4), PAIRS, moves=moves, progress=True)
        assert [(bar.total, bar.n, bar.closed) for bar in Bar.made] == [(count, count, True)] * found.cycles and found.cycles > 1
        assert Bar.made[-1].energy == found.energy
    sys.modules["tqdm"] = None
    written = io.StringIO()
    with contextlib.redirect_stderr(written):
        found = gco.label(data, gco.potts(4), PAIRS, progress=True)
    gco.stretches.SECONDS = seconds
    lines = ["cycle 1 label 1: 5 sites, energy 30", "cycle 1 label 2: 2 sites, energy 27", "cycle 1 label 3: 5 sites, energy 25"]
    assert written.getvalue().splitlines() == lines and found.energy == 25, written.getvalue()
    if kept is None:
        del sys.modules["tqdm"]
    else:
        sys.modules["tqdm"] = kept


def narrow():
    flat = [x for row in DATA for x in row]
    wide, short = (gco.label(array.array(code, flat), gco.potts(3), PAIRS) for code in "qi")
    assert list(wide.labels) == list(short.labels) and wide[1:] == short[1:]
    refused(gco.Refused, gco.label, array.array("i", [9, -1, *flat[2:]]), gco.potts(3), PAIRS, status=15, place=1)


def threads():
    picture = [[[(x * 7 + y * 13 + k * 5) % 40 for k in range(6)] for x in range(60)] for y in range(50)]
    one = flat(gco.cut_grid_graph_simple(picture, gco.potts(6, 4), connect=8))
    answers = [None] * 4

    def run(i):
        answers[i] = flat(gco.cut_grid_graph_simple(picture, gco.potts(6, 4), connect=8))
    running = [threading.Thread(target=run, args=(i,)) for i in range(4)]
    for thread in running:
        thread.start()
    for thread in running:
        thread.join()
    assert answers == [one] * 4 and len(set(one)) > 1


def graph():
    g = gco.Graph()
    ids = g.add_grid_nodes((3, 4))
    g.add_grid_edges(ids, 2)
    g.add_grid_tedges(ids, [[9, 9, 1, 0]] * 3, [[0, 1, 3, 9]] * 3)
    assert g.maxflow() == 3 * (1 + 1 + 2)
    assert [list(row) for row in g.get_grid_segments(ids)] == [[False, False, True, True]] * 3
    assert (g.get_segment(0), g.get_segment(3)) == (0, 1)
    refused(gco.Refused, g.add_edge, 0, 1, -1, 0, status=20)


def with_numpy():
    import numpy as np
    d, potts, pairs = np.array(DATA), np.array(gco.potts(3)), np.array(PAIRS)
    f = gco.label(d, potts, pairs)
    assert isinstance(f.labels, np.ndarray) and f.labels.tolist() == [1, 1, 1, 2, 2]
    refused(TypeError, gco.label, d / 2, potts, pairs)
    refused(OverflowError, gco.label, d.astype(np.uint64) + np.uint64(2**63), potts, pairs)
    refused(OverflowError, gco.label, d, potts, -pairs)
    refused(TypeError, gco.cut_general_graph, pairs[:, :2] / 2, pairs[:, 2], d, potts)
    start = np.zeros(5, dtype=np.int32)
    assert gco.label(d.astype(np.int32)[:, ::-1][:, ::-1], potts, pairs, start=start).energy == 27
    assert start.tolist() == [0] * 5
    # costs of at most 32 bits go as 32 bits, and are refused as those of 64 are
    for kind in (np.int8, np.uint16, np.int32):
        assert gco.label(d.astype(kind), potts, pairs, label_costs=[2, 2, 2])[1:5] == (31, 23, 4, 4)
        assert gco.label(d.astype(kind), potts, pairs, progress=lambda *told: None)[1:] == f[1:]
    narrow = np.ascontiguousarray(d, dtype=np.int32)
    assert gco.labelling.Problem(narrow, potts, pairs, None, None, narrow=True).owners[0] is narrow
    refused(gco.Refused, gco.label, narrow - 9, potts, pairs, status=15, place=0)
    refused(gco.Refused, gco.label, narrow, potts + 2**40, pairs, status=16, place=0)
    refused(gco.Refused, gco.label, narrow, potts, pairs, label_costs=[1, 2, -2**40], status=17, place=2)
    refused(OverflowError, gco.label, narrow, potts, pairs, label_costs=[1, 2, 2**63])
    refused(gco.Refused, gco.label, narrow[:4, :2], potts, pairs, status=4)

    # the pairs and edges of a grid, as they are made without numpy
    rng = random.Random(3)
    weights = [[[rng.randrange(9) for _ in range(5)] for _ in range(4)] for _ in range(3)]
    sides = {"right": (4, 4), "down": (3, 5), "down_right": (3, 4), "down_left": (3, 4)}
    each = {name: [[rng.randrange(9) for _ in range(wide)] for _ in range(high)] for name, (high, wide) in sides.items()}
    grids = [dict(connect=4), dict(connect=8, weight=7), each]

    def cuts():
        g = gco.Graph()
        ids = g.add_grid_nodes((4, 5))
        g.add_grid_edges(ids, weights[0])
        g.add_grid_edges(ids, 2)
        g.add_grid_tedges(ids, weights[1], weights[2])
        return g.maxflow(), [bool(on) for row in g.get_grid_segments(ids) for on in row]
    kept = [[int(x) for x in np.asarray(gco.grid_pairs(5, 4, **grid)).ravel()] for grid in grids], cuts()
    gco.arrays.numpy = None
    assert kept == ([list(gco.grid_pairs(5, 4, **grid)) for grid in grids], cuts())
    gco.arrays.numpy = np
    refused(ValueError, gco.cut_grid_graph, np.zeros((4, 5, 2), dtype=int), gco.potts(2), np.ones((4, 5)), np.ones((4, 5)))


districts()
kinds = by_definition(2000)
least = assignments(2000)
bad_input()
progress()
bars()
narrow()
threads()
graph()
if gco.arrays.numpy is not None:
    with_numpy()
print("python", sys.version.split()[0], "with numpy" if gco.arrays.numpy is not None else "without numpy", "runs", kinds, "assignments", least)
