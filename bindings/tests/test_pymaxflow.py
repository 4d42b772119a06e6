"""Graphs and grids as they are written for PyMaxflow, against least cuts and chains of best moves by the definition."""
import itertools
import random
import sys
import warnings

if "--without-numpy" in sys.argv:
    sys.modules["numpy"] = None
import gco_proved.maxflow as maxflow
from definitions import Problem, chain, least_cut
from refusing import flat, refused

np = maxflow.arrays.numpy


def two_nodes():
    """The first example of its documentation: the cut between two nodes and two terminals, by hand 8."""
    for made in (maxflow.Graph[int](2, 2), maxflow.GraphInt(2, 2), maxflow.GraphInt(), maxflow.Graph()):
        first, second = made.add_nodes(2)
        made.add_edge(first, second, 1, 2)
        made.add_tedge(first, 2, 5)
        made.add_tedge(second, 9, 4)
        assert made.maxflow() == 8 and [made.get_segment(first), made.get_segment(second)] == [1, 0]
        assert (made.get_node_count(), made.get_node_num(), made.get_edge_count(), made.get_edge_num()) == (2, 2, 2, 2)
        copy = made.copy()
        made.add_tedge(first, 100, 0)
        assert copy.maxflow() == 8 and made.maxflow() == 9 + 2 - 2 and made.get_segment(first) == 0
        made.reset()
        assert made.get_node_count() == 0
    refused(TypeError, lambda: maxflow.Graph[str], says="Graph[int] or Graph[float]")


def rows(table):
    return table.tolist() if hasattr(table, "tolist") else table


def structures():
    assert rows(maxflow.vonNeumann_structure(1)) == [1, 0, 1]
    assert rows(maxflow.vonNeumann_structure(2)) == [[0, 1, 0], [1, 0, 1], [0, 1, 0]]
    assert rows(maxflow.vonNeumann_structure(ndim=2, directed=True)) == [[0, 0, 0], [0, 0, 1], [0, 1, 0]]
    assert rows(maxflow.moore_structure(2)) == [[1, 1, 1], [1, 0, 1], [1, 1, 1]]
    assert rows(maxflow.moore_structure(ndim=2, directed=True)) == [[0, 0, 0], [0, 0, 1], [1, 1, 1]]
    cube = rows(maxflow.moore_structure(3, directed=True))
    assert sum(x for plane in cube for row in plane for x in row) == 13 and cube[1][1] == [0, 0, 1]
    assert sum(x for plane in rows(maxflow.vonNeumann_structure(3)) for row in plane for x in row) == 6


def shaped(flat_list, shape):
    return maxflow.nested(flat_list, shape) if np is None else np.array(flat_list).reshape(shape)


def grids(count):
    """Grids of one to three sides, each edge by the definition: from a node to that at an offset, its weight times the structure's number."""
    rng = random.Random(11)
    for turn in range(count):
        shape = rng.choice([(4,), (7,), (2, 3), (3, 3), (1, 5), (2, 2, 2), (1, 2, 3), (3, 1, 2), (2, 1, 2, 2)])
        size = 1
        for side in shape:
            size *= side
        weights, source, sink = ([rng.randrange(6) for _ in range(size)] for _ in range(3))
        around = rng.choice(["plain", "structure", "sides of 5"])
        symmetric = rng.random() < 0.4
        rounds = [rng.random() < 0.4 for _ in shape]
        periodic = rounds if rng.random() < 0.5 else rounds[0]
        rounds = rounds if isinstance(periodic, list) else [periodic] * len(shape)
        kind = rng.choice([int, float])
        part = 1 if kind is int else 0.25
        box = (5,) * len(shape) if around == "sides of 5" else (3,) * len(shape)
        numbers = [rng.choice([0, 0, 1, 2]) for _ in range(box[0] ** len(shape))]
        g = maxflow.Graph[kind]()
        g.add_nodes(2)
        ids = g.add_grid_nodes(shape[0] if len(shape) == 1 else shape)
        assert flat_ids(ids) == list(range(2, size + 2))
        if around == "plain":
            numbers = [int(sum(map(abs, at)) == 1 and (not symmetric or sum(at) == 1)) for at in itertools.product((-1, 0, 1), repeat=len(shape))]
            g.add_grid_edges(ids, shaped([part * x for x in weights], shape), symmetric=symmetric, periodic=periodic)
        else:
            g.add_grid_edges(ids, weights=shaped([part * x for x in weights], shape), structure=shaped(numbers, box), symmetric=symmetric, periodic=periodic)
        g.add_grid_tedges(ids, shaped([part * x for x in source], shape), shaped([part * x for x in sink], shape))
        places = list(itertools.product(*map(range, shape)))
        edges = []
        for node, at in enumerate(places):
            for number, offset in zip(numbers, itertools.product(*(range(-(side // 2), side // 2 + 1) for side in box))):
                over = tuple((one + step) % side if around else one + step for one, step, side, around in zip(at, offset, shape, rounds))
                if number and any(offset) and over in places and over != at:
                    edges.append((node, places.index(over), number * weights[node], number * weights[node] if symmetric else 0))
        value, bits = least_cut(size, [(node, source[node], sink[node]) for node in range(size)], edges)
        assert g.maxflow() == value * part, (turn, shape, around, symmetric, rounds)
        cut = g.maxflow(return_scale=True)
        assert (cut.flow, cut.exact) == (value * part, True) and cut.scale in ((1,) if kind is int else (1, 2, 4)), cut
        segments = g.get_grid_segments(ids)
        assert [int(one) for one in maxflow.flattened(rows(segments))] == list(bits), (turn, shape)
        assert [g.get_segment(node + 2) for node in range(size)] == list(bits)


def flat_ids(ids):
    return [int(one) for one in maxflow.flattened(rows(ids))]


def layout():
    """A grid whose edges back have no limit, so that each row is cut once at most; and terminals of no limit."""
    inf = float("inf")
    backward = [[inf, 0, 0], [inf, 0, 0], [inf, 0, 0]]
    forward, down = [[0, 0, 0], [0, 0, 1], [0, 0, 0]], [[0, 0, 0], [0, 0, 0], [0, 1, 0]]
    costs = [[4, 9, 7], [8, 2, 9], [9, 9, 3]]
    g = maxflow.Graph[int]()
    ids = g.add_grid_nodes((3, 3))
    for structure, weights in ((backward, 1), (forward, shaped([x for row in costs for x in row], (3, 3))), (down, 2)):
        g.add_grid_edges(ids, weights=weights, structure=structure if np is None else np.array(structure, dtype=float))
    for row in rows(ids):
        g.add_tedge(row[0], inf, 0)
        g.add_tedge(row[-1], 0, inf)
    # by definition: in each row a column 0 or 1 behind which it is cut, no column more than one after another row's;
    # edges down cost 2 where the upper pixel lies at the source's side and the lower one does not
    best = None
    for cut in itertools.product((0, 1), repeat=3):
        cost = sum(costs[y][x] for y, x in enumerate(cut))
        cost += sum(2 * max(0, cut[y] - cut[y + 1]) for y in range(2))
        best = min(best or (cost, cut), (cost, cut))
    assert g.maxflow() == best[0]
    assert [[int(on) for on in row] for row in rows(g.get_grid_segments(ids))] == [[int(x > best[1][y]) for x in range(3)] for y in range(3)]
    # no cut of a finite capacity
    g = maxflow.Graph[int]()
    g.add_nodes(1)
    g.add_tedge(0, inf, inf)
    refused(OverflowError, g.maxflow, says="without limit")


def restoration():
    """Its example of a picture of two greys: the least energy of its pixels and neighbours, by trying every picture."""
    noisy = [[0, 255, 0, 0], [0, 0, 255, 255], [255, 0, 255, 255]]
    g = maxflow.Graph[int]()
    ids = g.add_grid_nodes((3, 4))
    g.add_grid_edges(ids, 100)
    grey = noisy if np is None else np.array(noisy, dtype=np.uint8)
    g.add_grid_tedges(ids, grey, [[255 - one for one in row] for row in noisy] if np is None else 255 - grey)
    value = g.maxflow()
    found = [[int(on) for on in row] for row in rows(g.get_grid_segments(ids))]

    def energy(bits):
        own = sum((255 - noisy[n // 4][n % 4]) if not bit else noisy[n // 4][n % 4] for n, bit in enumerate(bits))
        across = sum(bits[n] != bits[n + 1] for n in range(12) if n % 4 < 3) + sum(bits[n] != bits[n + 4] for n in range(8))
        return own + 100 * across
    every = list(itertools.product((0, 1), repeat=12))
    least = min(map(energy, every))
    assert value == least and tuple(x for row in found for x in row) == min((b for b in every if energy(b) == least), key=sum)
    assert 0 < sum(map(sum, found)) < 12


def wrong():
    g = maxflow.Graph[int]()
    ids = g.add_grid_nodes((2, 3))
    refused(ValueError, g.add_grid_edges, ids, 1, [[0, 1], [1, 0]], says="odd sides")
    refused(ValueError, g.add_grid_edges, ids, 1, [0, 0, 1], says="2 odd sides")
    refused(TypeError, g.add_grid_edges, ids, 1, [[0, 0, 0], [0, 0, 0.5], [0, 0, 0]], says="structure")
    refused(ValueError, g.add_grid_nodes, (1,) * 9, says="one to 8 sides")
    refused(ValueError, g.add_grid_edges, ids, periodic=[True], says="yes or no for each of 2 sides")
    refused(ValueError, g.add_grid_tedges, ids, [[1, 2]] * 2, 0, says="(2, 3)")
    refused(ValueError, g.add_grid_edges, ids, [[1, 2]] * 2, says="(2, 3)")
    refused(gco_refused(), g.add_grid_edges, ids, 2000000000, status=14, says="2,000,000,000")
    refused(gco_refused(), g.add_grid_tedges, ids, 2000000000, 0, status=14, says="2,000,000,000")
    if np is not None:
        refused(TypeError, g.add_grid_edges, ids, np.ones((2, 3)), says="scale and round")
        refused(TypeError, g.add_grid_tedges, ids, np.ones((2, 3)) / 2, 0, says="write Graph[float]")
        refused(ValueError, g.add_grid_tedges, ids + 1, 1, 0, says="no node 6")
    assert g.maxflow() == 0


def gco_refused():
    return maxflow.Refused


def fractions(count):
    """Graph[float]: what has a fraction of a power of two is cut exactly, and else as near as the scale says; inf is never cut."""
    inf = float("inf")
    rng = random.Random(23)
    for turn in range(count):
        size, part = rng.randrange(1, 7), rng.choice([1, 0.5, 2.0 ** -20, 3.0])
        tedges = [(node, rng.randrange(9), rng.randrange(9)) for node in range(size)]
        edges = [(*rng.sample(range(size), 2), rng.randrange(9), rng.randrange(9)) for _ in range(2 * size)] if size > 1 else []
        value, bits = least_cut(size, tedges, edges)
        g = maxflow.Graph[float](size, len(edges))
        g.add_nodes(size)
        for node, source, sink in tedges:
            g.add_tedge(node, source * part, sink * part)
        for first, second, there, back in edges:
            g.add_edge(first, second, there * part, back * part)
        cut = g.copy().maxflow(return_scale=True)
        assert cut.flow == value * part and cut.exact and cut.scale in (1, 2, *(2 ** power for power in range(3, 21) if part < 0.5)), (cut, part)
        assert cut.flow == g.maxflow() and [g.get_segment(node) for node in range(size)] == list(bits), turn
        # tenths have no power of two: near, and told
        tenths = maxflow.GraphFloat()
        tenths.add_nodes(size)
        for node, source, sink in tedges:
            tenths.add_tedge(node, source / 10, sink / 10)
        for first, second, there, back in edges:
            tenths.add_edge(first, second, there / 10, back / 10)
        cut = tenths.maxflow(return_scale=True)
        assert abs(cut.flow - value / 10) < 1e-6 and (cut.exact or cut.scale > 1e8)
    # three nodes in a row, by hand: the first is the source's and the last the sink's, whatever it costs; the cut takes 0.3
    g = maxflow.Graph[float]()
    g.add_nodes(3)
    g.add_tedge(0, inf, 0.7)
    g.add_tedge(2, 0.1, inf)
    g.add_edge(0, 1, 0.3, 0)
    g.add_edge(1, 2, 1e6 + 0.5, inf)
    cut = g.maxflow(return_scale=True)
    assert abs(cut.flow - 1.1) < 1e-9 and not cut.exact and [g.get_segment(node) for node in range(3)] == [0, 1, 1]
    g.add_edge(0, 2, inf, 0)
    refused(OverflowError, g.maxflow, says="without limit")
    for wrong, kind in ((float("nan"), ValueError), (-inf, ValueError), ("1", TypeError), (None, TypeError)):
        refused(kind, g.add_tedge, 0, wrong, 1, says="node 0")
        refused(kind, g.add_edge, 0, 1, wrong, 1, says="nodes 0 and 1")
    refused(gco_refused(), g.add_edge, 0, 1, -0.5, 0.25, status=20, says="together below 0")
    huge = maxflow.Graph[float]()
    huge.add_nodes(2)
    huge.add_tedge(0, 3e15, 0)
    huge.add_tedge(1, 0, 2e15)
    huge.add_edge(0, 1, 5e14, 0)
    cut = huge.maxflow(return_scale=True)
    assert cut.flow == 5e14 and cut.scale < 1
    if np is not None:
        ids = g.add_grid_nodes((2, 2))
        refused(ValueError, g.add_grid_edges, ids, np.array([[1, np.nan], [1, 1]]), says="no number")
        refused(ValueError, g.add_grid_edges, ids, np.array([[1, np.inf], [1, 1]]), says="no limit")
        refused(ValueError, g.add_grid_tedges, ids, np.nan, 1, says="no number")
        narrow = maxflow.Graph[int]()
        narrow.add_nodes(1)
        narrow.add_tedge(0, np.float32(inf), 7)
        assert narrow.maxflow() == 7 and narrow.get_segment(0) == 0
        h = maxflow.Graph[float]()
        ids = h.add_grid_nodes((1, 3))
        h.add_grid_edges(ids, 0.5)
        h.add_grid_tedges(ids, np.array([[np.inf, 0, 0]]), np.array([[0, 0.25, np.inf]]))
        assert h.maxflow() == 0.5 and h.get_grid_segments(ids).tolist() == [[False, True, True]]
    # what asks for an earlier search changes nothing, and says so
    for call in (lambda: g.mark_node(0), lambda: h_of().maxflow(reuse_trees=True)):
        with warnings.catch_warnings(record=True) as told:
            warnings.simplefilter("always")
            call()
        assert [str(one.message) for one in told] == ["each maxflow() is found from scratch: mark_node and reuse_trees change nothing"], told
    refused(ValueError, g.mark_node, 99, says="there is no node 99")


def h_of():
    g = maxflow.Graph[int]()
    g.add_nodes(1)
    return g


def networkx():
    try:
        import networkx as nx
    except ImportError:
        refused(ImportError, maxflow.Graph().get_nx_graph, says="networkx is wanted")
        return "without networkx"
    rng = random.Random(4)
    for _ in range(20):
        g = maxflow.Graph[int]()
        g.add_nodes(6)
        for _ in range(9):
            g.add_edge(*rng.sample(range(6), 2), rng.randrange(9), rng.randrange(9))
        for node in range(6):
            g.add_tedge(node, rng.randrange(9), rng.randrange(9))
        drawn = g.get_nx_graph()
        assert drawn.number_of_nodes() == 8
        assert nx.maximum_flow_value(drawn, "s", "t", capacity="weight") == g.maxflow()
    return "with networkx"


def fastmin(count):
    """aexpansion_grid and abswap_grid, whole and with fractions, against chains of best moves from each place's cheapest label."""
    rng = random.Random(17)
    for turn in range(count):
        shape = rng.choice([(5,), (2, 3), (3, 2), (2, 1, 2)])
        size, k = int(np.prod(shape)), rng.randrange(2, 4)
        unary = np.array([rng.randrange(-4, 9) for _ in range(size * k)]).reshape(*shape, k)
        name = rng.choice(["potts", "linear"])
        binary = np.array([[(a != b) * 2 if name == "potts" else abs(a - b) for b in range(k)] for a in range(k)])
        ids = np.arange(size).reshape(shape)
        pairs = []
        for axis, side in enumerate(shape):
            first, second = ids.take(range(side - 1), axis=axis).ravel(), ids.take(range(1, side), axis=axis).ravel()
            pairs += [(int(p), int(q), 1) for p, q in zip(first, second)]
        problem = Problem(unary.reshape(size, k).tolist(), binary.tolist(), pairs, [])
        start, cycles = unary.argmin(axis=-1), rng.choice([None, 1])
        for call, moves in ((maxflow.fastmin.aexpansion_grid, "expansion"), (maxflow.abswap_grid, "swap")):
            wanted = chain(problem, moves, 99 if cycles is None else 1, start.ravel().tolist())
            # costs below 0 too; and the same problem in quarters and below 0
            for scale, shift in ((1, 0), (0.25, -3.5)):
                got = call(unary * scale, binary * scale + shift, cycles)
                assert got.shape == shape and flat(got) == wanted, (turn, moves, scale)
            told = call(unary * 0.25, binary * 0.25, max_cycles=cycles, return_scale=True)
            assert told.exact and flat(told.labels) == wanted and told.energy == problem.energy(wanted) / 4, (told, wanted)
            again = call(unary, binary, labels=got)
            assert maxflow.energy_of_grid_labeling(unary, binary, again) <= maxflow.energy_of_grid_labeling(unary, binary, got)
        assert maxflow.energy_of_grid_labeling(unary, binary, start) == problem.energy(start.ravel().tolist())
    refused(ValueError, maxflow.aexpansion_grid, np.zeros((2, 2, 3)), np.zeros((2, 2)), says="binary: one cost")
    refused(ValueError, maxflow.aexpansion_grid, np.zeros((2, 2, 3)), np.zeros((3, 3)), labels=np.zeros((2, 3), dtype=int), says="labels: one for each place")
    refused(ValueError, maxflow.aexpansion_grid, np.zeros((2, 2, 3)), np.zeros((3, 3)), labels=np.full((2, 2), 3), says="labels are 0 to 2")
    refused(ValueError, maxflow.aexpansion_grid, np.full((2, 2, 3), np.nan), np.zeros((3, 3)), says="unary: a cost is no number")
    refused(ValueError, maxflow.aexpansion_grid, np.full((2, 2, 3), -np.inf), np.zeros((3, 3)), says="unary: a cost has no limit")
    refused(ValueError, maxflow.aexpansion_grid, np.zeros((2, 2, 3)), np.full((3, 3), np.inf), says="binary: a cost has no limit")
    refused(ValueError, maxflow.aexpansion_grid, [[np.inf, 0], [np.inf, np.inf]], np.zeros((2, 2)), says="each label has no limit at site 1")
    # a label without limit is never taken: by hand, the middle place alone cannot have label 1, whose borders cost 2 each
    for step, wanted in ((1, [1, 0, 1]), (0.3, [1, 0, 1])):
        told = maxflow.aexpansion_grid(np.array([[9, 0], [0, np.inf], [9, 0]]) * step, np.array([[0, 2], [2, 0]]) * step, return_scale=True)
        assert flat(told.labels) == wanted and abs(told.energy - 4 * step) < 1e-9 and told.exact == (step == 1)
    walled = np.array([[1e7, 0]] * 9).reshape(3, 3, 2)
    walled[1, 1] = (0, np.inf)
    refused(OverflowError, maxflow.aexpansion_grid, walled, np.array([[0, 1], [1, 0]]) * 1e7, says=("label 1 has no limit at site 4", "all the same"))


two_nodes()
structures()
grids(200)
fractions(60)
layout()
restoration()
wrong()
said = networkx()
if np is not None:
    fastmin(150)
else:
    refused(ImportError, maxflow.aexpansion_grid, [[[1, 2]]], [[0, 1], [1, 0]], says="numpy is wanted")
print("PyMaxflow's names:", "with numpy," if np is not None else "without numpy,", said)
