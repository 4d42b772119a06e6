"""What a caller does wrong is told as what it is, in the caller's words; none of it is answered in silence."""
import array
import concurrent.futures
import multiprocessing
import pickle
import signal
import subprocess
import sys
import time

if "--without-numpy" in sys.argv:
    sys.modules["numpy"] = None
import gco
from definitions import Problem, chain
from refusing import flat, refused

np = gco.arrays.numpy
DATA = [[4, 6, 9], [7, 5, 6], [8, 4, 7], [9, 7, 3], [6, 8, 5]]
EDGES = [(0, 1), (1, 2), (2, 3), (3, 4), (1, 3), (0, 4)]
POTTS = gco.potts(3)


def pairs_without_weights():
    # by hand: two neighbours that disagree pay 2, so sites 0 and 1 part (3 beside 4), 2 and 3 do not (1), 4 and 5 do (2)
    data, smooth = [[0, 3], [4, 1], [0, 3], [1, 0], [0, 9], [9, 0]], gco.potts(2, 2)
    edges = [(0, 1), (2, 3), (4, 5)]
    forms = [edges, tuple(edges), [list(edge) for edge in edges], iter(edges), [(0, 1, 1), (2, 3), (4, 5)], zip((0, 2, 4), (1, 3, 5))]
    if np is not None:
        forms += [np.array(edges), np.array(edges, dtype=np.uint8), np.asfortranarray(np.array(edges)), [np.array(edge) for edge in edges]]
    for form in forms:
        found = gco.label(data, smooth, form)
        assert (flat(found.labels), found.energy) == ([0, 1, 0, 0, 0, 1], 6), (form, found)
    # the six numbers of three pairs are not two triples
    refused(ValueError, gco.label, data, smooth, [0, 1, 2, 3, 4, 5], says="pairs: an array of shape (n, 3), or (n, 2)")
    refused(ValueError, gco.label, data, smooth, array.array("I", [0, 1, 2, 3, 4, 5]), says="(p, q)")
    refused(ValueError, gco.label, data, smooth, [(0, 1, 1, 1)], says="element 0 is (0, 1, 1, 1)")
    refused(ValueError, gco.label, data, smooth, [(0,)], says="element 0")
    if np is not None:
        refused(ValueError, gco.label, data, smooth, np.arange(6), says="and not one of shape (6,)")
        refused(ValueError, gco.label, data, smooth, np.array(edges).reshape(1, 6), says="(1, 6)")
        refused(ValueError, gco.label, data, smooth, np.zeros((4, 5), dtype=int), says="(4, 5)")
        assert gco.label(data, smooth, np.zeros((0, 3), dtype=int)).energy == 1


def shapes():
    refused(gco.Refused, gco.label, [[1, 2]] * 5, POTTS, EDGES, status=4, says="the last axis has 2 costs")
    refused(gco.Refused, gco.label, DATA[:4] + [[1, 2]], POTTS, EDGES, status=4, says="rows have 2 to 3")
    refused(gco.Refused, gco.label, [1] * 14, POTTS, EDGES, status=4)
    refused(gco.Refused, gco.label, DATA, [[0, 1, 1]] * 2, EDGES, status=5, says="(2, 3)")
    refused(gco.Refused, gco.label, DATA, [0] * 8, EDGES, status=5)
    refused(gco.Refused, gco.label, DATA, POTTS, EDGES, label_costs=[[1, 2, 3]], status=7, says="(1, 3)")
    # labels come first: 3 labels of a picture of 2 by 4 pixels
    planes = [[[1] * 4] * 2] * 3
    refused(gco.Refused, gco.label, planes, POTTS, [], status=4, says=("data: the last axis has 4 costs", "3 labels", "(3, 2, 4)"))
    for start in ([0] * 4, [0] * 6, [[0] * 5], []):
        refused(ValueError, gco.label, DATA, POTTS, EDGES, start=start, says="start: one label for each of 5 sites")
    picture = [[[1, 2], [2, 1], [0, 3]], [[3, 0], [1, 1], [2, 2]]]
    ones = [[1] * 3] * 1, [[1] * 2] * 2
    sites = [costs for row in picture for costs in row]
    beside = [(0, 1, 1), (1, 2, 1), (3, 4, 1), (4, 5, 1), (0, 3, 1), (1, 4, 1), (2, 5, 1)]
    wanted = chain(Problem(sites, gco.potts(2), beside, []), "expansion", 99, [0] * 6)
    assert flat(gco.cut_grid_graph(picture, gco.potts(2), *ones)) == wanted and len(set(wanted)) == 2
    for name, place, wrong in (("cost_v", 0, [[1] * 3] * 2), ("cost_h", 1, [[1] * 3] * 2), ("cost_v", 0, [[1] * 2]), ("cost_h", 1, [[1] * 2])):
        costs = list(ones)
        costs[place] = wrong
        refused(ValueError, gco.cut_grid_graph, picture, gco.potts(2), *costs, says=f"{name}: weights of shape")
    refused(ValueError, gco.cut_grid_graph, picture, gco.potts(2), *ones, [[1] * 3], says="cost_dr: weights of shape (1, 2)")
    refused(ValueError, gco.cut_grid_graph_simple, DATA, POTTS, says="(height, width, labels)")
    refused(ValueError, gco.cut_general_graph, EDGES, [1] * 5, DATA, POTTS, says="edge_weights: one for each of 6 edges")
    refused(ValueError, gco.cut_general_graph, [(0, 1, 1)], [1], DATA, POTTS, says="edges: two sites")
    refused(ValueError, gco.grid_pairs, 3, 2, right=[[1] * 3] * 2, says="right: weights of shape (2, 2)")
    refused(ValueError, gco.grid_pairs, 3, 2, connect=6, says="4 or 8")
    if np is not None:
        found = gco.label(np.array(picture), gco.potts(2), gco.grid_pairs(3, 2))
        assert found.labels.shape == (2, 3)
        again = gco.label(np.array(picture), gco.potts(2), gco.grid_pairs(3, 2), start=found.labels)
        assert (again.labels == found.labels).all() and again.cycles == 1


def kinds():
    for wrong in ("456", ["4", "5"] * 5, None, 7, {"a": 1}, [[0.5, 1, 2]] * 5, [[None] * 3] * 5, [[1 + 0j] * 3] * 5):
        refused(TypeError, gco.label, wrong, POTTS, EDGES)
    refused(TypeError, gco.label, DATA, "potts", EDGES, says="smooth: whole numbers are wanted, and not a string")
    refused(TypeError, gco.label, "abc", POTTS, EDGES, says="data: whole numbers are wanted, and not a string")
    refused(TypeError, gco.label, DATA, POTTS, EDGES, start="00000", says="start")
    refused(TypeError, gco.label, DATA, POTTS, "01", says="pairs")
    refused(TypeError, gco.label, DATA, POTTS, [(0, 1, 0.5)], says=("element 0 is (0, 1, 0.5)", "scale and round"))
    refused(TypeError, gco.label, DATA, POTTS, EDGES, weights=1)
    refused(ValueError, gco.label, DATA, POTTS, EDGES, moves="both", says="expansion or swap")
    if np is None:
        return
    table = np.array(DATA)
    for wrong in (table / 2, table > 5, table.astype(object) / 2, table.astype(str), table.astype(complex)):
        refused(TypeError, gco.label, wrong, POTTS, EDGES)
    masked = np.ma.masked_equal(table, 9)
    refused(ValueError, gco.label, masked, POTTS, EDGES, says=("data: 2 numbers of the masked array are masked", "fill"))
    refused(ValueError, gco.label, DATA, POTTS, EDGES, start=np.ma.masked_equal([0, 1, 1, 0, 0], 1), says="start: 2 numbers")
    assert gco.label(masked.filled(9), POTTS, EDGES) [1] == gco.label(DATA, POTTS, EDGES).energy
    assert gco.label(np.ma.array(DATA), POTTS, EDGES).energy == gco.label(DATA, POTTS, EDGES).energy


def words():
    refused(gco.Refused, gco.label, DATA, POTTS, [(0, 1, 1), (3, 4, 2000)], status=14, place=1, says=("sites 3 and 4", "2000", "0 to 1,000"))
    refused(OverflowError, gco.label, DATA, POTTS, [(0, 1, 1), (3, 4, -1)], says=("sites 3 and 4", "weight -1", "0 to 1,000"))
    refused(OverflowError, gco.label, DATA, POTTS, [(-1, 4, 1)], says="pair of -1 and 4")
    refused(gco.Refused, gco.label, DATA, POTTS, [(0, 7, 1)], status=10, says=("sites 0 and 7", "0 to 4"))
    refused(gco.Refused, gco.label, DATA, POTTS, [(2, 2, 1)], status=12, says="joins site 2 to itself")
    refused(gco.Refused, gco.label, [[1, 2, 3], [4, -5, 6]], POTTS, [], status=15, says=("label 1 at site 1", "-5"))
    refused(gco.Refused, gco.label, [[[1, 2], [2, 20000000]]], gco.potts(2), [], status=15, says="row 0, column 1")
    refused(gco.Refused, gco.label, DATA, gco.potts(3, 20000), EDGES, status=16, says="labels 0 and 1 cost 20,000")
    refused(gco.Refused, gco.label, DATA, POTTS, EDGES, label_costs=[0, 1, -1], status=17, says="label 2 costs -1")
    refused(gco.Refused, gco.label, DATA, POTTS, EDGES, start=[0, 1, 2, 3, 0], status=11, says="site 3 has label 3")
    curve = [[0, 1, 4], [1, 0, 1], [4, 1, 0]]
    told = [[0, 9, 9], [9, 9, 0]]
    refused(gco.Refused, gco.label, told, curve, [(0, 1)], start=[0, 2], status=24, says=("expansion of label 1", "sites 0 and 1", "swaps"))
    if np is not None:
        refused(OverflowError, gco.label, DATA, POTTS, np.array([[0, 1, 1], [3, 4, -1]]), says=("sites 3 and 4", "weight -1"))
        refused(gco.Refused, gco.label, DATA, POTTS, np.array([[0, 1, 1], [3, 4, 2000]]), status=14, says="sites 3 and 4")


def scaled():
    """label with scale=True: costs with fractions and below 0, as the whole ones; inf for never; and what is no cost."""
    if np is None:
        refused(ImportError, gco.label, DATA, POTTS, EDGES, scale=True, says="numpy")
        return
    whole = gco.label(DATA, POTTS, [(*edge, 2) for edge in EDGES], label_costs=[3, 1, 2])
    for part, pairs in ((0.25, [(*edge, 0.5) for edge in EDGES]), (0.5, np.array([(*edge, 1.0) for edge in EDGES])), (1, [(*edge, 2) for edge in EDGES])):
        smooth = np.array(POTTS) * part / (pairs[0][2] / 2)
        found = gco.label(np.array(DATA) * part, smooth, pairs, label_costs=np.array([3, 1, 2]) * part, scale=True)
        assert isinstance(found, gco.Scaled) and flat(found.labels) == flat(whole.labels) and found.exact, (part, found)
        assert found.energy == whole.energy * part, (found, whole)
    # below 0, without weights, and a shape
    shifted = gco.label(np.array(DATA).reshape(5, 3) - 4, POTTS, EDGES, scale=True)
    plain = gco.label(DATA, POTTS, EDGES)
    assert flat(shifted.labels) == flat(plain.labels) and shifted.energy == plain.energy - 20
    assert gco.label(np.zeros((2, 2, 2)), gco.potts(2), gco.grid_pairs(2, 2), scale=True).labels.shape == (2, 2)
    # never: by hand, site 1 takes label 1, since 2 has no limit and 0 costs more
    forbidden = np.array([[0.5, 3], [9, 1.25], [0.5, 3]])
    forbidden[1, 0] = np.inf
    found = gco.label(forbidden, gco.potts(2), [(0, 1, 0.25), (1, 2, 0.25)], scale=True)
    assert flat(found.labels) == [0, 1, 0] and found.energy == 0.5 + 1.25 + 0.5 + 0.5
    refused(TypeError, gco.label, np.array(DATA) / 2, POTTS, EDGES, says="scale")
    refused(ValueError, gco.label, np.full((2, 2), np.nan), gco.potts(2), [], scale=True, says="data: a cost is no number")
    refused(ValueError, gco.label, np.zeros((2, 2)), gco.potts(2), [(0, 1, -0.5)], scale=True, says="below 0")
    refused(ValueError, gco.label, np.zeros((2, 2)), gco.potts(2), [(0, 1)], label_costs=[-0.5, 1], scale=True, says="label_costs: -0.5 is below 0")
    refused(TypeError, gco.label, np.zeros((2, 2)), gco.potts(2), [(0, 0.5, 1)], scale=True, says="a site is a whole number")
    refused(gco.Refused, gco.label, np.zeros((2, 2)) + 0.5, gco.potts(2), [(0, 7)], scale=True, status=10)


def graphs():
    g = gco.Graph()
    nodes = g.add_nodes(3)
    refused(RuntimeError, g.get_segment, 0, says="call maxflow() first")
    refused(RuntimeError, g.get_grid_segments, nodes, says="call maxflow() first")
    refused(gco.Refused, g.add_edge, 0, 1, 2000000000, 0, status=14, says=("edge of nodes 0 and 1", "2,000,000,000", "at most 1,000,000,000"))
    refused(gco.Refused, g.add_tedge, 2, 2000000000, 0, status=14, says=("node 2", "source"))
    refused(gco.Refused, g.add_edge, 1, 1, 1, 0, status=12, says="nodes 1 and 1")
    refused(gco.Refused, g.add_edge, 0, 1, -3, 1, status=20, says="together below 0")
    refused(ValueError, g.add_edge, 0, 3, 1, 1, says="there is no node 3: the nodes are 0 to 2")
    refused(TypeError, g.add_edge, 0, 1, 0.5, 0, says="scale and round")
    refused(TypeError, g.add_edge, 0, 1.0, 1, 0, says="a node")
    refused(TypeError, lambda: gco.Graph[complex], says=("Graph[complex]", "Graph[float] is wanted"))
    assert g.get_edge_count() == 0
    g.add_tedge(0, 5, 1)
    assert g.maxflow() == 1 and [g.get_segment(node) for node in range(3)] == [0, 0, 0]
    g.add_edge(0, 1, 1, 1)
    refused(RuntimeError, g.get_segment, 0, says="as it stands")


def fails(place):
    return gco.label(DATA, POTTS, [(0, 1, 5000 + place)])


def pickles():
    for error in (gco.Refused(14, 3, words="w", sites=(1, 2)), gco.Refused(20, 1, fixed=(2, 1)), gco.Refused(24, 5, 1, 2)):
        back = pickle.loads(pickle.dumps(error))
        assert (type(back), str(back), vars(back)) == (gco.Refused, str(error), vars(error)), back
    found = gco.label(DATA, POTTS, EDGES)
    again = pickle.loads(pickle.dumps(found))
    assert flat(again.labels) == flat(found.labels) and again[1:] == found[1:]
    context = multiprocessing.get_context("fork")
    with concurrent.futures.ProcessPoolExecutor(2, mp_context=context) as pool:
        for place, future in enumerate([pool.submit(fails, place) for place in range(4)]):
            error = future.exception(timeout=60)
            assert isinstance(error, gco.Refused) and error.status == 14 and str(5000 + place) in str(error), error
        assert pool.submit(len, [1, 2]).result(timeout=60) == 2
    with context.Pool(2) as pool:
        try:
            pool.map_async(fails, [1, 2, 3]).get(timeout=60)
        except gco.Refused as error:
            assert error.status == 14
        else:
            raise AssertionError("no Refused")


LONG = """
import sys
if {bare}: sys.modules["numpy"] = None
import array, gco
side, k = {side}, 64
data = array.array("q", ((x * 7919 + l * 104729 + (x * l) % 31) % 997 for x in range(side * side) for l in range(k)))
pairs = gco.grid_pairs(side, side, 9)
print("ready", flush=True)
try:
    gco.label(data, gco.linear(k, 20), pairs{more})
    print("whole")
except KeyboardInterrupt as stop:
    kept = stop.partial
    again = gco.label(data, gco.linear(k, 20), pairs, start=kept.labels, cycles=0)
    first = gco.label(data, gco.linear(k, 20), pairs, cycles=0)
    assert again.energy == kept.energy and not kept.settled, (again.energy, kept)
    print("partial", kept.energy < first.energy, len(set(int(x) for x in kept.labels)) > 1)
"""


def interrupted():
    # long enough to be stoppable by itself, and where it is asked for
    for side, more in ((512, ""), (300, ", moves='swap', stoppable=True")):
        text = LONG.format(side=side, more=more, bare="--without-numpy" in sys.argv)
        # on a busy machine a run may be stopped before its first move: then it gets more time
        for seconds in (0.4, 0.8, 1.5, 3, 6):
            said, wrong = stopped_after(seconds, text)
            if said != "partial False False\n":
                break
        assert said == "partial True True\n", (said, wrong)


def stopped_after(seconds, text):
    """What the program `text` printed that got Ctrl-C so many seconds after it was ready."""
    child = subprocess.Popen([sys.executable, "-c", text], stdout=subprocess.PIPE, stderr=subprocess.PIPE, text=True)
    assert child.stdout.readline() == "ready\n", child.stderr.read()
    time.sleep(seconds)
    child.send_signal(signal.SIGINT)
    return child.communicate(timeout=120)


def stoppable():
    """What may be stopped answers what a single call does."""
    whole = gco.label(DATA, POTTS, EDGES, stoppable=False)
    for more in (dict(stoppable=True), dict()):
        found = gco.label(DATA, POTTS, EDGES, **more)
        assert flat(found.labels) == flat(whole.labels) and found[1:] == whole[1:]


def stopped_by_progress():
    seconds, gco.stretches.SECONDS = gco.stretches.SECONDS, 0

    def stops(*told):
        raise KeyboardInterrupt
    try:
        gco.label(DATA, POTTS, EDGES, progress=stops)
    except KeyboardInterrupt as stop:
        assert flat(stop.partial.labels) == [0] * 5 and stop.partial.cycles == 1
    else:
        raise AssertionError("no KeyboardInterrupt")
    gco.stretches.SECONDS = seconds


def stopped_as_refused():
    """Ctrl-C that comes as the library refuses the expansion of 1 in cycle 2: what was found before it, with its energy."""
    make, seconds = gco.stretches._Stretches.make, gco.stretches.SECONDS

    def stops(*words):
        try:
            return make(*words)
        except gco.Refused:
            raise KeyboardInterrupt from None
    gco.stretches._Stretches.make, gco.stretches.SECONDS = stops, 0
    try:
        gco.label([[0, 9, 9], [9, 9, 0]], gco.quadratic(3), [(0, 1, 1)], stoppable=True)
    except KeyboardInterrupt as stop:
        assert (flat(stop.partial.labels), stop.partial.energy, stop.partial.cycles, stop.moves_made) == ([0, 2], 4, 2, 4)
    else:
        raise AssertionError("no KeyboardInterrupt")
    gco.stretches._Stretches.make, gco.stretches.SECONDS = make, seconds


if __name__ == "__main__":
    pairs_without_weights()
    shapes()
    kinds()
    words()
    scaled()
    graphs()
    pickles()
    stopped_by_progress()
    stopped_as_refused()
    stoppable()
    interrupted()
    print("mistakes, pickles and Ctrl-C:", "with numpy" if np is not None else "without numpy")
