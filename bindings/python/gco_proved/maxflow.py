"""A minimum cut under the names of PyMaxflow: Graph[int] in whole numbers, Graph[float] by scaling.

    import gco_proved.maxflow as maxflow
    g = maxflow.Graph[int]()
"""
import array
import itertools
import math
import warnings
from typing import Any, Dict, List, NamedTuple, Tuple

from . import arrays, fastmin
from ._library import VALUE_LIMIT
from .arrays import is_array, numbers, shape_of, taken, whole
from .fastmin import abswap_grid, aexpansion_grid, energy_of_grid_labeling
from .minimum import least
from .refusals import Refused
from .structures import INFINITE, flattened, moore_structure, nested, offsets_of, sides_of
from .structures import vonNeumann_structure

__all__ = ["Graph", "GraphInt", "GraphFloat", "vonNeumann_structure", "moore_structure", "fastmin",
           "aexpansion_grid", "abswap_grid", "energy_of_grid_labeling"]

NO_FRACTIONS = "Graph[int] has whole capacities: write Graph[float], which scales them, or scale" \
    " and round them, as by numpy.rint(1000 * capacities).astype(int)"
FROM_SCRATCH = "each maxflow() is found from scratch: mark_node and reuse_trees change nothing"


class Cut(NamedTuple):
    """The least capacity of a cut, and by what power of two the capacities were multiplied before
    they were rounded; `exact` says that nothing was rounded."""

    flow: Any
    scale: float
    exact: bool


class Graph:
    """A minimum cut under the names of PyMaxflow's Graph, in whole numbers up to 1,000,000,000.

    maxflow() is the least capacity of a cut. get_segment(node) is 1 where the node is on the sink's
    side of the cut with the fewest nodes there, else 0. An infinite capacity is an edge that no cut
    takes. Graph[float] is a GraphFloat.
    """

    _code, _fractions = "q", False

    def __init__(self, est_node_num: int = 0, est_edge_num: int = 0) -> None:
        whole(est_node_num, 0, 2**63 - 1, "est_node_num")
        whole(est_edge_num, 0, 2**63 - 1, "est_edge_num")
        self.reset()

    def __class_getitem__(cls, kind: type) -> type:
        if kind not in (int, float):
            raise TypeError(f"Graph[{getattr(kind, '__name__', kind)}]: Graph[int] or Graph[float]"
                            " is wanted")
        return GraphInt if kind is int else GraphFloat

    def reset(self) -> None:
        """Takes all nodes and edges away."""
        self._ones, self._twos = array.array(self._code), array.array(self._code)
        self._nodes = 0
        self._infinite: List[Tuple[int, int]] = []  # -1 is the source and -2 the sink
        self._bits: Any = None

    def copy(self) -> "Graph":
        """A graph of the same nodes and edges."""
        made = type(self)()
        made._ones, made._twos, made._nodes = self._ones[:], self._twos[:], self._nodes
        made._infinite, made._bits = list(self._infinite), self._bits
        return made

    def add_nodes(self, num: int = 1) -> Any:
        """Adds so many nodes, and answers their numbers."""
        first = self._nodes
        self._nodes += whole(num, 0, 2**31, "the number of nodes")
        self._bits = None
        if arrays.numpy is None:
            return range(first, self._nodes)
        return arrays.numpy.arange(first, self._nodes)

    def add_grid_nodes(self, shape: Any) -> Any:
        """Adds the nodes of a grid of one to eight sides (or of one number), and answers them."""
        sides = (shape,) if hasattr(shape, "__index__") else tuple(shape)
        sides = sides_of(tuple(whole(side, 0, 2**31, "a side of the grid") for side in sides))
        ids = self.add_nodes(math.prod(sides))
        return nested(ids, sides) if arrays.numpy is None else ids.reshape(sides)

    def get_node_count(self) -> int:
        return self._nodes

    def get_edge_count(self) -> int:
        """How many edges there are between nodes, each way counted."""
        return 2 * (len(self._twos) // 5)

    get_node_num, get_edge_num = get_node_count, get_edge_count

    def _node(self, node: Any) -> int:
        node = whole(node, -2**63, 2**63 - 1, "a node")
        if not 0 <= node < self._nodes:
            raise ValueError(f"there is no node {node}: the nodes are 0 to {self._nodes - 1}")
        return node

    def add_tedge(self, i: int, cap_source: Any, cap_sink: Any) -> None:
        """Edges from the source to the node and from the node to the sink."""
        node = self._node(i)
        caps = []
        for cap, end in ((cap_sink, (node, -2)), (cap_source, (-1, node))):
            words = f"the edge of node {node} and the {'sink' if end[1] == -2 else 'source'}"
            caps.append(self._capacity(cap, end, words))
        self._ones.extend((node, *caps))
        self._bits = None

    def _capacity(self, cap: Any, ends: Tuple[int, int], words: str) -> int:
        if not hasattr(cap, "__index__") and cap == INFINITE:
            self._infinite.append(ends)
            return VALUE_LIMIT
        if not hasattr(cap, "__index__"):
            raise TypeError(f"{words}: {cap!r}: {NO_FRACTIONS}")
        number = int(cap.__index__())
        if abs(number) > VALUE_LIMIT:
            raise Refused(14, words=f"{words} has the capacity {number:,}: a capacity is at most"
                          " 1,000,000,000")
        return number

    def add_edge(self, i: int, j: int, capacity: Any, rcapacity: Any = 0) -> None:
        """An edge from i to j, and one back of the other capacity."""
        first, second = self._node(i), self._node(j)
        words = f"the edge of nodes {first} and {second}"
        if first == second:
            raise Refused(12, words=f"{words}: an edge joins two nodes")
        there = self._capacity(capacity, (first, second), words)
        back = self._capacity(rcapacity, (second, first), words)
        if there + back < 0:
            raise Refused(20, words=f"{words} has the capacities {there:,} and {back:,}, together"
                          " below 0")
        # the two nodes are the two halves of the first 64 bits, as in gco_two
        self._twos.extend((first | second << 32, 0, there, back, 0))
        self._bits = None

    def add_edges(self, i: Any, j: Any, capacity: Any, rcapacity: Any) -> None:
        """add_edge for each place of four rows of numbers."""
        rows = [taken(row, "edges") for row in (i, j, capacity, rcapacity)]
        if len({len(row) for row in rows}) > 1:
            raise ValueError("add_edges: four rows of one length are wanted, and they have"
                             f" {[len(row) for row in rows]}")
        for first, second, there, back in zip(*rows):
            self.add_edge(first, second, there, back)

    def _nodes_of(self, nodeids: Any) -> Any:
        ids = numbers(nodeids, "nodes")
        if ids.size and not (0 <= int(ids.min()) and int(ids.max()) < self._nodes):
            wrong = ids[(ids < 0) | (ids >= self._nodes)][0]
            raise ValueError(f"there is no node {wrong}: the nodes are 0 to {self._nodes - 1}")
        return ids

    def add_grid_tedges(self, nodeids: Any, sourcecaps: Any, sinkcaps: Any) -> None:
        """add_tedge for each node of an array, of one capacity or of one for each."""
        if arrays.numpy is None:
            shape = shape_of(nodeids, "nodes")
            rows = [_spread(caps, shape, what) for caps, what in
                    ((nodeids, "nodes"), (sourcecaps, "sourcecaps"), (sinkcaps, "sinkcaps"))]
            for node, source, sink in zip(*rows):
                self.add_tedge(node, source, sink)
            return
        ids = self._nodes_of(nodeids)
        source = self._capacities(sourcecaps, ids, "sourcecaps", lambda node: (-1, node))
        sink = self._capacities(sinkcaps, ids, "sinkcaps", lambda node: (node, -2))
        rows = arrays.numpy.column_stack([ids.ravel(), sink.ravel(), source.ravel()])
        self._add_rows(self._ones, rows)
        self._bits = None

    def _add_rows(self, terms, rows):
        terms.frombytes(rows.astype({"q": "int64", "d": "float64"}[self._code]).tobytes())

    def _capacities(self, caps, ids, what, ends):
        """The capacities of an array of nodes; those without a limit are kept by their ends."""
        numpy = arrays.numpy
        caps = numpy.asarray(caps if not hasattr(caps, "__iter__") else taken(caps, what))
        caps = _broadcast(caps, ids.shape, what)
        if caps.dtype.kind == "f" and numpy.isposinf(caps).any():
            infinite = numpy.isposinf(caps)
            self._infinite += [ends(int(node)) for node in ids[infinite]]
            finite = numpy.where(infinite, 0, caps)
            if (finite != numpy.rint(finite)).any():
                raise TypeError(f"{what}: {NO_FRACTIONS}")
            return numpy.where(infinite, VALUE_LIMIT, finite).astype(numpy.int64)
        if caps.dtype.kind == "f":
            raise TypeError(f"{what}: {NO_FRACTIONS}")
        return self._within(numbers(caps, what), ids, what)

    @staticmethod
    def _within(caps, ids, what):
        """The capacities, if each is within its limit."""
        numpy = arrays.numpy
        if caps.size and not -VALUE_LIMIT <= int(caps.min()) <= int(caps.max()) <= VALUE_LIMIT:
            place = numpy.argmax((caps > VALUE_LIMIT) | (caps < -VALUE_LIMIT))
            raise Refused(14, words=f"{what}: node {ids.ravel()[place]} has the capacity"
                          f" {caps.ravel()[place]:,}: a capacity is at most 1,000,000,000")
        return caps

    def add_grid_edges(self, nodeids: Any, weights: Any = 1, structure: Any = None,
                       symmetric: bool = False, periodic: Any = False) -> None:
        """Edges from each node of a grid to those that `structure` names, by default its
        neighbours along each axis. The capacity is the node's weight times what stands there.
        `symmetric`: the same capacity back. `periodic`: the grid's last nodes are beside its first
        ones, along each axis, or along those that a list of yes and no names."""
        shape = sides_of(shape_of(taken(nodeids, "nodes"), "nodes"))
        if structure is None:
            structure = vonNeumann_structure(len(shape), directed=bool(symmetric))
        ways = _paired(offsets_of(structure, len(shape), self._fractions), symmetric)
        add = self._add_listed_edges if arrays.numpy is None else self._add_array_edges
        ids = taken(nodeids, "nodes") if arrays.numpy is None else self._nodes_of(nodeids)
        add(ids, shape, weights, ways, symmetric, _rounds(periodic, len(shape)))
        self._bits = None

    def _weights(self, weights, shape):
        numpy = arrays.numpy
        weights = numpy.asarray(taken(weights, "weights") if hasattr(weights, "__iter__")
                                else weights)
        if weights.dtype.kind not in "iu":
            raise TypeError(f"weights: {NO_FRACTIONS}")
        return _broadcast(numbers(weights, "weights"), shape, "weights")

    def _add_array_edges(self, ids, shape, weights, ways, symmetric, rounds):
        numpy = arrays.numpy
        weights = self._weights(weights, shape)
        for offset, (there, back) in ways.items():
            here, over = [numpy.arange(ids.size).reshape(shape)] * 2
            for axis, (step, around) in enumerate(zip(offset, rounds)):
                over = numpy.roll(over, -step, axis=axis)
                kept = numpy.arange(shape[axis])
                if not around:
                    kept = kept[(kept + step >= 0) & (kept + step < shape[axis])]
                here, over = here.take(kept, axis=axis), over.take(kept, axis=axis)
            here, over = here.ravel(), over.ravel()
            here, over = here[here != over], over[here != over]
            self._add_edges_between(ids.ravel(), weights.ravel(), here, over, there, back,
                                    symmetric)

    def _add_edges_between(self, ids, weights, here, over, there, back, symmetric):
        """Edges of the places `here` and `over`."""
        numpy = arrays.numpy
        first, second = ids[here], ids[over]
        rows = numpy.zeros((first.size, 5), dtype={"q": "int64", "d": "float64"}[self._code])
        rows[:, 0] = first | second << 32
        rows[:, 2] = self._times(weights[here], there, first, second)
        rows[:, 3] = self._times(weights[here if symmetric else over], back, second, first)
        below = rows[:, 2] + rows[:, 3] < 0
        if below.any():
            place = int(numpy.argmax(below))
            raise Refused(20, words=f"the edge of nodes {first[place]} and {second[place]} has"
                          " capacities that are together below 0")
        self._twos.frombytes(rows.tobytes())

    def _times(self, weights, factor, first, second):
        """The capacities of edges: weights times what stands in the structure."""
        if factor == INFINITE:
            self._infinite += list(zip(first.tolist(), second.tolist()))
            return VALUE_LIMIT
        most = max((abs(int(weights.min())), abs(int(weights.max())))) if weights.size else 0
        if most * abs(factor) > VALUE_LIMIT:
            place = int(abs(weights).argmax())
            raise Refused(14, words=f"the edge of nodes {first[place]} and {second[place]} has"
                          f" the capacity {most * abs(factor):,}: a capacity is at most"
                          " 1,000,000,000")
        return weights * factor

    def _add_listed_edges(self, ids, shape, weights, ways, symmetric, rounds):
        nodes, caps = flattened(ids), _spread(weights, shape, "weights")
        steps = [math.prod(shape[axis + 1:]) for axis in range(len(shape))]
        for place, at in enumerate(itertools.product(*map(range, shape))):
            for offset, (there, back) in ways.items():
                over = [(one + step) % side if around else one + step
                        for one, step, side, around in zip(at, offset, shape, rounds)]
                if tuple(over) == at or not all(0 <= one < side for one, side in zip(over, shape)):
                    continue
                other = sum(one * step for one, step in zip(over, steps))
                returned = caps[place if symmetric else other]
                self.add_edge(nodes[place], nodes[other],
                              there if there == INFINITE else caps[place] * there,
                              back if back == INFINITE else returned * back)

    def mark_node(self, i: int) -> None:
        """Changes nothing, and says so: each cut is found from scratch."""
        self._node(i)
        warnings.warn(FROM_SCRATCH, stacklevel=2)

    def maxflow(self, reuse_trees: bool = False, return_scale: bool = False) -> Any:
        """The least capacity of a cut, found from scratch each time. `return_scale` asks for a Cut
        in its place."""
        if reuse_trees:
            warnings.warn(FROM_SCRATCH, stacklevel=2)
        flow, scale, exact = self._found()
        return Cut(flow, scale, exact) if return_scale else flow

    def _found(self):
        return self._least(self._ones, self._twos), 1.0, True

    def _least(self, ones, twos):
        """The least value of the terms, whose assignment is kept."""
        try:
            value, bits = least(self._nodes, 0, ones, twos, array.array("q"))
        except Refused as refused:
            raise self._in_words(refused) from None
        side = [*bits, 1, 0] if self._infinite else []  # -2 is the sink and -1 the source
        for first, second in self._infinite:
            if side[first] == 0 and side[second] == 1:
                raise OverflowError("each cut takes an edge without limit, or costs more than"
                                    " 1,000,000,000, which stands for no limit here")
        self._bits = bits
        return value

    def _in_words(self, refused):
        if refused.status == 2:
            return Refused(2, words=f"the graph has {self._nodes:,} nodes, and at most 2,097,152"
                           " are taken")
        if refused.status == 13:
            edges = len(self._ones) // 3 + len(self._twos) // 5
            return Refused(13, words=f"the graph has {edges:,} edges, and at most 8,388,608 are"
                           " taken")
        return refused

    def _cut(self):
        if self._bits is None:
            raise RuntimeError("the graph was not cut as it stands: call maxflow() first")
        return self._bits

    def get_segment(self, i: int) -> int:
        """0 where the node is on the source's side of the cut, and 1 on the sink's."""
        return self._cut()[self._node(i)]

    def get_grid_segments(self, nodeids: Any) -> Any:
        """Whether each node is on the sink's side, in the shape of the nodes."""
        bits = self._cut()
        if arrays.numpy is not None:
            return arrays.numpy.frombuffer(bits, dtype=arrays.numpy.uint8)[
                self._nodes_of(nodeids)] == 1
        flat = [bits[self._node(node)] == 1 for node in flattened(nodeids)]
        return nested(flat, shape_of(nodeids, "nodes"))

    def get_nx_graph(self) -> Any:
        """The graph for networkx: nodes by number, "s" and "t", capacities as `weight`."""
        try:
            import networkx
        except ImportError:
            raise ImportError("get_nx_graph: networkx is wanted: pip install networkx") from None
        capacities: Dict[Tuple[Any, Any], int] = {}
        for place in range(0, len(self._ones), 3):
            node, sink, source = self._ones[place:place + 3]
            for ends, cap in ((("s", int(node)), source), ((int(node), "t"), sink)):
                capacities[ends] = capacities.get(ends, 0) + cap
        for place in range(0, len(self._twos), 5):
            ends_of, _, there, back, _ = self._twos[place:place + 5]
            ends_of = int(ends_of)
            first, second = ends_of & 0xffffffff, ends_of >> 32
            for ends, cap in (((first, second), there), ((second, first), back)):
                capacities[ends] = capacities.get(ends, 0) + cap
        made = networkx.DiGraph()
        made.add_nodes_from([*range(self._nodes), "s", "t"])
        made.add_weighted_edges_from((*ends, cap) for ends, cap in capacities.items() if cap)
        return made


GraphInt = Graph


class GraphFloat(Graph):
    """Graph[float]: capacities with fractions, which are multiplied by one power of two and rounded
    to the nearest before the cut.

    The power is the least from 1 on that leaves no fraction, and else the greatest that keeps each
    capacity within 1,000,000,000. If an edge has no limit, all others together stay below that. The
    flow is the capacity of the cut in the caller's own numbers.
    """

    _code, _fractions = "d", True

    def _capacity(self, cap: Any, ends: Tuple[int, int], words: str) -> Any:
        if isinstance(cap, (str, bytes, bool)) or not hasattr(cap, "__float__"):
            raise TypeError(f"{words}: a number is wanted, and not {type(cap).__name__}")
        number = float(cap)
        if number != number or number == -INFINITE:
            raise ValueError(f"{words}: {number} is no capacity")
        if number == INFINITE:
            self._infinite.append(ends)
            return 0.0
        return number

    def _capacities(self, caps, ids, what, ends):
        caps = _broadcast(_floats(caps, what), ids.shape, what)
        infinite = arrays.numpy.isposinf(caps)
        self._infinite += [ends(int(node)) for node in ids[infinite]]
        return arrays.numpy.where(infinite, 0.0, caps)

    def _weights(self, weights, shape):
        weights = _broadcast(_floats(weights, "weights"), shape, "weights")
        if arrays.numpy.isposinf(weights).any():
            raise ValueError("weights: one has no limit: write it into the structure, or add that"
                             " edge by add_edge")
        return weights

    def _times(self, weights, factor, first, second):
        if factor == INFINITE:
            self._infinite += list(zip(first.tolist(), second.tolist()))
            return 0.0
        return weights * factor

    def _found(self):
        caps = self._finite()
        sizes = [abs(cap) for cap in caps] if arrays.numpy is None else abs(caps)
        if self._infinite:  # it is to cost more than each cut that takes no such edge
            scale, exact = _scale(caps, sum(sizes), VALUE_LIMIT // 2)
        else:
            scale, exact = _scale(caps, max(sizes, default=0), VALUE_LIMIT)
        ones, twos = _scaled(self._ones, 3, scale), _scaled(self._twos, 5, scale)
        for first, second in self._infinite:
            if second == -2:
                ones.extend((first, VALUE_LIMIT, 0))
            elif first == -1:
                ones.extend((second, 0, VALUE_LIMIT))
            else:
                twos.extend((first | second << 32, 0, VALUE_LIMIT, 0, 0))
        self._least(ones, twos)
        return self._flow(), scale, exact

    def _finite(self):
        """All capacities that have a limit."""
        if arrays.numpy is None:
            return [*self._ones[1::3], *self._ones[2::3], *self._twos[2::5], *self._twos[3::5]]
        ones = arrays.numpy.frombuffer(self._ones).reshape(-1, 3)[:, 1:]
        twos = arrays.numpy.frombuffer(self._twos).reshape(-1, 5)[:, 2:4]
        return arrays.numpy.concatenate([ones.ravel(), twos.ravel()])

    def _flow(self):
        """The capacity of the cut that was found, in the caller's numbers."""
        if arrays.numpy is not None:
            return self._flow_of_arrays()
        bits, flow = self._bits, 0.0
        for place in range(0, len(self._ones), 3):
            node, sink, source = self._ones[place:place + 3]
            flow += source if bits[int(node)] else sink
        for place in range(0, len(self._twos), 5):
            ends, _, there, back, _ = self._twos[place:place + 5]
            first, second = bits[int(ends) & 0xffffffff], bits[int(ends) >> 32]
            flow += there if second > first else back if first > second else 0.0
        return flow

    def _flow_of_arrays(self):
        numpy = arrays.numpy
        side = numpy.frombuffer(self._bits, dtype=numpy.uint8) == 1
        ones = numpy.frombuffer(self._ones).reshape(-1, 3)
        twos = numpy.frombuffer(self._twos).reshape(-1, 5)
        at, ends = side[ones[:, 0].astype(int)], twos[:, 0].astype(int)
        first, second = side[ends & 0xffffffff], side[ends >> 32]
        flow = numpy.where(at, ones[:, 2], ones[:, 1]).sum()
        flow += (twos[:, 2] * (~first & second) + twos[:, 3] * (first & ~second)).sum()
        return float(flow)


def _floats(values, what):
    """Numbers with fractions as an array of numpy; no number and -inf are refused."""
    numpy = arrays.numpy
    table = numpy.asarray(taken(values, what) if hasattr(values, "__iter__") else values)
    if table.dtype.kind not in "iuf":
        raise TypeError(f"{what}: numbers are wanted, and not {table.dtype}")
    table = table.astype(float)
    if numpy.isnan(table).any() or numpy.isneginf(table).any():
        raise ValueError(f"{what}: a capacity is no number, or has no limit below 0")
    return table


def _scale(caps, most, limit):
    """The power of two that capacities are multiplied by so that `most` comes to the limit at most,
    and whether that leaves no fraction."""
    if not most > 0:
        return 1.0, True
    power = min(math.floor(math.log2(limit / most)), 1000)
    if not _is_whole(caps, 2.0 ** power):
        return 2.0 ** power, False
    least = 0 if power >= 0 else power
    while not _is_whole(caps, 2.0 ** least):
        least += 1
    return 2.0 ** least, True


def _is_whole(caps, scale):
    if arrays.numpy is not None:
        return bool((caps * scale == arrays.numpy.rint(caps * scale)).all())
    return all(cap * scale == round(cap * scale) for cap in caps)


def _scaled(terms, size, scale):
    """Terms of whole numbers: what stands first in each names its nodes."""
    if arrays.numpy is not None:
        rows = arrays.numpy.frombuffer(terms).reshape(-1, size).copy()
        rows[:, 1:] = arrays.numpy.rint(rows[:, 1:] * scale)
        return array.array("q", rows.astype("int64").tobytes())
    return array.array("q", (int(number) if place % size == 0 else round(number * scale)
                             for place, number in enumerate(terms)))


def _rounds(periodic, count):
    """For each axis whether the grid's last nodes are beside its first ones."""
    rounds = [bool(one) for one in periodic] if hasattr(periodic, "__iter__") \
        else [bool(periodic)] * count
    if len(rounds) != count:
        raise ValueError(f"periodic: yes or no for each of {count} sides is wanted, and there are"
                         f" {len(rounds)}")
    return rounds


def _paired(ways, symmetric) -> Dict[Tuple[int, ...], Tuple[Any, Any]]:
    """Of each offset what stands there and at the opposite one: an edge, and its way back."""
    if symmetric:
        return {offset: (value, value) for offset, value in ways}
    values, paired = dict(ways), {}
    for offset, value in values.items():
        opposite = tuple(-one for one in offset)
        if opposite in paired:
            continue
        paired[offset] = (value, values.get(opposite, 0))
    return paired


def _broadcast(values, shape, what):
    try:
        return arrays.numpy.broadcast_to(values, shape)
    except ValueError:
        raise ValueError(f"{what}: one number, or numbers of shape {tuple(shape)} are wanted, and"
                         f" the shape is {values.shape}") from None


def _spread(values, shape, what) -> List[Any]:
    """One number for each node, in order, without numpy."""
    if not hasattr(values, "__len__"):
        return [values] * math.prod(shape)
    if shape_of(values, what) != shape:
        raise ValueError(f"{what}: one number, or numbers of shape {shape} are wanted, and the"
                         f" shape is {shape_of(values, what)}")
    return flattened(values)
