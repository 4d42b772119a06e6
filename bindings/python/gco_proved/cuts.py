"""The calls of gco-wrapper and pygco: labels of graphs and pictures by their names."""
import math
from typing import Any, Optional, Union

from . import arrays
from .arrays import shape_of
from .grids import grid_pairs
from .labelling import MOVES, label
from .scaling import Scaled, costs_of, whole_costs

Labels = Union[Any, Scaled]


def cycles_of(n_iter: int) -> Optional[int]:
    """As many cycles as are allowed, where -1 stands for all."""
    n_iter = arrays.whole(n_iter, -1, 2**32 - 1, "n_iter")
    return None if n_iter < 0 else n_iter


def solved(unary: Any, pairwise: Any, pairs: Any, weights: Any, n_iter: int, algorithm: str,
           init_labels: Any, factor: Optional[float], return_scale: bool) -> Labels:
    """Labels of a problem whose costs are scaled; `pairs` makes the pairs of whole weights."""
    if algorithm not in MOVES:
        raise ValueError(f"algorithm: expansion or swap is wanted, and not {algorithm!r}")
    costs = whole_costs(unary, pairwise, weights, factor)
    found = label(costs.unary, costs.pairwise, pairs(costs.weights), moves=algorithm,
                  cycles=cycles_of(n_iter), start=init_labels)
    labels = found.labels
    if found.settled:
        costs.look_at(labels)
    if not return_scale:
        return labels
    energy = found.energy
    if arrays.numpy is not None:
        energy = energy_of(unary, pairwise, pairs, weights, labels)
    return Scaled(labels, energy, costs.scale, costs.exact)


def energy_of(unary: Any, pairwise: Any, pairs: Any, weights: Any, labels: Any) -> Any:
    """The energy of labels in the caller's own costs."""
    numpy = arrays.numpy
    flat, costs = labels.reshape(-1).astype(int), unary.reshape(-1, unary.shape[-1])
    rows = numpy.asarray(pairs(None)).reshape(-1, 3).astype(int)
    paid = pairwise[flat[rows[:, 0]], flat[rows[:, 1]]]
    weight = rows[:, 2] if weights is None else weights.reshape(-1)
    total = costs[numpy.arange(len(flat)), flat].sum() + (paid * weight).sum()
    return total.item()


def label_by_scale(data: Any, smooth: Any, pairs: Any, label_costs: Any, **more: Any) -> Scaled:
    """gco.label of costs with fractions or below 0, and of inf in `data` for never."""
    numpy = arrays.numpy
    if numpy is None:
        raise ImportError("scale: costs with a fraction are scaled with numpy alone: pip install"
                          " numpy")
    unary, pairwise = costs_of(data, "data", never=True), costs_of(smooth, "smooth")
    count = math.isqrt(pairwise.size)
    unary = unary.reshape(-1, count) if unary.ndim == 1 and count else unary
    rows = arrays.taken(pairs, "pairs")
    rows = rows if arrays.is_array(rows) else [(*pair, 1)[:3] for pair in rows]
    table = costs_of(rows, "pairs")
    table = table.reshape(len(table), -1) if table.size else table.reshape(0, 3)
    if table.shape[1] not in (2, 3):
        raise ValueError(f"pairs: rows of two sites and a weight are wanted, and the shape is"
                         f" {table.shape}")
    if (table[:, :2] != numpy.rint(table[:, :2])).any():
        raise TypeError("pairs: a site is a whole number")
    ends = table[:, :2].astype(numpy.int64)
    weights = table[:, 2] if table.shape[1] == 3 else numpy.ones(len(table), dtype=int)
    own = None if label_costs is None else costs_of(label_costs, "label_costs")
    costs = whole_costs(unary, pairwise.reshape(count, count), weights, label_costs=own)
    found = label(costs.unary, costs.pairwise, numpy.column_stack([ends, costs.weights]),
                  label_costs=costs.label_costs, **more)
    if found.settled:
        costs.look_at(found.labels)
    energy = energy_of(unary, pairwise.reshape(count, count),
                       lambda _: numpy.column_stack([ends, ends[:, 0]]), weights, found.labels)
    if own is not None:
        energy += own[numpy.unique(found.labels)].sum().item()
    return Scaled(found.labels, energy, costs.scale, costs.exact)


def cut_general_graph(edges: Any, edge_weights: Any, unary_cost: Any, pairwise_cost: Any,
                      n_iter: int = -1, algorithm: str = "expansion", init_labels: Any = None,
                      down_weight_factor: Optional[float] = None,
                      return_scale: bool = False) -> Labels:
    """The labels of a graph: `edges` (n, 2), a weight for each, unary costs (sites, labels).

    Costs below 0 are shifted, and costs with a fraction are scaled (gco_proved.scaling says how).
    `return_scale` asks for a Scaled in place of the labels.
    """
    unary = costs_of(unary_cost, "unary_cost", never=True)
    pairwise = costs_of(pairwise_cost, "pairwise_cost")
    weights = costs_of(edge_weights, "edge_weights")
    edges = arrays.taken(edges, "edges")
    shape, count = shape_of(edges, "edges"), shape_of(weights, "edge_weights")
    if len(edges) and (len(shape) != 2 or shape[1] != 2):
        raise ValueError(f"edges: two sites an edge are wanted, of shape (n, 2), and not {shape}")
    if count != (len(edges),):
        raise ValueError(f"edge_weights: one for each of {len(edges):,} edges is wanted, and the"
                         f" shape is {count}")

    def pairs(whole):
        if arrays.numpy is None:
            return [(first, second, weight) for (first, second), weight in zip(edges, whole)]
        ends = arrays.numbers(edges, "edges").reshape(-1, 2)
        ones = arrays.numpy.ones(len(ends), dtype=int) if whole is None else whole
        return arrays.numpy.column_stack([ends, ones])

    return solved(unary, pairwise, pairs, weights, n_iter, algorithm, init_labels,
                  down_weight_factor, return_scale)


def _sides(unary, what="unary_cost"):
    shape = shape_of(unary, what)
    if len(shape) != 3:
        raise ValueError(f"{what}: costs of shape (height, width, labels) are wanted, and the shape"
                         f" is {shape}")
    return shape[:2]


def cut_grid_graph(unary_cost: Any, pairwise_cost: Any, cost_v: Any, cost_h: Any,
                   cost_dr: Any = None, cost_dl: Any = None, n_iter: int = -1,
                   algorithm: str = "expansion", down_weight_factor: Optional[float] = None,
                   return_scale: bool = False) -> Labels:
    """The labels, height x width, of a picture with a weight for each two neighbours.

    `cost_v` has shape (height - 1, width), `cost_h` (height, width - 1), and `cost_dr` and
    `cost_dl`, of the neighbours below at the right and at the left, (height - 1, width - 1).
    """
    unary = costs_of(unary_cost, "unary_cost", never=True)
    pairwise = costs_of(pairwise_cost, "pairwise_cost")
    height, width = _sides(unary)
    names = {"down": cost_v, "right": cost_h, "down_right": cost_dr, "down_left": cost_dl}
    said = {"down": "cost_v", "right": "cost_h", "down_right": "cost_dr", "down_left": "cost_dl"}
    wanted = {"down": (height - 1, width), "right": (height, width - 1)}
    given = {}
    for name, costs in names.items():
        if costs is None:
            continue
        given[name] = costs_of(costs, said[name])
        shape = wanted.get(name, (height - 1, width - 1))
        if shape_of(given[name], said[name]) != shape and 0 not in shape:
            raise ValueError(f"{said[name]}: weights of shape {shape} are wanted, and the shape is"
                             f" {shape_of(given[name], said[name])}")
    return _solved_grid(unary, pairwise, height, width, given, n_iter, algorithm,
                        down_weight_factor, return_scale)


def _solved_grid(unary, pairwise, height, width, given, n_iter, algorithm, factor, return_scale):
    """As cut_grid_graph, of weights by the names of grid_pairs."""
    numpy = arrays.numpy
    if numpy is None:
        return solved(unary, pairwise, lambda whole: grid_pairs(width, height, **given), None,
                      n_iter, algorithm, None, factor, return_scale)
    ids = numpy.arange(height * width).reshape(height, width)
    ends = {"right": (ids[:, :-1], ids[:, 1:]), "down": (ids[:-1], ids[1:]),
            "down_right": (ids[:-1, :-1], ids[1:, 1:]), "down_left": (ids[:-1, 1:], ids[1:, :-1])}
    rows = [numpy.column_stack([part.ravel() for part in ends[name]]) for name in given]
    edges = numpy.concatenate(rows)
    weights = numpy.concatenate([numpy.asarray(costs).ravel() for costs in given.values()])
    order = numpy.argsort(edges[:, 0], kind="stable")
    edges, weights = edges[order], weights[order]

    def pairs(whole):
        ones = numpy.ones(len(edges), dtype=int) if whole is None else whole
        return numpy.column_stack([edges, ones])

    return solved(unary, pairwise, pairs, weights, n_iter, algorithm, None, factor, return_scale)


def cut_grid_graph_simple(unary_cost: Any, pairwise_cost: Any, n_iter: int = -1, connect: int = 4,
                          algorithm: str = "expansion",
                          down_weight_factor: Optional[float] = None,
                          return_scale: bool = False) -> Labels:
    """The labels, height x width, of a picture whose neighbours all have the weight 1."""
    unary = costs_of(unary_cost, "unary_cost", never=True)
    pairwise = costs_of(pairwise_cost, "pairwise_cost")
    height, width = _sides(unary)
    if down_weight_factor is not None and arrays.numpy is not None:
        weights = arrays.numpy.ones(len(grid_pairs(width, height, connect=connect)), dtype=int)
    else:
        weights = None

    def pairs(whole):
        rows = grid_pairs(width, height, connect=connect)
        if arrays.numpy is None or whole is None:
            return rows
        rows[:, 2] = whole if len(whole) == len(rows) else whole[0]
        return rows

    return solved(unary, pairwise, pairs, weights, n_iter, algorithm, None, down_weight_factor,
                  return_scale)


def cut_simple(unary_cost: Any, pairwise_cost: Any, n_iter: int = 5,
               algorithm: str = "expansion") -> Any:
    """pygco's call: the labels, height x width, of a picture of four neighbours of weight 1."""
    return cut_grid_graph_simple(unary_cost, pairwise_cost, n_iter, 4, algorithm)


def cut_simple_vh(unary_cost: Any, pairwise_cost: Any, cost_v: Any, cost_h: Any, n_iter: int = 5,
                  algorithm: str = "expansion") -> Any:
    """pygco's call: `cost_v` and `cost_h` have a weight for each pixel, (height, width), of the
    pair with the pixel below it and at its right; the last row and column are not used."""
    unary = costs_of(unary_cost, "unary_cost", never=True)
    height, width = _sides(unary)
    cut = []
    for costs, what, rows, columns in ((cost_v, "cost_v", height - 1, width),
                                       (cost_h, "cost_h", height, width - 1)):
        costs = costs_of(costs, what)
        shape = shape_of(costs, what)
        if shape not in ((height, width), (rows, columns)):
            raise ValueError(f"{what}: weights of shape {(height, width)} are wanted, and the shape"
                             f" is {shape}")
        cut.append([row[:columns] for row in costs[:rows]] if arrays.numpy is None
                   else costs[:rows, :columns])
    return cut_grid_graph(unary, pairwise_cost, cut[0], cut[1], n_iter=n_iter, algorithm=algorithm)


def cut_from_graph(edges: Any, unary_cost: Any, pairwise_cost: Any, n_iter: int = 5,
                   algorithm: str = "expansion") -> Any:
    """pygco's call: the labels of a graph whose edges are (p, q) of weight 1, or (p, q, weight)."""
    edges = arrays.taken(edges, "edges")
    shape = shape_of(edges, "edges")
    if len(edges) and (len(shape) != 2 or shape[1] not in (2, 3)):
        raise ValueError(f"edges: (p, q) or (p, q, weight) is wanted, of shape (n, 2) or (n, 3),"
                         f" and not {shape}")
    if arrays.numpy is not None:
        edges = arrays.numbers(edges, "edges").reshape(len(edges), -1)
        ends, weights = edges[:, :2], edges[:, 2] if edges.shape[1:] == (3,) else [1] * len(edges)
    else:
        ends = [edge[:2] for edge in edges]
        weights = [edge[2] if len(edge) == 3 else 1 for edge in edges]
    return cut_general_graph(ends, weights, unary_cost, pairwise_cost, n_iter, algorithm)
