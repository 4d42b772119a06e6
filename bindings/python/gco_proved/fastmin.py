"""Energies of grids under the names of PyMaxflow's fastmin."""
from typing import Any, Optional

from . import arrays
from .cuts import energy_of, solved
from .lower_bound import PASSES, LowerBound, bound_in_units
from .scaling import costs_of


def _pairs_of_grid(shape):
    """The pairs of neighbours along each axis."""
    numpy = arrays.numpy
    count = int(numpy.prod(shape))
    ids, rows = numpy.arange(count).reshape(shape), []
    for axis, side in enumerate(shape):
        here = ids.take(range(side - 1), axis=axis) if side > 1 else ids[:0].reshape(-1)
        over = ids.take(range(1, side), axis=axis) if side > 1 else here
        rows.append(numpy.column_stack([here.ravel(), over.ravel(),
                                        numpy.ones(here.size, dtype=int)]))
    together = numpy.concatenate(rows)
    return together[numpy.argsort(together[:, 0], kind="stable")]


def _tables(unary, binary, labels, needed=False):
    """The costs, and the labels to start from, after a look at the shapes."""
    if arrays.numpy is None:
        raise ImportError("fastmin: numpy is wanted: pip install numpy")
    unary, binary = costs_of(unary, "unary", never=True), costs_of(binary, "binary")
    if unary.ndim < 2:
        raise ValueError("unary: costs of shape (.., labels) are wanted, and the shape is"
                         f" {unary.shape}")
    count = unary.shape[-1]
    if binary.shape != (count, count):
        raise ValueError(f"binary: one cost for each two of {count} labels is wanted, of shape"
                         f" {(count, count)}, and the shape is {binary.shape}")
    if labels is None and not needed:
        return unary, binary, unary.argmin(axis=-1)
    labels = arrays.numbers(labels, "labels")
    if labels.shape != unary.shape[:-1]:
        raise ValueError(f"labels: one for each place is wanted, of shape {unary.shape[:-1]}, and"
                         f" the shape is {labels.shape}")
    if labels.size and not 0 <= labels.min() <= labels.max() < count:
        raise ValueError(f"labels: the labels are 0 to {count - 1}, and there are {labels.min()} to"
                         f" {labels.max()}")
    return unary, binary, labels


def _minimised(unary, binary, max_cycles, labels, algorithm, return_scale):
    unary, binary, labels = _tables(unary, binary, labels)

    def pairs(whole):
        rows = _pairs_of_grid(unary.shape[:-1])
        if whole is not None:
            rows[:, 2] = whole[0]
        return rows

    answer = solved(unary, binary, pairs, None, -1 if max_cycles is None else max_cycles, algorithm,
                    labels, None, return_scale)
    if return_scale:
        return answer._replace(labels=answer.labels.astype(int))
    return answer.astype(int)


def aexpansion_grid(unary: Any, binary: Any, max_cycles: Optional[int] = None, labels: Any = None,
                    return_scale: bool = False) -> Any:
    """Labels of a grid by expansions, in the grid's shape: unary costs (.., labels), a pairwise
    cost (labels, labels) for each two neighbours along an axis. The start is each place's cheapest
    label, if no `labels` are given. Costs are shifted and scaled as gco_proved.scaling says."""
    return _minimised(unary, binary, max_cycles, labels, "expansion", return_scale)


def abswap_grid(unary: Any, binary: Any, max_cycles: Optional[int] = None, labels: Any = None,
                return_scale: bool = False) -> Any:
    """As aexpansion_grid, by swaps of two labels."""
    return _minimised(unary, binary, max_cycles, labels, "swap", return_scale)


def lower_bound_grid(unary: Any, binary: Any, passes: int = PASSES) -> LowerBound:
    """A number that no labelling's energy is below, in the caller's own costs and rounded down, and
    labels in the grid's shape to start from: see gco_proved.lower_bound."""
    unary, binary, _ = _tables(unary, binary, None)
    rows = _pairs_of_grid(unary.shape[:-1])
    return bound_in_units(unary, binary, rows[:, :2], rows[:, 2], passes)


def energy_of_grid_labeling(unary: Any, binary: Any, labels: Any) -> Any:
    """The energy of labels of a grid, in the caller's own costs."""
    unary, binary, labels = _tables(unary, binary, labels, needed=True)
    return energy_of(unary, binary, lambda _: _pairs_of_grid(unary.shape[:-1]), None, labels)
