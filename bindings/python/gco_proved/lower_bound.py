"""lower_bound: a number that no labelling's energy is below, and labels to start a run from.

Messages between the sites move costs from one to the other and change no energy. Whatever they
are, the cheapest labels then cost, all together, no more than any labelling: weak duality
(Wainwright, Jaakkola, Willsky 2005; Kolmogorov 2006).
"""
import ctypes
import math
from fractions import Fraction
from typing import Any, NamedTuple, Optional

from . import _library, arrays
from ._library import ALL_CYCLES, ANY_SIZE
from .arrays import whole
from .labelling import Found, Problem, label
from .scaling import ONE_TABLE, Limits, costs_below

PASSES = 50


class LowerBound(NamedTuple):
    """`low` is not above the energy of any labelling. `labels` are what the messages tell: a run
    may start from them, and nothing is promised of their energy."""

    low: Any
    labels: Any


def lower_bound(data: Any, smooth: Any, pairs: Any, *, table_of: Any = None,
                label_costs: Any = None, passes: int = PASSES,
                most_bytes: Optional[int] = None) -> LowerBound:
    """A bound from below of the energy of every labelling of the problem.

    The arrays are those of `label`; the smooth costs need be no metric. There are `passes` passes
    over the sites, or fewer if two of them raise the bound by less than a part in 10,000. Nothing
    is promised of how near the bound comes. It takes 8 bytes a site and label and 4 a pair and
    label; if these are more than `most_bytes`, it raises Refused, of status 9, at once. It raises
    what `label` raises of the arrays.
    """
    problem = Problem(data, smooth, pairs, label_costs, None, table_of=table_of)
    return bound_of(problem, passes, most_bytes)


def bound_of(problem: Problem, passes: int, most_bytes: Optional[int] = None) -> LowerBound:
    """The bound of a problem of 64 bits, whose labels become those that the messages tell."""
    allowed = ANY_SIZE if most_bytes is None else whole(most_bytes, 0, ANY_SIZE, "most_bytes")
    told = _library.Bound()
    status = problem.call_of("gco_lower_bound")(
        problem.label_count, *problem.slices, whole(passes, 0, ALL_CYCLES, "passes"), allowed,
        problem.at, problem.sites, ctypes.addressof(told))
    if status:
        problem.told.place = told.place
        raise problem.refused(status)
    labels = problem.labels
    if arrays.is_array(labels):
        labels = labels.reshape(problem.shape)
    return LowerBound(told.low, labels)


def share_above(energy: int, low: int) -> float:
    """By what share an energy is above a bound, rounded up; inf where the bound alone is 0."""
    if energy == low:
        return 0.0
    return math.inf if low == 0 else rounded_up(Fraction(energy - low, low))


def rounded_up(number: Fraction) -> float:
    """A float that is not below a number, the nearest to it or the next."""
    near = float(number)
    return near if near >= number else near + abs(near) * 2.0**-52


def rounded_down(number: Fraction) -> float:
    """A float that is not above a number, the nearest to it or the next."""
    return -rounded_up(-number)


def gap_of(found: Found, passes: int) -> float:
    """`Found.gap`."""
    if found.given is None:
        raise ValueError("gap: the arrays of the problem are not kept here: call lower_bound")
    data, smooth, pairs, costs, table_of = found.given
    same = label(data, smooth, pairs, table_of=table_of, label_costs=costs, cycles=0,
                 start=found.labels)
    if same.energy != found.energy:
        raise ValueError("gap: the arrays of the problem were changed since the run")
    low = lower_bound(data, smooth, pairs, table_of=table_of, label_costs=costs,
                      passes=passes).low
    return share_above(found.energy, low)


def bound_in_units(unary: Any, pairwise: Any, ends: Any, weights: Any, passes: int,
                   limits: Limits = ONE_TABLE) -> LowerBound:
    """The bound of a problem of numpy arrays whose costs are shifted and scaled, in the caller's
    units and rounded down: whole where all costs are whole. `limits` are those of whole_costs.

    The whole costs are rounded down, each of them, so no labelling gets dearer by it.
    """
    costs, shift = costs_below(unary, pairwise, weights, limits)
    pairs = arrays.numpy.column_stack([ends, costs.weights]).reshape(-1, 3)
    found = lower_bound(costs.unary, costs.pairwise, pairs, passes=passes)
    low = Fraction(found.low) / Fraction(costs.scale) + shift
    if all(table.dtype.kind != "f" for table in (unary, pairwise, weights)):
        return found._replace(low=int(low))
    return found._replace(low=rounded_down(low))
