"""Costs of a caller as whole numbers from 0 on: those below 0 are shifted, and those with a
fraction are scaled by one power of two.

The rule, where a cost has a fraction: unary costs are multiplied by `scale` and rounded to the
nearest; pairwise costs and weights each by a power of two, whose product is `scale`, the former
rounded up, which keeps a metric one, and the latter to the nearest. The powers are the least that
leave no fraction, where there are such within gco's limits, and else the greatest within them.
Where each pair has a table, that takes its weight in first, and is rounded up with it.
"""
import math
from fractions import Fraction
from typing import Any, NamedTuple, Optional, Tuple

from . import arrays
from ._library import DATA_LIMIT, PAIR_COST_LIMIT, SMOOTH_LIMIT, WEIGHT_LIMIT
from .arrays import run_of, shape_of, taken

# the greatest pairwise cost and weight: of one table for all pairs, and of a table for each
Limits = Tuple[int, int]
ONE_TABLE: Limits = (SMOOTH_LIMIT, WEIGHT_LIMIT)
EACH_TABLE: Limits = (PAIR_COST_LIMIT, 1)


class Scaled(NamedTuple):
    """Labels, the energy of the caller's own costs there, and by what those were multiplied.

    `exact` says that the whole numbers are the costs times `scale`, with nothing rounded.
    """

    labels: Any
    energy: Any
    scale: float
    exact: bool


class Costs(NamedTuple):
    """Whole costs from 0 on, and how they come from the caller's."""

    unary: Any
    pairwise: Any
    weights: Any
    scale: float
    exact: bool
    label_costs: Any = None
    never: Any = None  # where a unary cost has no limit

    def look_at(self, labels: Any) -> None:
        """Refuses labels of a settled run of which one is never to be taken."""
        if self.never is None:
            return
        flat = labels.reshape(-1).astype(int)
        taken_anyway = self.never.reshape(len(flat), -1)[arrays.numpy.arange(len(flat)), flat]
        if taken_anyway.any():
            site = int(taken_anyway.argmax())
            raise OverflowError(f"label {flat[site]} has no limit at site {site} and is taken there"
                                " all the same: what it saves comes to more than 10,000,000, which"
                                " stands for no limit")


def costs_of(values: Any, what: str, never: bool = False) -> Any:
    """Costs as an array of numpy, whole or with fractions; without numpy as they are given. If
    `never` is given, a cost without limit is a label that is never taken."""
    values = taken(values, what)
    if arrays.numpy is None:
        run_of(values, "q", what)
        return values
    shape_of(values, what)
    table = arrays.numpy.asarray(values)
    if table.size == 0 and table.dtype.kind == "f" and not arrays.is_array(values):
        table = table.astype(int)
    if table.dtype.kind == "f":
        if arrays.numpy.isnan(table).any():
            raise ValueError(f"{what}: a cost is no number (nan)")
        if arrays.numpy.isneginf(table).any() or not (never or arrays.numpy.isfinite(table).all()):
            raise ValueError(f"{what}: a cost has no limit: give a great one")
        return table.astype(float)
    if table.dtype.kind == "O":  # numbers that numpy has no kind for: too large ones, or none
        run_of(values, "q", what)
        raise TypeError(f"{what}: whole numbers are wanted")
    return run_of(table, "q", what).owner


def whole_costs(unary: Any, pairwise: Any, weights: Any,
                down_weight_factor: Optional[float] = None, label_costs: Any = None,
                limits: Limits = ONE_TABLE) -> Costs:
    """The whole costs of a problem by the rule above; `weights` may be None, for 1 everywhere, and
    `label_costs`, which are scaled as unary costs are, for none. Beside EACH_TABLE `pairwise` has
    shape (pairs, labels, labels), as weighted_tables makes it, and each weight is 1."""
    if arrays.numpy is None:
        if down_weight_factor is not None:
            raise TypeError("down_weight_factor: costs with a fraction are scaled with numpy alone:"
                            " pip install numpy")
        return _without_numpy(unary, pairwise, weights)
    numpy = arrays.numpy
    weights = numpy.ones(1, dtype=int) if weights is None else weights
    if down_weight_factor is not None:
        if not down_weight_factor > 0:
            raise ValueError(f"down_weight_factor: {down_weight_factor} is not above 0")
        unary, weights = unary / down_weight_factor, weights / down_weight_factor
    unary, never = _limited(unary)
    unary, pairwise = _shifted(unary, pairwise)
    own = numpy.zeros(0, dtype=int) if label_costs is None else label_costs
    if all(table.dtype.kind != "f" for table in (unary, pairwise, weights, own)):
        pairwise, weights = _balanced(pairwise, weights, limits)
        return Costs(unary, pairwise, weights, 1.0, True, label_costs)
    for table, what in ((weights, "weights: {} is below 0: a weight is from 0 on"),
                        (own, "label_costs: {} is below 0: a label cost is from 0 on")):
        if table.size and table.min() < 0:
            raise ValueError(what.format(table.min()))
    by_site = numpy.concatenate([unary.ravel(), own.ravel()])
    by_pairwise, by_weight = _powers(by_site, pairwise, weights, never, limits)
    scale = by_pairwise * by_weight
    whole = (numpy.rint(unary * scale), numpy.ceil(pairwise * by_pairwise - 1e-6),
             numpy.rint(weights * by_weight), numpy.rint(own * scale))
    exact = bool((whole[0] == unary * scale).all() and (whole[1] == pairwise * by_pairwise).all()
                 and (whole[2] == weights * by_weight).all() and (whole[3] == own * scale).all())
    data, smooth, weighed, labels = (table.astype(numpy.int64) for table in whole)
    if never is not None:
        data[never] = DATA_LIMIT
    return Costs(data, smooth, weighed, scale / (down_weight_factor or 1), exact,
                 None if label_costs is None else labels, never)


def _limited(unary):
    """The costs with the least of their site in the place of each that has no limit; and where
    those are, if there are some."""
    numpy = arrays.numpy
    if unary.dtype.kind != "f" or not numpy.isposinf(unary).any():
        return unary, None
    never = numpy.isposinf(unary)
    none_left = never.all(axis=-1).ravel()
    if none_left.any():
        raise ValueError(f"unary: each label has no limit at site {int(none_left.argmax())}")
    return numpy.where(never, unary.min(axis=-1, keepdims=True), unary), never


def costs_below(unary: Any, pairwise: Any, weights: Any,
                limits: Limits = ONE_TABLE) -> Tuple[Costs, Fraction]:
    """Whole costs by the rule above, but each rounded down, and the energy that is to be added.

    An energy of the caller's is not below that of the whole costs by `scale`, and the shift.
    """
    numpy = arrays.numpy
    if weights.size and weights.min() < 0:
        raise ValueError(f"weights: {weights.min()} is below 0: a weight is from 0 on")
    unary, never = _limited(unary)
    least = numpy.minimum(unary.min(axis=-1, keepdims=True), 0) if unary.size else unary[..., :1]
    lowest = min(pairwise.min(), 0) if pairwise.size else 0
    shift = -_sum_up(-least) + Fraction(lowest.item() if lowest else 0) * _sum_up(weights)
    unary, pairwise = _less(unary, least), _less(pairwise, lowest)
    if all(table.dtype.kind != "f" for table in (unary, pairwise, weights)):
        return Costs(unary, *_balanced(pairwise, weights, limits), 1.0, True), shift
    by_pairwise, by_weight = _powers(unary, pairwise, weights, never, limits)
    whole = (numpy.floor(unary * (by_pairwise * by_weight)), numpy.floor(pairwise * by_pairwise),
             numpy.floor(weights * by_weight))
    data, smooth, weighed = (table.astype(numpy.int64) for table in whole)
    if never is not None:
        data[never] = DATA_LIMIT
    return Costs(data, smooth, weighed, by_pairwise * by_weight, False), shift


def weighted_tables(tables: Any, weights: Any, down: bool = False) -> Any:
    """Tables of pairs, of shape (pairs, labels, labels), each times the weight of its pair. Of
    fractions a product that cannot be exact is rounded to the nearest, or `down`."""
    numpy = arrays.numpy
    weights = weights.reshape(-1, 1, 1)
    product = tables * weights
    if product.dtype.kind != "f" or not down:
        return product
    with numpy.errstate(over="ignore", invalid="ignore"):
        (high, low), (above, below) = _halves(tables), _halves(weights)
        lost = high * above - product + high * below + low * above + low * below
    # what the product is short of; where that overflows, it is rounded down all the same
    return numpy.where(lost >= 0, product, numpy.nextafter(product, -numpy.inf))


def _halves(table):
    """Each number as the sum of two that have half the digits, whose products are exact (Veltkamp,
    Dekker 1971)."""
    spread = table * (2.0 ** 27 + 1)
    high = spread - (spread - table)
    return high, table - high


def _less(table, least):
    """The table less what is below 0 in it; of fractions rounded down, where it cannot be exact."""
    numpy = arrays.numpy
    taken_off = table - least
    if taken_off.dtype.kind != "f":
        return taken_off
    part = taken_off - table
    lost = (table - (taken_off - part)) + (-least - part)  # what the difference is short of
    return numpy.where(lost < 0, numpy.nextafter(taken_off, -numpy.inf), taken_off)


def _sum_up(numbers):
    """The sum of numbers from 0 on: of fractions not less than it."""
    if numbers.dtype.kind != "f":
        return Fraction(int(numbers.sum()))
    total = math.fsum(numbers.ravel().tolist())
    return Fraction(total) * (1 if total == 0 else 1 + Fraction(1, 2**52))


def _shifted(unary, pairwise):
    """Costs from 0 on: of each site's and of all pairwise ones the least is taken away, where it is
    below 0. That changes each energy by the same amount."""
    numpy = arrays.numpy
    if unary.size and unary.min() < 0:
        unary = unary - numpy.minimum(unary.min(axis=-1, keepdims=True), 0)
    if pairwise.size and pairwise.min() < 0:
        pairwise = pairwise - pairwise.min()
    return unary, pairwise


def _balanced(pairwise, weights, limits):
    """Whole pairwise costs or weights beyond their limit, within both, where a common factor of the
    ones goes to the others; else as they are, and the call refuses them."""
    if not pairwise.size or not weights.size or weights.min() < 0:
        return pairwise, weights
    greatest, heaviest, (most, most_weight) = int(pairwise.max()), int(weights.max()), limits
    factor = _factor(pairwise, greatest, most, heaviest, most_weight)
    if factor > 1:
        return pairwise // factor, weights * factor
    factor = _factor(weights, heaviest, most_weight, greatest, most)
    return pairwise * factor, weights // factor


def _factor(numbers, greatest, limit, other, other_limit):
    """The least common factor that brings the numbers within their limit and leaves the others
    within theirs; else 1."""
    if greatest <= limit:
        return 1
    common = int(arrays.numpy.gcd.reduce(numbers.ravel()))
    for factor in range(-(-greatest // limit), other_limit // max(other, 1) + 1):
        if common % factor == 0:
            return factor
    return 1


def _most(table, limit):
    """The greatest power of two that keeps the numbers within the limit."""
    greatest = float(table.max()) if table.size else 0.0
    return 2.0 ** math.floor(math.log2(limit / greatest)) if greatest > 0 else 2.0 ** 60


def _is_whole(table, power):
    return bool((table * power == arrays.numpy.rint(table * power)).all())


def _least_exact(table, most):
    """The least power of two from 1 on that leaves no fraction, or None."""
    if most < 1 or not _is_whole(table, most):
        return None
    least, great = 0, int(math.log2(most))
    while least < great:  # a power that leaves no fraction has none above it that does
        middle = (least + great) // 2
        if _is_whole(table, 2.0 ** middle):
            great = middle
        else:
            least = middle + 1
    return 2.0 ** great


def _powers(unary, pairwise, weights, never, limits):
    """The powers of two of pairwise costs and of weights. If some label is `never` to be taken, the
    unary costs with fractions come to a sixty-fourth of what stands for no limit."""
    limit = DATA_LIMIT if never is None or _is_whole(unary, 1.0) else DATA_LIMIT // 64
    most = _most(unary, limit), _most(pairwise, limits[0]), _most(weights, limits[1])
    exact = [_least_exact(table, power)
             for table, power in zip((unary, pairwise, weights), most)]
    scale = min(most[0], most[1] * most[2])
    if None not in exact and max(exact[0], exact[1] * exact[2]) <= scale:
        scale = max(exact[0], exact[1] * exact[2])
    if exact[2] is not None:
        by_weight = exact[2]
    elif exact[1] is not None:
        by_weight = scale / exact[1]
    else:
        by_weight = 2.0 ** round(math.log2(scale) * 3 / 7)
    by_weight = min(max(by_weight, scale / most[1]), most[2])
    return scale / by_weight, by_weight


def _without_numpy(unary, pairwise, weights):
    """Whole costs in lists, shifted."""
    flat = run_of(pairwise, "q", "pairwise").owner
    least = min(min(flat, default=0), 0)
    count = math.isqrt(len(flat))
    rows = run_of(unary, "q", "unary").owner
    data = rows
    if count and min(rows, default=0) < 0:
        data = rows[:]
        for site in range(len(rows) // count):
            costs = rows[site * count:(site + 1) * count]
            lowest = min(min(costs), 0)
            for place, cost in enumerate(costs):
                data[site * count + place] = cost - lowest
    smooth = [cost - least for cost in flat]
    return Costs(data, smooth, weights, 1.0, True)
