"""Neighbourhoods of a grid, as PyMaxflow writes them: arrays of odd sides around a node."""
import itertools
from typing import Any, List, Tuple

from . import arrays
from .arrays import shape_of, taken

INFINITE = float("inf")
SIDES = 8  # the most that a grid may have
Offset = Tuple[int, ...]


def _table(ndim: int, wanted) -> Any:
    """A table of sides 3 with a 1 at each offset that is wanted."""
    ndim = arrays.whole(ndim, 1, SIDES, "ndim")
    flat = [int(wanted(offset)) for offset in itertools.product((-1, 0, 1), repeat=ndim)]
    if arrays.numpy is not None:
        return arrays.numpy.array(flat).reshape((3,) * ndim)
    return nested(flat, (3,) * ndim)


def vonNeumann_structure(ndim: int = 1, directed: bool = False) -> Any:  # noqa: N802
    """The neighbours along each axis; `directed`: those that come later along it."""
    return _table(ndim, lambda at: sum(map(abs, at)) == 1 and (not directed or sum(at) == 1))


def moore_structure(ndim: int = 1, directed: bool = False) -> Any:
    """All neighbours, those across corners too; `directed`: those that come later in the array."""
    return _table(ndim, lambda at: any(at) and (not directed or at > (0,) * ndim))


def nested(flat: Any, shape: Tuple[int, ...]) -> Any:
    """A flat list as lists in lists of these sides."""
    if len(shape) < 2:
        return list(flat)
    step = len(flat) // shape[0] if shape[0] else 0
    return [nested(flat[row * step:(row + 1) * step], shape[1:]) for row in range(shape[0])]


def flattened(values: Any) -> List[Any]:
    """Lists in lists as one list."""
    if hasattr(values, "tolist") and not hasattr(values, "__len__"):
        return [values]
    if not hasattr(values, "__len__"):
        return [values]
    return [number for row in values for number in flattened(row)]


def sides_of(shape: Tuple[int, ...]) -> Tuple[int, ...]:
    """The sides of a grid, one to eight of them."""
    if not 1 <= len(shape) <= SIDES:
        raise ValueError(f"a grid has one to {SIDES} sides, and not {len(shape)}")
    return shape


def offsets_of(structure: Any, ndim: int, fractions: bool) -> List[Tuple[Offset, Any]]:
    """Each offset at which the structure is not 0, and what stands there."""
    structure = taken(structure, "structure")
    shape = shape_of(structure, "structure")
    if len(shape) != ndim or any(side % 2 == 0 for side in shape):
        raise ValueError(f"structure: {ndim} odd sides are wanted, as many as the grid has, and the"
                         f" shape is {shape}")
    flat = flattened(structure.tolist() if hasattr(structure, "tolist") else structure)
    found = []
    for place, at in enumerate(itertools.product(*map(range, shape))):
        offset = tuple(one - side // 2 for one, side in zip(at, shape))
        if flat[place] and any(offset):
            found.append((offset, _value(flat[place], offset, fractions)))
    return found


def _value(value, offset, fractions):
    if fractions and not isinstance(value, bool) and value == value and value != -INFINITE:
        return float(value)
    if value == INFINITE or (not isinstance(value, bool) and int(value) == value):
        return INFINITE if value == INFINITE else int(value)
    raise TypeError(f"structure: {value} stands at {offset}: whole numbers are wanted (or inf):"
                    " scale and round them first")
