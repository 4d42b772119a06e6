"""The costs of pictures, as docs/IMAGES.md defines them, in arrays of numpy."""
from typing import Any, Optional

from .. import labelling
from ..grids import grid_pairs
from .words import numpy_and_pillow

SEED_COST = 10000000


def smooth_costs(name: str, count: int, trunc: int) -> Any:
    """The smooth costs of so many labels, by name."""
    if name == "potts":
        return labelling.potts(count)
    return {"linear": labelling.linear, "quadratic": labelling.quadratic}[name](count, trunc)


def quantised(samples: Any, maxval: int, levels: int) -> Any:
    """Samples from 0 to maxval as levels from 0 on, each to the nearest, a half upwards."""
    return (samples * (levels - 1) * 2 + maxval) // (2 * maxval)


def restore_costs(samples: Any, levels: int, cap: Optional[int]) -> Any:
    """|I - l|, or the cap where that is less."""
    numpy, _ = numpy_and_pillow()
    every = numpy.arange(levels, dtype=numpy.int32)
    table = abs(every[:, None] - every)
    if cap is not None:
        table = numpy.minimum(table, cap)
    return table[samples]


def stereo_costs(left: Any, right: Any, count: int, cap: int) -> Any:
    """The lesser of |L(x) - R(x - l)| and the cap; the cap where x < l."""
    numpy, _ = numpy_and_pillow()
    height, width = left.shape
    data = numpy.full((height, width, count), cap, dtype=numpy.int32)
    for label in range(min(count, width)):
        apart = abs(left[:, label:] - right[:, :width - label])
        data[:, label:, label] = numpy.minimum(apart, cap)
    return data


def segment_costs(samples: Any, seeds: Any, low: int, high: int) -> Any:
    """|I - low| and |I - high|, and of a seed nothing and the greatest cost."""
    numpy, _ = numpy_and_pillow()
    data = numpy.stack([abs(samples - low), abs(samples - high)], axis=-1)
    data[seeds == 1] = (0, SEED_COST)
    data[seeds == 2] = (SEED_COST, 0)
    return data


def even_pairs(shape: Any, weight: int, neighbours: int) -> Any:
    """Pairs of one weight."""
    return grid_pairs(shape[1], shape[0], weight, neighbours)


def weighed_pairs(shape: Any, tables: Any) -> Any:
    """Pairs of the weights of each offset: right, down, and where there are four down across."""
    height, width = shape
    names = ("right", "down", "down_right", "down_left")
    return grid_pairs(width, height, **dict(zip(names, tables)))


def edge_pairs(samples: Any, strong: int, weak: int, edge: int, neighbours: int) -> Any:
    """Pairs of the strong weight where two samples differ by at most `edge`, else of the weak."""
    numpy, _ = numpy_and_pillow()
    pairs = even_pairs(samples.shape, 1, neighbours)
    flat = samples.reshape(-1)
    near = abs(flat[pairs[:, 0]] - flat[pairs[:, 1]]) <= edge
    pairs[:, 2] = numpy.where(near, strong, weak)
    return pairs
