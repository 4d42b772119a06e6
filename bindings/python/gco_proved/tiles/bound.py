"""lower_bound_tiles: a number that no labelling's energy is below, tile by tile."""
import itertools
from typing import Any, Iterator, List, NamedTuple, Optional, Sequence, Tuple

from .. import arrays
from ..lower_bound import lower_bound
from . import costs
from .boxes import Box, Shape, offsets_of, sides_of, sides_of_box
from .engines import engine_of
from .problem import ends, lattice
from .progress import bound_bar
from .sweeps import smooth_of


class Share(NamedTuple):
    """A tile of a bound, and all that its worker reads. It shares its outermost sites with the
    tiles beside it, along each axis the first or the last."""

    box: Box
    shared: Tuple[Tuple[bool, bool], ...]
    data: Any
    weights: Any
    smooth: Any
    offsets: List[Shape]
    passes: int


def lower_bound_tiles(data: Any, smooth: Any, weights: Any = 1, *, shape: Any = None,
                      tile: Any = None, connect: Optional[int] = None, passes: int = 20,
                      executor: Any = None, progress: Any = None) -> int:
    """A number that no labelling's energy is below: the sum of the lower bounds of tiles that
    share one line of sites with each tile beside them. The costs of a site or pair that several
    tiles share are parted between them, and their parts add up to them.

    The arguments are those of label_tiles, and `passes` those of gco_proved.lower_bound. `progress`
    is called after each tile with how many are done, how many there are, and the sum so far. True
    stands for a bar.
    """
    step = bound_bar() if progress is True else progress
    engine = engine_of(executor)
    try:
        table = smooth_of(smooth)
        source, sides = costs.data_source(data, shape, len(table))
        offsets = offsets_of(len(sides), connect)
        weighed = costs.weight_source(weights, sides, offsets)
        boxes = list(shared_boxes(sides, sides_of(tile, sides, 0, offsets)))
        tasks = ((place, Share(box, shared, source.piece(box), weighed.piece(box), table, offsets,
                               passes)) for place, (box, shared) in enumerate(boxes))
        total = 0
        for done, (_, low) in enumerate(engine.answers(bound_of, tasks), 1):
            total += low
            if step:
                step(done, len(boxes), total)
        return total
    finally:
        engine.close()


def shared_boxes(shape: Shape, sides: Shape) -> Iterator[Tuple[Box, Tuple[Tuple[bool, bool], ...]]]:
    """The boxes of tiles that share one line, and along each axis whether the first line and the
    last are shared."""
    axes = []
    for side, most in zip(sides, shape):
        step = max(side - 1, 1)
        begins = range(0, max(most - 1, 1), step)
        axes.append([(slice(begin, min(begin + step + 1, most)),
                      (begin > 0, begin + step < most - 1)) for begin in begins])
    for parts in itertools.product(*axes):
        yield tuple(part for part, _ in parts), tuple(shared for _, shared in parts)


def bound_of(task: Share) -> int:
    """The lower bound of one tile with its part of what it shares."""
    numpy = arrays.numpy
    sides = sides_of_box(task.box)
    data = parted(costs.costs_read(task.data, task.box, sides, len(task.smooth)), task.shared, None)
    weights = costs.weights_read(task.weights, task.box, sides, task.offsets)
    pairs, inner = lattice(sides, tuple(task.offsets))
    table = numpy.zeros((*sides, len(task.offsets)), dtype=numpy.uint32)
    for place, (offset, weight) in enumerate(zip(task.offsets, weights)):
        first, _ = ends(sides, offset)
        whole = numpy.broadcast_to(weight, tuple(part.stop - part.start for part in first))
        table[(*first, place)] = parted(whole[..., None], task.shared, offset)[..., 0]
    pairs = pairs.copy()
    pairs[:, 2] = table.reshape(-1, len(task.offsets))[inner]
    return int(lower_bound(data, task.smooth, pairs, passes=task.passes).low)


def parted(numbers: Any, shared: Sequence[Tuple[bool, bool]], offset: Optional[Shape]) -> Any:
    """A tile's part of numbers (.., n): of what c tiles share, the tile of rank r has the number
    and r, divided by c and rounded down. A pair that leads along an axis is in one tile there."""
    numpy = arrays.numpy
    sharers = numpy.ones(numbers.shape[:-1], dtype=numpy.int64)
    rank = numpy.zeros(numbers.shape[:-1], dtype=numpy.int64)
    for axis, (first, last) in enumerate(shared):
        if offset is not None and offset[axis]:
            continue
        for is_shared, at, number in ((first, 0, 1), (last, -1, 0)):
            if is_shared:
                line = (*[slice(None)] * axis, at)
                rank[line] += number * sharers[line]
                sharers[line] *= 2
    return (numbers + rank[..., None]) // sharers[..., None]
