"""Boxes of a grid: the tiles of a sweep, which of them share no border, and how each is grown."""
import itertools
import operator
from typing import Any, Dict, Iterator, List, Optional, Sequence, Tuple

from .._library import PAIR_LIMIT, SITE_LIMIT

Shape = Tuple[int, ...]
Box = Tuple[slice, ...]
USUAL = {2: (256, 256), 3: (64, 64, 64)}
OFFSETS: Dict[Tuple[int, int], List[Shape]] = {
    (2, 4): [(0, 1), (1, 0)],
    (2, 8): [(0, 1), (1, 0), (1, 1), (1, -1)],
    (3, 6): [(0, 0, 1), (0, 1, 0), (1, 0, 0)],
    (3, 26): [at for at in itertools.product((-1, 0, 1), repeat=3) if at > (0, 0, 0)],
}


def offsets_of(dimensions: int, connect: Optional[int]) -> List[Shape]:
    """Where the second site of a pair lies from the first: 4 or 8 neighbours, or 6 or 26."""
    wanted = 2 * dimensions if connect is None else connect
    if (dimensions, wanted) not in OFFSETS:
        each = "4 or 8" if dimensions == 2 else "6 or 26"
        raise ValueError(f"connect: {each} is wanted of {dimensions} axes, and not {connect!r}")
    return OFFSETS[dimensions, wanted]


def sides_of(tile: Any, shape: Shape, overlap: int, offsets: Sequence[Shape]) -> Shape:
    """The sides of a tile, each at most that of the grid; a ValueError for one that is too large.
    """
    sides = USUAL[len(shape)] if tile is None else _numbers(tile, len(shape))
    if len(sides) != len(shape) or min(sides) < 1:
        raise ValueError(f"tile: {len(shape)} sides of at least 1 are wanted, and not {tile!r}")
    sides = tuple(min(one, most) for one, most in zip(sides, shape))
    if not hasattr(overlap, "__index__") or overlap < 0:
        raise ValueError(f"overlap: a whole number from 0 on is wanted, and not {overlap!r}")
    if any(2 * overlap >= side for side, most in zip(sides, shape) if side < most):
        raise ValueError(f"overlap: {overlap} is half of a tile's side or more: the sides are"
                         f" {sides}")
    count = 1
    for side, most in zip(sides, shape):
        count *= min(side + 2 * overlap, most)
    most_sites = min(SITE_LIMIT, PAIR_LIMIT // len(offsets))
    if count > most_sites:
        raise ValueError(f"tile: one of {' x '.join(map(str, sides))} with an overlap of {overlap}"
                         f" has {count:,} sites, and at most {most_sites:,} are taken")
    return sides


def _numbers(value: Any, count: int) -> Shape:
    """So many times a whole number, or those of a sequence; none where there are others."""
    try:
        if hasattr(value, "__iter__"):
            return tuple(map(operator.index, value))
        return (operator.index(value),) * count
    except TypeError:
        return ()


def shifts_of(sides: Shape, shape: Shape) -> List[Shape]:
    """By how much the tiles of each sweep are shifted, in turn: not at all, and by half a side."""
    half = tuple(side // 2 if side < most else 0 for side, most in zip(sides, shape))
    return [(0,) * len(shape), half] if any(half) else [(0,) * len(shape)]


class Sweep:
    """The tiles of the sweeps of one shift. A tile has a place: its number along each axis. Where
    there is a shift, the tiles of number 0 end there."""

    def __init__(self, shape: Shape, sides: Shape, shift: Shape, overlap: int, mixed: bool) -> None:
        self.shape, self.sides, self.shift, self.overlap = shape, sides, shift, overlap
        self.mixed = mixed or overlap > 0
        self.counts = tuple((most + move + side - 1) // side if not move
                            else (most - move + side - 1) // side + 1
                            for side, most, move in zip(sides, shape, shift))

    def _range(self, axis: int, place: int) -> Tuple[int, int]:
        """Where a tile's own sites begin and end along an axis."""
        begin = place * self.sides[axis]
        if self.shift[axis]:
            begin += self.shift[axis] - self.sides[axis]
        return max(begin, 0), min(begin + self.sides[axis], self.shape[axis])

    def box(self, place: Shape) -> Box:
        """The sites that the run of that place's tile changes: its own, and the overlap."""
        ranges = [self._range(axis, at) for axis, at in enumerate(place)]
        return tuple(slice(max(begin - self.overlap, 0), min(end + self.overlap, most))
                     for (begin, end), most in zip(ranges, self.shape))

    def places(self) -> Iterator[Shape]:
        """The places of all tiles."""
        return itertools.product(*map(range, self.counts))

    def colour(self, place: Shape) -> Shape:
        """Tiles of one colour share no pair, and no site: two colours, as on a checkerboard, or two
        for each axis where pairs lead across corners or tiles overlap."""
        if self.mixed:
            return tuple(at % 2 for at in place)
        return (sum(place) % 2,)

    def touched(self, box: Box) -> Iterator[Shape]:
        """The places of the tiles that have a site of the box or a neighbour of one."""
        ranges = []
        for axis, part in enumerate(box):
            side, move = self.sides[axis], self.shift[axis]
            reach = self.overlap + 1
            ahead = side - move if move else 0  # how much of tile 0 lies before the grid
            first = (max(part.start - reach, 0) + ahead) // side
            last = (min(part.stop + reach, self.shape[axis]) - 1 + ahead) // side
            ranges.append(range(first, last + 1))
        return itertools.product(*ranges)


def grown(box: Box, shape: Shape) -> Box:
    """The box and the sites beside it."""
    return tuple(slice(max(part.start - 1, 0), min(part.stop + 1, most))
                 for part, most in zip(box, shape))


def within(box: Box, outer: Box) -> Box:
    """A box as it lies in one around it."""
    return tuple(slice(part.start - around.start, part.stop - around.start)
                 for part, around in zip(box, outer))


def around(places: Any, box: Box) -> Box:
    """The least box around the places of a box that are not 0."""
    inner = []
    for axis, part in enumerate(box):
        others = tuple(other for other in range(len(box)) if other != axis)
        along = places.any(axis=others).nonzero()[0]
        inner.append(slice(part.start + int(along[0]), part.start + int(along[-1]) + 1))
    return tuple(inner)


def joined(first: Box, second: Box) -> Box:
    """The least box around two."""
    return tuple(slice(min(one.start, other.start), max(one.stop, other.stop))
                 for one, other in zip(first, second))


def sides_of_box(box: Box) -> Shape:
    return tuple(part.stop - part.start for part in box)


def moved(box: Box, offset: Shape) -> Box:
    return tuple(slice(part.start + move, part.stop + move) for part, move in zip(box, offset))


def ends(sides: Shape, offset: Shape) -> Tuple[Box, Box]:
    """The first and the second sites of the pairs of an offset in a box that begins at 0."""
    first = tuple(slice(max(-move, 0), side - max(move, 0)) for side, move in zip(sides, offset))
    return first, moved(first, offset)
