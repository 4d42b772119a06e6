"""The problem of one tile: its free sites, with what they pay for the fixed labels around them."""
import functools
from typing import Any, Iterator, NamedTuple, Sequence, Tuple

from .. import arrays
from .._library import DATA_LIMIT
from .boxes import Box, Shape, ends, moved, sides_of_box, within


class Border(NamedTuple):
    """Pairs of a free site and a fixed one: which free site, which label, which weight."""

    sites: Any
    labels: Any
    weights: Any
    free_is_first: bool


class Problem(NamedTuple):
    """Tables for a call of the library. The first `sites` rows are the tile's free sites; the
    others stand for fixed ones, and `pinned` are their labels."""

    data: Any
    pairs: Any
    sites: int
    pinned: Any


def back(offset: Shape) -> Shape:
    return tuple(-move for move in offset)


def slabs(box: Box, window: Box, offset: Shape) -> Iterator[Box]:
    """The sites of a box whose neighbour at an offset lies beside the box, in the window: as boxes
    that share no site."""
    inner = list(box)
    for axis, move in enumerate(offset):
        if not move:
            continue
        part = inner[axis]
        if move > 0:
            out = slice(max(part.stop - move, part.start), min(part.stop, window[axis].stop - move))
            inner[axis] = slice(part.start, max(part.stop - move, part.start))
        else:
            out = slice(max(part.start, window[axis].start - move),
                        min(part.start - move, part.stop))
            inner[axis] = slice(min(part.start - move, part.stop), part.stop)
        slab = (*inner[:axis], out, *box[axis + 1:])
        # a neighbour that is across a corner has to be in the window along each axis
        slab = tuple(slice(max(side.start, around.start - step), min(side.stop, around.stop - step))
                     for side, around, step in zip(slab, window, offset))
        if all(side.start < side.stop for side in slab):
            yield slab


@functools.lru_cache(maxsize=4)
def lattice(sides: Shape, offsets: Tuple[Shape, ...]) -> Tuple[Any, Any]:
    """The pairs of a whole box by their first site, of weight 1; and which of the offsets from
    which site they are, as a table (sites, offsets) of yes and no."""
    numpy = arrays.numpy
    ids = numpy.arange(int(numpy.prod(sides)), dtype=numpy.uint32).reshape(sides)
    table = numpy.ones((*sides, len(offsets), 3), dtype=numpy.uint32)
    inner = numpy.zeros((*sides, len(offsets)), dtype=bool)
    for place, offset in enumerate(offsets):
        first, second = ends(sides, offset)
        table[(*first, place, 0)] = ids[first]
        table[(*first, place, 1)] = ids[second]
        inner[(*first, place)] = True
    return table[inner], inner.reshape(-1, len(offsets))


class Full:
    """A tile all of whose sites are free, in its window; both as boxes of one grid."""

    def __init__(self, box: Box, window: Box) -> None:
        self.box = box
        self.window = window
        self.sides = sides_of_box(box)
        self.count = int(arrays.numpy.prod(self.sides))

    def labels_of(self, labels: Any) -> Any:
        """The labels of the free sites, of those of the window."""
        return labels[self._in_window(self.box)].reshape(-1)

    def write(self, labels: Any, after: Any) -> None:
        """Writes labels of the free sites into those of the window."""
        labels[self._in_window(self.box)] = after.reshape(self.sides)

    def _in_window(self, box: Box) -> Box:
        return moved(box, back(tuple(part.start for part in self.window)))

    def site(self, number: int) -> Tuple[int, ...]:
        """Where in the grid a free site is."""
        at = arrays.numpy.unravel_index(number, self.sides)
        return tuple(part.start + int(one) for part, one in zip(self.box, at))

    def pairs(self, weights: Sequence[Any], offsets: Sequence[Shape]) -> Any:
        """The pairs of two free sites, by their first site."""
        numpy = arrays.numpy
        pairs, inner = lattice(self.sides, tuple(offsets))
        if all(weight.ndim == 0 and weight == 1 for weight in weights):
            return pairs
        table = numpy.zeros((*self.sides, len(offsets)), dtype=numpy.uint32)
        for place, (offset, weight) in enumerate(zip(offsets, weights)):
            first, _ = ends(self.sides, offset)
            at = moved(first, tuple(part.start for part in self.box))
            table[(*first, place)] = self._weights_at(weight, at, offset)
        pairs = pairs.copy()
        pairs[:, 2] = table.reshape(-1, len(offsets))[inner]
        return pairs

    def _weights_at(self, weight: Any, first: Box, offset: Shape) -> Any:
        """The weights of pairs by the box of their first sites: they stand at the lower corners."""
        if weight.ndim == 0:
            return weight
        corner = moved(first, tuple(min(move, 0) for move in offset))
        return weight[self._in_window(corner)]

    def borders(self, labels: Any, weights: Sequence[Any],
                offsets: Sequence[Shape]) -> Iterator[Border]:
        """The pairs of a free site and a fixed one."""
        numpy = arrays.numpy
        ids = numpy.arange(self.count).reshape(self.sides)
        corner = back(tuple(part.start for part in self.box))
        for offset, weight in zip(offsets, weights):
            for step, is_first in ((offset, True), (back(offset), False)):
                for slab in slabs(self.box, self.window, step):
                    first = slab if is_first else moved(slab, step)
                    others = labels[self._in_window(moved(slab, step))].reshape(-1)
                    paid = numpy.broadcast_to(self._weights_at(weight, first, offset),
                                              sides_of_box(slab)).reshape(-1)
                    yield Border(ids[moved(slab, corner)].reshape(-1), others, paid, is_first)


class Masked:
    """Some sites of a box that are free, by a table of yes and no."""

    def __init__(self, inside: Any, box: Box, window: Box) -> None:
        numpy = arrays.numpy
        free = numpy.zeros(sides_of_box(window), dtype=bool)
        free[within(box, window)] = inside
        self.window, self.shape = window, free.shape
        self.at = numpy.nonzero(free)
        self.flat = numpy.flatnonzero(free)
        self.count = len(self.flat)
        self.numbers = numpy.full(free.size, -1, dtype=numpy.int32)
        self.numbers[self.flat] = numpy.arange(self.count, dtype=numpy.int32)

    def labels_of(self, labels: Any) -> Any:
        return labels.reshape(-1)[self.flat]

    def write(self, labels: Any, after: Any) -> None:
        labels.reshape(-1)[self.flat] = after

    def site(self, number: int) -> Tuple[int, ...]:
        return tuple(part.start + int(at[number]) for part, at in zip(self.window, self.at))

    def _beside(self, offset):
        """The numbers of the free sites that have a site at that offset in the window, and the
        latter's place in it."""
        numpy = arrays.numpy
        there = numpy.ones(self.count, dtype=bool)
        step = 0
        for axis, move in enumerate(offset):
            side = self.shape[axis]
            step = step * side + move
            if move > 0:
                there &= self.at[axis] < side - move
            elif move < 0:
                there &= self.at[axis] >= -move
        sites = numpy.flatnonzero(there)
        return sites, self.flat[sites] + step

    def _weights_of(self, weight, offset, sites, is_first):
        """The weights of the pairs of these free sites, which are their first ends or second."""
        if weight.ndim == 0:
            return arrays.numpy.full(len(sites), int(weight))
        corner = tuple(self.at[axis][sites] + min(move, 0) - (0 if is_first else move)
                       for axis, move in enumerate(offset))
        return weight[corner]

    def pairs(self, weights: Sequence[Any], offsets: Sequence[Shape]) -> Any:
        numpy = arrays.numpy
        table = numpy.zeros((self.count, len(offsets), 3), dtype=numpy.uint32)
        inner = numpy.zeros((self.count, len(offsets)), dtype=bool)
        for place, (offset, weight) in enumerate(zip(offsets, weights)):
            sites, others = self._beside(offset)
            numbers = self.numbers[others]
            sites, numbers = sites[numbers >= 0], numbers[numbers >= 0]
            table[sites, place, 0] = sites
            table[sites, place, 1] = numbers
            table[sites, place, 2] = self._weights_of(weight, offset, sites, True)
            inner[sites, place] = True
        return table[inner]

    def borders(self, labels: Any, weights: Sequence[Any],
                offsets: Sequence[Shape]) -> Iterator[Border]:
        flat = labels.reshape(-1)
        for offset, weight in zip(offsets, weights):
            for step, is_first in ((offset, True), (back(offset), False)):
                sites, others = self._beside(step)
                fixed = self.numbers[others] < 0
                sites, others = sites[fixed], others[fixed]
                yield Border(sites, flat[others],
                             self._weights_of(weight, offset, sites, is_first), is_first)


def problem_of(data: Any, free: Any, labels: Any, weights: Sequence[Any],
               offsets: Sequence[Shape], smooth: Any) -> Problem:
    """The problem of the free sites (Full or Masked), of `data` a row each, where all other sites
    of the window keep their `labels`.

    Where the costs of a site would go beyond gco's limit, its pairs over the border stay pairs:
    each with a site of its own, whose label is pinned by the greatest cost. An expansion does not
    move it, since its one pair costs no more than that, and of two least labellings the one with
    fewer changes is taken.
    """
    numpy = arrays.numpy
    pairs = free.pairs(weights, offsets)
    borders = list(free.borders(labels, weights, offsets))
    whole = data.astype(numpy.int32)  # a copy: the caller's costs stay as they are
    for border in borders:
        by_label = smooth[:, border.labels].T if border.free_is_first else smooth[border.labels]
        whole[border.sites] += (by_label * border.weights[:, None]).astype(numpy.int32)
    touched = numpy.unique(numpy.concatenate([border.sites for border in borders] or [[]]))
    touched = touched.astype(numpy.int64)
    rows = whole[touched]
    rows -= rows.min(axis=1, keepdims=True)
    whole[touched] = rows
    wide = touched[rows.max(axis=1, initial=0) > DATA_LIMIT]
    if not len(wide):
        return Problem(whole, pairs, free.count, numpy.zeros(0, dtype=numpy.uint32))
    whole[wide] = data[wide]
    return _pinned(whole, pairs, borders, wide)


def _pinned(whole, pairs, borders, wide):
    """The problem where the pairs over the border of some sites stay pairs."""
    numpy = arrays.numpy
    is_wide = numpy.zeros(len(whole), dtype=bool)
    is_wide[wide] = True
    count, held, rows = len(whole), [], [pairs]
    for border in borders:
        at = is_wide[border.sites]
        sites, paid = border.sites[at], border.weights[at]
        extra = numpy.arange(count, count + len(sites))
        two = (sites, extra) if border.free_is_first else (extra, sites)
        rows.append(numpy.column_stack([*two, paid]).astype(numpy.uint32))
        held.append(border.labels[at])
        count += len(sites)
    pinned = numpy.concatenate(held).astype(numpy.uint32)
    table = numpy.full((len(pinned), whole.shape[1]), DATA_LIMIT, dtype=numpy.int32)
    table[numpy.arange(len(pinned)), pinned] = 0
    return Problem(numpy.concatenate([whole, table]), numpy.concatenate(rows), len(whole), pinned)


def data_energy(data: Any, labels: Any) -> int:
    """What the labels cost by themselves, by data costs (.., labels)."""
    numpy = arrays.numpy
    paid = numpy.take_along_axis(data, labels[..., None].astype(numpy.int64), axis=-1)
    return int(paid.sum(dtype=numpy.int64))


def energy_of(problem: Problem, smooth: Any, labels: Any) -> int:
    """The energy of labels of the free sites and of those that stand for fixed ones."""
    pairs = problem.pairs
    ends = labels[pairs[:, 0]], labels[pairs[:, 1]]
    return data_energy(problem.data, labels) + int((smooth[ends] * pairs[:, 2]).sum())


def pair_energy(weights: Sequence[Any], offsets: Sequence[Shape], smooth: Any, labels: Any,
                inside: Box) -> int:
    """What those pairs of a window cost that have their lower corner in a box inside it."""
    total = 0
    for offset, weight in zip(offsets, weights):
        corner = tuple(slice(part.start, max(min(part.stop, side - abs(move)), part.start))
                       for part, side, move in zip(inside, labels.shape, offset))
        first = moved(corner, tuple(max(-move, 0) for move in offset))
        paid = smooth[labels[first], labels[moved(first, offset)]]
        total += int((paid * (weight[corner] if weight.ndim else weight)).sum())
    return total
