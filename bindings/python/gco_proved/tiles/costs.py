"""Costs of a tile: out of arrays, memory maps, zarr and dask arrays, or made by a function.

A source answers `piece(box)`, in the process that hands tiles out. The worker that has a tile calls
the piece's `read()`. So a source may be any object with these two calls, which need a piece that
can be pickled where workers are processes. A piece of data costs may have `rows(inside)` too, which
makes those of some sites alone, of an array of yes and no.
"""
import mmap
from typing import Any, Callable, List, NamedTuple, Sequence

from .. import arrays
from .._library import DATA_LIMIT, WEIGHT_LIMIT
from ..refusals import Refused
from .boxes import Box, Shape


class Held(NamedTuple):
    """Costs that lie in memory, without gaps: so they are pickled quickly."""

    costs: Any

    def read(self) -> Any:
        return self.costs


class Mapped(NamedTuple):
    """A box of a file, which is open only while it is read."""

    name: str
    dtype: Any
    offset: int
    shape: Shape
    order: str
    box: Box

    def read(self) -> Any:
        table = arrays.numpy.memmap(self.name, self.dtype, "r", self.offset, self.shape, self.order)
        return arrays.numpy.array(table[self.box])


class Sliced(NamedTuple):
    """A box of an array that the worker opens itself, as of zarr on a disk."""

    table: Any
    box: Box

    def read(self) -> Any:
        return arrays.numpy.asarray(self.table[self.box])


class Lazy(NamedTuple):
    """A box of a dask array, which the worker computes."""

    block: Any

    def read(self) -> Any:
        return self.block.compute(scheduler="synchronous")


class Made(NamedTuple):
    """Costs that a function makes of a box."""

    function: Callable[[Box], Any]
    box: Box

    def read(self) -> Any:
        return self.function(self.box)


class Function:
    """A function of a box as a source."""

    def __init__(self, function: Callable[[Box], Any]) -> None:
        self.function = function

    def piece(self, box: Box) -> Made:
        return Made(self.function, box)


class Table:
    """A whole array as a source."""

    def __init__(self, table: Any) -> None:
        self.table = table

    def piece(self, box: Box) -> Any:
        table = self.table
        if isinstance(table, arrays.numpy.memmap) and isinstance(table.base, mmap.mmap):
            order = "C" if table.flags.c_contiguous else "F"
            return Mapped(table.filename, table.dtype, table.offset, table.shape, order, box)
        if hasattr(table, "dask"):
            import dask
            return Lazy(dask.optimize(table[box])[0])
        if isinstance(getattr(getattr(table, "store", None), "path", None), str):
            return Sliced(table, box)
        return Held(arrays.numpy.ascontiguousarray(table[box]))


class Even:
    """One weight for all pairs."""

    def __init__(self, weight: int, count: int) -> None:
        self.weights = [weight] * count

    def piece(self, box: Box) -> Held:
        return Held(self.weights)


class Several(NamedTuple):
    """Weights of each offset, read one after another."""

    pieces: List[Any]

    def read(self) -> List[Any]:
        return [piece.read() for piece in self.pieces]


class ByOffset:
    """One array of weights for each offset."""

    def __init__(self, tables: Sequence[Any], offsets: Sequence[Shape]) -> None:
        self.tables, self.offsets = [_source(table) for table in tables], offsets

    def piece(self, box: Box) -> Several:
        pieces = []
        for table, offset in zip(self.tables, self.offsets):
            inner = tuple(slice(part.start, max(part.stop - abs(step), part.start))
                          for part, step in zip(box, offset))
            pieces.append(table.piece(inner))
        return Several(pieces)


def _source(costs: Any) -> Any:
    """A source of what may be one, a function, an array or a table of lists."""
    if hasattr(costs, "piece"):
        return costs
    if hasattr(costs, "shape"):
        return Table(costs)
    if callable(costs):
        return Function(costs)
    return Table(arrays.numpy.asarray(arrays.taken(costs, "data")))


def data_source(data: Any, shape: Any, labels: int) -> Any:
    """The data costs as a source, and the shape of the grid."""
    source = _source(data)
    if isinstance(source, Table):
        sides = tuple(source.table.shape)
        if sides[-1:] != (labels,):
            raise Refused(4, words=f"data: one cost for each of {labels} labels is wanted along the"
                          f" last axis, and the shape is {sides}")
        if shape is not None and tuple(shape) != sides[:-1]:
            raise ValueError(f"shape: the data have {sides[:-1]}, and not {tuple(shape)}")
        shape = sides[:-1]
    elif shape is None:
        raise ValueError("shape: costs by a function do not say how large the grid is: give its"
                         " sides, as shape=(30000, 40000)")
    shape = tuple(arrays.whole(side, 1, 2**40, "shape") for side in shape)
    if len(shape) not in (2, 3):
        raise ValueError(f"data: a grid of two or three axes is wanted, and the shape is {shape}")
    return source, shape


def weight_source(weights: Any, shape: Shape, offsets: Sequence[Shape]) -> Any:
    """The weights as a source: one number, one array for each offset, or a function of a box."""
    if hasattr(weights, "__index__") and not hasattr(weights, "__len__"):
        return Even(arrays.whole(weights, 0, WEIGHT_LIMIT, "weights"), len(offsets))
    if callable(weights) or hasattr(weights, "piece"):
        return _source(weights)
    if not hasattr(weights, "__len__") or len(weights) != len(offsets):
        raise ValueError(f"weights: a whole number is wanted, or a function of a box, or one array"
                         f" for each of the {len(offsets)} offsets {offsets}")
    for table, offset in zip(weights, offsets):
        look_at_sides(arrays.shape_of(table, "weights"), shape, offset)
    return ByOffset(list(weights), offsets)


def look_at_sides(sides: Shape, shape: Shape, offset: Shape) -> None:
    """Whether the weights of an offset have one for each pair."""
    wanted = tuple(max(side - abs(step), 0) for side, step in zip(shape, offset))
    if tuple(sides) != wanted:
        raise ValueError(f"weights: those of the offset {offset} are to have the shape {wanted},"
                         f" and not {tuple(sides)}")


def costs_read(piece: Any, box: Box, sides: Shape, labels: int) -> Any:
    """The data costs of a box, after a look at each."""
    costs = arrays.numpy.asarray(piece.read())
    if costs.shape != (*sides, labels):
        raise ValueError(f"data: the costs of a tile are to have the shape {(*sides, labels)}, and"
                         f" there is {costs.shape}")
    _look(costs, "data")
    _look_at_range(costs, lambda wrong: [part.start + at for part, at in zip(box, wrong)])
    return costs


def rows_read(piece: Any, inside: Any, box: Box, sides: Shape, labels: int) -> Any:
    """The data costs of some sites of a box, a row each."""
    if not hasattr(piece, "rows"):
        return costs_read(piece, box, sides, labels)[inside]
    rows = arrays.numpy.asarray(piece.rows(inside))
    _look(rows, "data")
    _look_at_range(rows, lambda wrong: [part.start + int(at[wrong[0]])
                                        for part, at in zip(box, inside.nonzero())])
    return rows


def _look_at_range(costs, site_of):
    if costs.size and not 0 <= costs.min() <= costs.max() <= DATA_LIMIT:
        wrong = arrays.numpy.argwhere((costs < 0) | (costs > DATA_LIMIT))[0].tolist()
        raise Refused(15, words=f"data: label {wrong[-1]} at {tuple(site_of(wrong))} costs"
                      f" {int(costs[tuple(wrong)]):,}: a data cost is from 0 to {DATA_LIMIT:,}")


def weights_read(piece: Any, box: Box, sides: Shape, offsets: Sequence[Shape]) -> List[Any]:
    """The weights of a box for each offset, a number or an array, after a look at each."""
    weights = list(piece.read())
    if len(weights) != len(offsets):
        raise ValueError(f"weights: a tile is to have those of {len(offsets)} offsets, and there"
                         f" are {len(weights)}")
    for place, (table, offset) in enumerate(zip(weights, offsets)):
        table = arrays.numpy.asarray(table)
        _look(table, "weights")
        if table.ndim:
            look_at_sides(table.shape, sides, offset)
        if table.size and not 0 <= table.min() <= table.max() <= WEIGHT_LIMIT:
            wrong = arrays.numpy.argwhere((table < 0) | (table > WEIGHT_LIMIT))[0].tolist()
            site = tuple(part.start + at for part, at in zip(box, wrong))
            raise Refused(14, words=f"weights: that of offset {offset} at {site} is"
                          f" {int(table[tuple(wrong)]):,}: a weight is from 0 to {WEIGHT_LIMIT:,}")
        weights[place] = table
    return weights


def _look(table: Any, what: str) -> None:
    if table.dtype.kind not in "iu":
        raise TypeError(f"{what}: whole numbers are wanted, and not {table.dtype}: scale and round"
                        " them first")
