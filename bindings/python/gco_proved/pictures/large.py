"""Pictures above the limit of one problem: costs by tiles, and runs from the shrunken picture.

Each function here makes the tables of a picture that one problem takes, and of a larger one a
source: `piece(box)` are the costs of a tile, and `smaller(sides)` those of the shrunken picture.
"""
import contextlib
import math
import os
import sys
from typing import Any, Callable, List, NamedTuple, Optional, Tuple

from .. import labelling, progress
from ..tiles import WorkerDied, label_tiles, lower_bound_tiles
from ..tiles.boxes import OFFSETS, ends
from ..tiles.progress import bar, bound_bar
from . import colours, costs
from .reading import LIMIT
from .running import Ran, in_words
from .words import Wrong, numpy_and_pillow

SIDE = 256           # of a tile
FIRST = LIMIT // 4   # pixels of the shrunken picture
BAND = 8             # how far from the border of smaller segments a pixel is free, in their pixels
LEAST_GAIN = 0.001   # a sweep that lowers the energy by less than this part of it is the last
MODELLED = 1 << 20   # so many pixels of a kind are enough to learn its colours from
ROWS = 256           # rows whose contrasts are made at a time


def is_large(shape: Any) -> bool:
    return shape[0] * shape[1] > LIMIT


def shrunken_sides(shape: Any, most: int) -> Tuple[int, int]:
    """The sides of a picture of the same form that has at most so many pixels."""
    factor = math.sqrt(most / (shape[0] * shape[1]))
    rows = max(1, min(shape[0], int(shape[0] * factor)))
    return rows, max(1, min(shape[1], most // rows, round(shape[1] * factor)))


def shrunk(plane: Any, sides: Tuple[int, int]) -> Any:
    """Samples or colours made smaller, each the mean of those that it stands for."""
    numpy, image_class = numpy_and_pillow()
    if plane.ndim == 3:
        image = image_class.fromarray(numpy.ascontiguousarray(plane))
        return numpy.asarray(image.resize(sides[::-1], image_class.BOX))
    image = image_class.fromarray(plane.astype(numpy.float32))
    return numpy.rint(numpy.asarray(image.resize(sides[::-1], image_class.BOX))).astype(int)


def shrunk_seeds(drawn: Any, sides: Tuple[int, int]) -> Any:
    """Seeds made smaller, so that none is lost."""
    numpy, _ = numpy_and_pillow()
    small = numpy.zeros(sides, dtype=int)
    rows, columns = numpy.nonzero(drawn)
    small[rows * sides[0] // drawn.shape[0], columns * sides[1] // drawn.shape[1]] = \
        drawn[rows, columns]
    return small


def spread_out(small: Any, shape: Any) -> Any:
    """A small table at a picture's size, each element as often as it stands for a pixel."""
    numpy, _ = numpy_and_pillow()
    rows, columns = (numpy.arange(most) * side // most for side, most in zip(small.shape, shape))
    return small[rows][:, columns]


class Piece(NamedTuple):
    """The costs of a tile, made by whoever has it."""

    function: Callable[..., Any]
    words: Tuple[Any, ...]

    def read(self) -> Any:
        return self.function(*self.words)


class Pixels(NamedTuple):
    """Costs of a tile by a function that looks at each pixel alone, so of some pixels too."""

    function: Callable[..., Any]
    planes: List[Any]
    more: Tuple[Any, ...]

    def read(self) -> Any:
        return self.function(*self.planes, *self.more)

    def rows(self, inside: Any) -> Any:
        return self.function(*(plane[inside][None] for plane in self.planes), *self.more)[0]


def _parts(planes, box):
    """What planes have in a box, without gaps: so it is pickled quickly."""
    numpy, _ = numpy_and_pillow()
    return [numpy.ascontiguousarray(plane[box]) for plane in planes]


class Costs:
    """Data costs of a large picture: a function of parts of its planes, pixel by pixel."""

    seeds: Any = None

    def __init__(self, function: Callable[..., Any], planes: List[Any], *more: Any) -> None:
        self.function, self.planes, self.more = function, planes, more
        self.shape = planes[0].shape[:2]

    def piece(self, box: Any) -> Any:
        return Pixels(self.function, _parts(self.planes, box), self.more)

    def smaller(self, sides: Tuple[int, int]) -> Tuple[Any, Any]:
        """The costs of the shrunken picture, and which label each of theirs is."""
        data = self.function(*(shrunk(plane, sides) for plane in self.planes), *self.more)
        return data, list(range(data.shape[-1]))


class Seeded(Costs):
    """Data costs by samples or colours and seeds, which are the last plane."""

    def __init__(self, function: Callable[..., Any], planes: List[Any], *more: Any) -> None:
        super().__init__(function, planes, *more)
        self.seeds = planes[-1]

    def smaller(self, sides: Tuple[int, int]) -> Tuple[Any, Any]:
        planes = [*(shrunk(plane, sides) for plane in self.planes[:-1]),
                  shrunk_seeds(self.seeds, sides)]
        return self.function(*planes, *self.more), [0, 1]


class Disparities(Costs):
    """Data costs of stereo: a tile wants the columns at its left in the right picture too."""

    def piece(self, box: Any) -> Piece:
        rows, columns = box
        count, cap = self.more
        wide = slice(max(columns.start - count + 1, 0), columns.stop)
        left, right = _parts(self.planes, (rows, wide))
        return Piece(_disparities, (left, right, columns.start - wide.start, count, cap))

    def smaller(self, sides: Tuple[int, int]) -> Tuple[Any, Any]:
        count, cap = self.more
        factor = sides[1] / self.shape[1]
        few = math.ceil((count - 1) * factor) + 1
        left, right = (shrunk(plane, sides) for plane in self.planes)
        return costs.stereo_costs(left, right, few, cap), \
            [min(round(label / factor), count - 1) for label in range(few)]


def _disparities(left, right, first, count, cap):
    return costs.stereo_costs(left, right, count, cap)[:, first:]


class Weights:
    """Weights of a large picture's pairs, by `function(first, second, offset, *more)` of the
    samples or colours of their ends."""

    def __init__(self, plane: Any, neighbours: int, function: Callable[..., Any], *more: Any):
        self.plane, self.connect, self.function, self.more = plane, neighbours, function, more

    def piece(self, box: Any) -> Piece:
        return Piece(_weights, (*_parts([self.plane], box), self.connect, self.function,
                                self.more))

    def tables(self, sides: Tuple[int, int]) -> Any:
        """The weights of the shrunken picture, a table for each offset."""
        return _weights(shrunk(self.plane, sides), self.connect, self.function, self.more)

    def smaller(self, sides: Tuple[int, int]) -> Any:
        """The pairs of the shrunken picture."""
        return costs.weighed_pairs(sides, self.tables(sides))


def _weights(plane, connect, function, more):
    """One table of weights for each offset, some rows at a time."""
    numpy, _ = numpy_and_pillow()
    tables = []
    for offset in OFFSETS[2, connect]:
        (rows, columns), (other_rows, other_columns) = ends(plane.shape[:2], offset)
        first, second = plane[rows, columns], plane[other_rows, other_columns]
        parts = [function(first[at:at + ROWS], second[at:at + ROWS], offset, *more)
                 for at in range(0, len(first), ROWS)]
        tables.append(numpy.concatenate(parts).astype(numpy.uint16) if parts
                      else numpy.zeros(first.shape[:2], dtype=numpy.uint16))
    return tables


class Even:
    """One weight for all pairs of a large picture."""

    def __init__(self, weight: int, neighbours: int) -> None:
        self.weight, self.connect = weight, neighbours

    def piece(self, box: Any) -> Piece:
        return Piece(list, ([self.weight] * len(OFFSETS[2, self.connect]),))

    def smaller(self, sides: Tuple[int, int]) -> Any:
        return costs.even_pairs(sides, self.weight, self.connect)


def restore_costs(samples: Any, levels: int, cap: Optional[int]) -> Any:
    if not is_large(samples.shape):
        return costs.restore_costs(samples, levels, cap)
    numpy, _ = numpy_and_pillow()
    return Costs(costs.restore_costs, [samples.astype(numpy.uint8)], levels, cap)


def stereo_costs(left: Any, right: Any, count: int, cap: int) -> Any:
    if not is_large(left.shape):
        return costs.stereo_costs(left, right, count, cap)
    numpy, _ = numpy_and_pillow()
    return Disparities(costs.stereo_costs, [plane.astype(numpy.int32) for plane in (left, right)],
                       count, cap)


def segment_costs(samples: Any, drawn: Any, low: int, high: int) -> Any:
    if not is_large(samples.shape):
        return costs.segment_costs(samples, drawn, low, high)
    numpy, _ = numpy_and_pillow()
    return Seeded(costs.segment_costs, [samples.astype(numpy.int32), drawn.astype(numpy.uint8)],
                  low, high)


def model_costs(shades: Any, kinds: Any, drawn: Any) -> Any:
    """The costs of two segments by the colours of those that are of kind 1 and 2, and by seeds."""
    numpy, _ = numpy_and_pillow()
    models = []
    for kind in (1, 2):
        of_kind = shades[kinds == kind]
        models.append(colours.Mixture(of_kind[::-(-len(of_kind) // MODELLED)]))
    if not is_large(drawn.shape):
        return _modelled(shades, drawn, models)
    return Seeded(_modelled, [shades, drawn.astype(numpy.uint8)], models)


def _modelled(shades, drawn, models):
    data = colours.costs_by_models(shades, models)
    data[drawn == 1] = (0, costs.SEED_COST)
    data[drawn == 2] = (costs.SEED_COST, 0)
    return data


def even_pairs(shape: Any, weight: int, neighbours: int) -> Any:
    return Even(weight, neighbours) if is_large(shape) else \
        costs.even_pairs(shape, weight, neighbours)


def edge_pairs(samples: Any, strong: int, weak: int, edge: int, neighbours: int) -> Any:
    if not is_large(samples.shape):
        return costs.edge_pairs(samples, strong, weak, edge, neighbours)
    numpy, _ = numpy_and_pillow()
    return Weights(samples.astype(numpy.int32), neighbours, _edge_weights, strong, weak, edge)


def _edge_weights(first, second, offset, strong, weak, edge):
    numpy, _ = numpy_and_pillow()
    return numpy.where(abs(first.astype(int) - second) <= edge, strong, weak)


def contrast_pairs(shades: Any, strong: int, weak: int, edge: int, neighbours: int) -> Any:
    if not is_large(shades.shape):
        return colours.contrast_pairs(shades, strong, weak, edge, neighbours)
    return Weights(shades, neighbours, _contrast_weights, strong, weak, edge)


def _contrast_weights(first, second, offset, strong, weak, edge):
    apart = colours.squares_apart(first, second)
    return colours.contrast_weights(apart, all(offset), strong, weak, edge)


def notes_of(options: Any, picture: Any) -> Tuple[str, ...]:
    """What is to be said of a picture that goes by tiles, if it does; and what it cannot have."""
    height, width = picture.samples.shape
    if not is_large((height, width)):
        return ()
    if options.jobs is None:
        options.jobs = len(os.sched_getaffinity(0))
    pixels = f"{picture.name} has {width:,} x {height:,} = {width * height:,} pixels"
    if getattr(options, "label_cost", None) is not None:
        raise Wrong(f"{pixels}, which go by tiles, and what a grey level costs once is no sum over"
                    " tiles: leave --label-cost away, or give --fit")
    if options.plot:
        raise Wrong(f"{pixels}, which go by tiles, and --plot draws moves: leave it away, or give"
                    " --fit")
    side = options.tile or SIDE
    by = "one process" if options.jobs == 1 else f"{options.jobs} processes"
    return (f"{pixels}: it goes by tiles of {side} x {side}, by {by} (--fit: made smaller, and one"
            " problem)",)


def ran(data: Any, smooth: Any, weights: Any, options: Any, drawn: Optional[bool]) -> Ran:
    """The shrunken picture first, then tiles from its labels; of segments the pixels in a band
    along their border, at LIMIT pixels before it is at full size (Lombaert, Sun, Grady and Xu
    2005). Ctrl-C leaves what was found."""
    if drawn is None:
        drawn = sys.stderr.isatty()
    with _in_words():
        first = first_labels(data, smooth, weights, options, drawn)
        ended = _by_tiles(data, smooth, weights, options, drawn, first)
        if not options.gap or ended.stopped:
            return ended
        try:
            return ended._replace(low=lower_bound_tiles(
                data, smooth, weights, shape=data.shape, tile=options.tile,
                connect=weights.connect, passes=options.passes, executor=options.jobs,
                progress=bound_bar() if drawn else None))
        except KeyboardInterrupt:
            return ended._replace(stopped=True, done="the sweeps and before the bound")


@contextlib.contextmanager
def _in_words():
    """Tells a refusal, and that processes die, in a sentence that says what to do."""
    try:
        with in_words():
            yield
    except WorkerDied as died:
        raise Wrong(f"{died}, mostly for want of memory: take fewer --jobs, or a smaller --tile") \
            from None


def _by_tiles(data, smooth, weights, options, drawn, first):
    """Sweeps from the first labels."""
    show = bar() if drawn else None
    tiles = 0

    def step(sweep: int, done: int, count: int, energy: int) -> None:
        nonlocal tiles
        tiles += 1
        if show:
            show(sweep, done, count, energy)

    sweeps = options.cycles if first.done is None else 0
    try:
        ended = label_tiles(data, smooth, weights, shape=data.shape, connect=weights.connect,
                            tile=options.tile, start=first.labels, out=first.labels,
                            free=first.free, moves=options.moves, sweeps=sweeps,
                            least_gain=LEAST_GAIN, executor=options.jobs, progress=step)
    except KeyboardInterrupt as stop:
        if getattr(stop, "partial", None) is None:
            raise
        return Ran(_found(stop.partial), [], True, f"{tiles} tiles")  # type: ignore
    return Ran(_found(ended), [], first.done is not None, first.done or "")


def _found(ended):
    """As one call of the library tells it. How near runs by tiles come is not known."""
    return labelling.Found(ended.labels, ended.energy, ended.data, ended.smooth, 0,
                           max(len(ended.energies) - 1, 0), ended.settled, None)


class First(NamedTuple):
    """The labels that tiles begin with, and which pixels are free: all where it is None. Where
    Ctrl-C stopped the run over the shrunken picture, `done` says how far it came."""

    labels: Any
    free: Any = None
    done: Optional[str] = None


def first_labels(data: Any, smooth: Any, weights: Any, options: Any, drawn: bool) -> First:
    """The labels of the shrunken picture at the picture's size; and of segments which pixels are
    free. Without any cycle all are 0."""
    numpy, _ = numpy_and_pillow()
    if not options.cycles:
        return First(numpy.zeros(data.shape, dtype=numpy.uint8))
    sides = shrunken_sides(data.shape, FIRST)
    table, labels = data.smaller(sides)
    few = numpy.asarray(smooth)[labels][:, labels]
    small, done = _stopped_or_whole(table, few, weights.smaller(sides), options, drawn)
    if data.seeds is None:
        return First(spread_out(numpy.asarray(labels, dtype=numpy.uint8)[small], data.shape), None,
                     done)
    if done is None:
        small, done = _less_shrunken(data, smooth, weights, options, small)
    return First(*band(small, data.seeds), done)


def _less_shrunken(data, smooth, weights, options, small):
    """Segments at LIMIT pixels, in a band along those of a smaller picture; and where Ctrl-C
    stopped the run, how far it came."""
    sides = shrunken_sides(data.shape, LIMIT)
    start, free = band(small, shrunk_seeds(data.seeds, sides))
    try:
        label_tiles(data.smaller(sides)[0], smooth, weights.tables(sides), connect=weights.connect,
                    start=start, out=start, free=free, sweeps=options.cycles,
                    least_gain=LEAST_GAIN, executor=options.jobs)
    except KeyboardInterrupt:
        return start, "one of two runs over the picture made smaller"
    return start, None


def band(small: Any, seeds: Any) -> Tuple[Any, Any]:
    """The segments of a smaller picture at the seeds' size, and each seed in its own; and which
    pixels are free: those near the segments' border, and near a seed that the smaller picture
    lost."""
    numpy, _ = numpy_and_pillow()
    sides, shape = small.shape, seeds.shape
    start = spread_out(small.astype(numpy.uint8), shape)
    near = numpy.zeros(sides, dtype=bool)
    across, along = small[:, 1:] != small[:, :-1], small[1:] != small[:-1]
    near[:, 1:] |= across
    near[:, :-1] |= across
    near[1:] |= along
    near[:-1] |= along
    rows, columns = numpy.nonzero((seeds > 0) & (start != seeds.astype(int) - 1))
    near[rows * sides[0] // shape[0], columns * sides[1] // shape[1]] = True
    start[rows, columns] = seeds[rows, columns] - 1
    return start, spread_out(_widened(near, BAND), shape)


def _stopped_or_whole(data, smooth, pairs, options, drawn):
    """The labels of one problem; and where Ctrl-C stopped the run, how far it came."""
    start = data.argmin(axis=-1)
    show = progress.bar(len(smooth), options.moves) if drawn else None
    try:
        return labelling.label(data, smooth, pairs, moves=options.moves, cycles=options.cycles,
                               start=start, progress=show).labels, None
    except KeyboardInterrupt as stop:
        partial = getattr(stop, "partial", None)
        return (start if partial is None else partial.labels,
                f"{getattr(stop, 'moves_made', 0)} moves over the picture made smaller")


def _widened(places, steps):
    """The places and those at most so many rows and columns from one."""
    for _ in range(steps):
        for axis in (0, 1):
            wide = places.copy()
            ahead, behind = [slice(None)] * 2, [slice(None)] * 2
            ahead[axis], behind[axis] = slice(1, None), slice(None, -1)
            wide[tuple(ahead)] |= places[tuple(behind)]
            wide[tuple(behind)] |= places[tuple(ahead)]
            places = wide
    return places
