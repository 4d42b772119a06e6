"""label_tiles: a labelling of any size by runs over tiles, the sites around each fixed."""
import math
from typing import Any, Callable, Dict, Iterator, List, NamedTuple, Optional, Set, Tuple

from .. import arrays
from .._library import LABEL_LIMIT, MOVES, PAIR_LIMIT, SITE_LIMIT, SMOOTH_LIMIT
from ..refusals import Refused
from . import costs, tile as work
from .boxes import Box, Shape, Sweep, around, grown, joined, offsets_of, shifts_of, sides_of, \
    sides_of_box
from .engines import engine_of
from .progress import bar

WIDE = 1 << 25  # the most sites of a box that is read whole for the free ones in it


class Tiled(NamedTuple):
    """Labels as they ended: energy = data + smooth.

    `energies` are those before the first sweep and after each. `settled` says that no move over any
    tile, as it stands or shifted, would lower the energy.
    """

    labels: Any
    energy: int
    data: int
    smooth: int
    energies: List[int]
    settled: bool


class Whole:
    """The whole problem: its sources of costs, its labelling, and what runs its tiles."""

    def __init__(self, data: Any, smooth: Any, weights: Any, shape: Any, connect: Optional[int],
                 free: Any, moves: str, cycles: Optional[int], engine: Any) -> None:
        numpy = arrays.numpy
        if moves not in MOVES:
            raise ValueError(f"moves: expansion or swap is wanted, and not {moves!r}")
        self.smooth = smooth_of(smooth)
        self.data, self.shape = costs.data_source(data, shape, len(self.smooth))
        self.offsets = offsets_of(len(self.shape), connect)
        self.weights = costs.weight_source(weights, self.shape, self.offsets)
        if free is not None and tuple(arrays.shape_of(free, "free")) != self.shape:
            raise ValueError(f"free: one yes or no for each site is wanted, of shape {self.shape},"
                             f" and the shape is {tuple(arrays.shape_of(free, 'free'))}")
        self.free, self.moves = free, moves
        self.cycles = None if cycles is None else arrays.whole(cycles, 1, 2**32 - 1, "cycles")
        self.engine, self.numpy = engine, numpy
        self.labels: Any = None

    def task(self, box: Box, free: Any = None, with_data: bool = True) -> work.Task:
        """All that a worker has to know of a tile."""
        numpy, window = self.numpy, grown(box, self.shape)
        return work.Task(box, window, numpy.array(self.labels[window]), free,
                         self.data.piece(box) if with_data else None, self.weights.piece(window),
                         self.smooth, self.offsets, self.moves, self.cycles)

    def each(self, function: Callable[[work.Task], Any], sweep: Sweep,
             with_data: bool = True) -> Iterator[Tuple[Box, Any]]:
        """The answers of a function for each tile, in any order."""
        boxes = {place: sweep.box(place) for place in sweep.places()}
        tasks = ((place, self.task(box, None, with_data)) for place, box in boxes.items())
        for place, answer in self.engine.answers(function, tasks):
            yield boxes[place], answer

    def free_in(self, box: Box) -> Any:
        """Which sites of a box are free: None where all are."""
        return None if self.free is None else self.numpy.asarray(self.free[box], dtype=bool)


def smooth_of(smooth: Any) -> Any:
    """The smooth costs as a table of 64 bits, after a look at each."""
    table = arrays.numbers(smooth, "smooth")
    if table.ndim != 2 or table.shape[0] != table.shape[1] or not 0 < len(table) <= LABEL_LIMIT:
        raise Refused(5, words="smooth: one cost for each two of 1 to 256 labels is wanted, of"
                      f" shape (labels, labels), and not {table.shape}")
    if not 0 <= table.min() <= table.max() <= SMOOTH_LIMIT:
        first, second = arrays.numpy.argwhere((table < 0) | (table > SMOOTH_LIMIT))[0].tolist()
        raise Refused(16, words=f"smooth: labels {first} and {second} cost"
                      f" {int(table[first, second]):,}: a smooth cost is from 0 to 10,000")
    return table


def label_tiles(data: Any, smooth: Any, weights: Any = 1, *, shape: Any = None, tile: Any = None,
                overlap: int = 0, connect: Optional[int] = None, start: Any = None, out: Any = None,
                free: Any = None, label_costs: Any = None, moves: str = "expansion",
                cycles: Optional[int] = 1, sweeps: Optional[int] = None, least_gain: float = 0,
                executor: Any = None, progress: Any = None) -> Tiled:
    """Labels a grid of two or three axes of any size, tile by tile: each a run of the library with
    the labels around it fixed, from the labels that stand there. So no run raises the energy of the
    whole, and tiles that share no border run side by side, as the squares of one colour on a
    checkerboard. From sweep to sweep the tiles are shifted by half a side. It ends where no tile,
    shifted or not, is left to look at, or after so many `sweeps`, or after one that lowers the
    energy by less than `least_gain` of it (0.001 is a thousandth).

    `data` are costs of shape (.., labels), in an array of numpy, a memory map, zarr or dask.array;
    or a function that makes them of a box, a slice for each axis: then `shape` is that of the grid.
    `weights` are a number, one array for each offset from a pair's first site to its second, or a
    function that makes these of a box as if that were the grid. The offsets are (0, 1) and (1, 0),
    with `connect` 8 then (1, 1) and (1, -1); of three axes (0, 0, 1), (0, 1, 0) and (1, 0, 0), or
    13 with `connect` 26. The array of an offset has the grid's sides, each less the offset's size.
    `smooth` and `moves` are those of gco_proved.label. Each tile's run makes so many `cycles` in a
    sweep, or all with None: one is quickest in the whole.

    `tile` has the sides of a tile, by default 256 x 256 or 64 x 64 x 64. Each tile's run also looks
    at so many sites as `overlap` says beside it. `free` is an array of yes and no: the other sites
    keep their labels. Free sites that one problem can take are one tile by default, if they lie in
    a box of at most 33,554,432 sites. `start` is each site's cheapest label where none is given.
    `out` is where labels are written, as a memory map or zarr, by default an array of one byte a
    label. `start` and `out` may be one: so a run that was stopped goes on.

    `executor` is None (one tile after another), a number of processes, an executor of
    concurrent.futures or a Client of Dask. The labels are the same from each. A tile whose worker
    dies is given to another one. `progress` is called after each tile with the sweep (from 1), how
    many of its tiles are done and how many there are, and the energy; where it answers False the
    run stops. True stands for a bar.

    Raises what gco_proved.label raises, and WorkerDied where workers die over one tile. A
    KeyboardInterrupt has what was found till then as `partial`, None before the first sweep. Label
    costs are refused: they are no sum over tiles.
    """
    if arrays.numpy is None:
        raise ImportError("label_tiles: numpy is wanted: pip install numpy")
    if label_costs is not None:
        raise ValueError("label_costs: what a label costs once for the whole is no sum over tiles:"
                         " leave them away, or label the whole by gco_proved.label")
    engine = engine_of(executor)
    try:
        whole = Whole(data, smooth, weights, shape, connect, free, moves, cycles, engine)
        run = Run(whole, tile, overlap, bar() if progress is True else progress)
        run.begin(start, out)
        return run.sweep_all(sweeps, least_gain)
    except KeyboardInterrupt as stop:
        stop.partial = getattr(stop, "partial", None)  # type: ignore[attr-defined]
        raise
    finally:
        engine.close()


class Run:
    """Sweeps over a whole problem: which tiles are due, and the energy."""

    def __init__(self, whole: Whole, tile: Any, overlap: int, progress: Any) -> None:
        self.whole, self.progress = whole, progress
        shape = whole.shape
        sides = sides_of(tile, shape, overlap, whole.offsets)
        mixed = any(sum(map(abs, offset)) > 1 for offset in whole.offsets)
        self.plain = Sweep(shape, sides, (0,) * len(shape), 0, mixed)
        if tile is None and self._few_are_free():
            sides = shape
        self.sweeps = [Sweep(shape, sides, shift, overlap, mixed)
                       for shift in shifts_of(sides, shape)]
        self.due: List[Set[Shape]] = [set(sweep.places()) for sweep in self.sweeps]
        self.energies: List[int] = []
        self.data = self.smooth = 0

    def _few_are_free(self):
        """Whether not all sites are free, and one tile can take those that are: its box is read
        whole, so that may not be too large either."""
        whole, numpy = self.whole, self.whole.numpy
        if whole.free is None:
            return False
        count, least = 0, None
        for place in self.plain.places():
            box = self.plain.box(place)
            free = whole.free_in(box)
            if free.any():
                count += int(numpy.count_nonzero(free))
                box = around(free, box)
                least = box if least is None else joined(least, box)
        return count <= min(SITE_LIMIT, PAIR_LIMIT // len(whole.offsets)) and (
            least is None or math.prod(sides_of_box(least)) <= WIDE)

    @property
    def energy(self) -> int:
        return self.data + self.smooth

    def begin(self, start: Any, out: Any) -> None:
        """The labels to begin with, and their energy."""
        whole, numpy = self.whole, self.whole.numpy
        whole.labels = numpy.zeros(whole.shape, dtype=numpy.uint8) if out is None else out
        if tuple(whole.labels.shape) != whole.shape:
            raise ValueError(f"out: one label for each site is wanted, of shape {whole.shape}, and"
                             f" the shape is {tuple(whole.labels.shape)}")
        if start is None:
            for box, (labels, data) in whole.each(work.cheapest, self.plain):
                whole.labels[box] = labels
                self.data += data
        elif start is not out:
            self._copy(start)
        for _, (data, smooth) in whole.each(work.energy, self.plain, start is not None):
            self.data += data
            self.smooth += smooth
        self.energies = [self.energy]

    def _copy(self, start):
        whole, numpy = self.whole, self.whole.numpy
        start = arrays.numbers(start, "start") if not hasattr(start, "shape") else start
        if tuple(start.shape) != whole.shape:
            raise ValueError(f"start: one label for each site is wanted, of shape {whole.shape},"
                             f" and the shape is {tuple(start.shape)}")
        for place in self.plain.places():
            box = self.plain.box(place)
            labels = numpy.asarray(start[box])
            if labels.dtype.kind not in "iu":
                raise TypeError(f"start: whole numbers are wanted, and not {labels.dtype}")
            if labels.size and not 0 <= labels.min() <= labels.max() < len(whole.smooth):
                raise Refused(11, words="start: there are labels from"
                              f" {labels.min()} to {labels.max()}: the labels are 0 to"
                              f" {len(whole.smooth) - 1}")
            whole.labels[box] = labels

    def found(self, settled: bool) -> Tiled:
        return Tiled(self.whole.labels, self.energy, self.data, self.smooth, self.energies, settled)

    def sweep_all(self, sweeps: Optional[int], least_gain: float) -> Tiled:
        """Sweeps until the run ends."""
        most = 2**62 if sweeps is None else arrays.whole(sweeps, 0, 2**62, "sweeps")
        turn = 0
        try:
            while any(self.due) and len(self.energies) <= most:
                shift = turn % len(self.sweeps)
                turn += 1
                boxes = self._boxes_due(shift)
                if not boxes:
                    continue
                before = self.energy
                going = self.sweep(shift, boxes)
                assert self.energy <= before
                self.energies.append(self.energy)
                self._flush()
                if not going or before - self.energy < least_gain * before:
                    break
        except KeyboardInterrupt as stop:
            stop.partial = self.found(False)  # type: ignore[attr-defined]
            raise
        return self.found(not any(self.due))

    def _flush(self):
        """What a memory map holds goes to the disk."""
        if hasattr(self.whole.labels, "flush"):
            self.whole.labels.flush()

    def _boxes_due(self, shift):
        """The boxes of the tiles that are due, by their places, each cut to its free sites; one
        without any is not due."""
        sweep, boxes = self.sweeps[shift], {}
        for place in sorted(self.due[shift]):
            box = sweep.box(place)
            free = self.whole.free_in(box)
            if free is None or free.any():
                boxes[place] = box if free is None else around(free, box)
        self.due[shift] = set(boxes)
        return boxes

    def sweep(self, shift: int, boxes: Dict[Shape, Box]) -> bool:
        """One sweep over the tiles that are due, of each colour the largest first, so that no
        worker waits long for the last ones; False where it is to be the last."""
        whole, sweep = self.whole, self.sweeps[shift]
        colours = sorted({sweep.colour(place) for place in boxes})
        falling = sorted(boxes.items(), key=lambda item: -math.prod(sides_of_box(item[1])))
        done = 0
        for colour in colours:
            tasks = ((place, whole.task(box, whole.free_in(box)))
                     for place, box in falling if sweep.colour(place) == colour)
            for place, answer in whole.engine.answers(work.run, tasks):
                self._take(shift, place, boxes[place], answer)
                done += 1
                if self.progress and self.progress(len(self.energies), done, len(boxes),
                                                   self.energy) is False:
                    return False
        return True

    def _take(self, shift, place, box, answer):
        """Writes a tile's labels, and notes which tiles have to be looked at again."""
        assert answer.data + answer.smooth <= 0
        self.data += answer.data
        self.smooth += answer.smooth
        if answer.labels is not None:
            changed = self._write(box, answer.labels)
            for other, sweep in enumerate(self.sweeps):
                self.due[other].update(sweep.touched(changed))
        if answer.settled:
            self.due[shift].discard(place)
        else:
            self.due[shift].add(place)

    def _write(self, box, labels):
        """Writes the labels of a tile; answers the least box around those that changed."""
        changed = self.whole.numpy.asarray(self.whole.labels[box]) != labels
        self.whole.labels[box] = labels
        return around(changed, box)
