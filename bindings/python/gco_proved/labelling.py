"""label, expand and swap: labels of sites by moves, each to the best labelling that it reaches."""
import ctypes
import math
import signal
import threading
from typing import Any, NamedTuple, Optional, Tuple

from . import _library, arrays
from ._library import ALL_CYCLES, MOVES, calls
from .arrays import is_narrow, run_of, shape_of, taken, whole
from .grids import run_of_pairs
from .progress import bar
from .refusals import Refused
from .stretches import run

# a problem of so many costs or more is run by stretches, so that Ctrl-C stops it after one
LONG = 1 << 16


class _Found(NamedTuple):
    labels: Any
    energy: int
    data: int
    smooth: int
    label: int
    cycles: int
    settled: bool
    bound: Optional[Tuple[int, int]]


class Found(_Found):
    """Labels as they ended: energy = data + smooth + label.

    `cycles` says how many were made, and `settled` whether the last changed nothing. `bound` is
    (vmin, vmax) where it is known: vmin * energy is at most 2 * vmax times the least energy.
    It keeps the arrays of its problem for `gap`; a pickled one does not.
    """

    given: Optional[Tuple[Any, Any, Any, Any, Any]] = None

    def gap(self, passes: int = 50) -> float:
        """By what share the energy is above the least energy of all labellings, at most: 0.001
        stands for 0.1 %. It is energy / low - 1, where `low` is what lower_bound tells; 0.0 tells
        that there is no better labelling. Raises ValueError if the arrays of the problem are not
        there any more, or were changed since.
        """
        from .lower_bound import gap_of
        return gap_of(self, passes)

    def __getstate__(self) -> None:
        return None


class Problem:
    """The arrays of a call, and its labels, which are a copy of the start.

    Where `narrow` is asked for, costs that lie in at most 32 bits go as 32 bits, and `narrow`
    tells whether they do. `table_of` has for each pair the number of its table in a `smooth` of
    three axes; where it is None, pair n has table n.
    """

    def __init__(self, data: Any, smooth: Any, pairs: Any, label_costs: Any, start: Any,
                 narrow: bool = False, table_of: Any = None) -> None:
        self.given = (data, smooth, pairs, label_costs, table_of)
        tables = [taken(data, "data"), taken(smooth, "smooth"),
                  taken(() if label_costs is None else label_costs, "label_costs")]
        self._look(*tables)
        self.narrow = narrow and is_narrow(tables[0])
        names = ("data", "smooth", "label_costs")
        try:
            code = "i" if self.narrow else "q"
            runs = [run_of(table, code, what) for table, what in zip(tables, names)]
        except OverflowError:
            if not self.narrow:
                raise
            self.narrow = False  # a smooth cost or label cost beyond 32 bits, which is refused
            runs = [run_of(table, "q", what) for table, what in zip(tables, names)]
        self.pairs = run_of_pairs(pairs)
        self.owners = [run.owner for run in runs]
        self.slices = [number for run in runs for number in (run.address, run.length)]
        self.slices += [self.pairs.address, self.pairs.length // 3]
        self.table_of: Any = None  # the number of each pair's table, where pair n has not table n
        if self.has_tables:
            self._add_tables(table_of)
        elif table_of is not None:
            raise ValueError("table_of: a smooth of shape (tables, labels, labels) is wanted beside"
                             f" it, and the shape is {self.smooth_shape}")
        self._start(start)
        self.told = _library.Outcome()

    def _look(self, data, smooth, label_costs):
        """Looks at the shapes: one smooth cost for each two labels, or for each pair and each two
        labels, and data costs by label."""
        self.smooth_shape = shape = _sides(smooth, "smooth", 5)
        self.has_tables = len(shape) == 3
        shape = shape[1:] if self.has_tables else shape
        self.label_count = math.isqrt(shape[0]) if len(shape) == 1 else shape[0]
        if shape not in ((self.label_count ** 2,), (self.label_count,) * 2):
            raise Refused(5, words="smooth: one cost for each two labels is wanted, as of shape"
                          f" {(self.label_count,) * 2}, and not {shape}"
                          + (" of each pair" if self.has_tables else ""))
        if self.label_count == 0:
            raise Refused(3)
        shape = _sides(data, "data", 4)
        wanted = self.label_count
        if (shape[-1] % wanted if len(shape) == 1 else shape[-1] != wanted):
            raise Refused(4, words=f"data: the last axis has {shape[-1]} costs, and smooth says"
                          f" that there are {wanted} labels: the shape is {shape}, and"
                          f" (.., {wanted}) is wanted")
        self.shape = shape[:-1] if len(shape) > 1 else (shape[0] // wanted,)
        costs = _sides(label_costs, "label_costs", 7)
        if costs not in ((0,), (wanted,)):
            raise Refused(7, words=f"label_costs: one cost for each of {wanted} labels is wanted,"
                          f" and the shape is {costs}")

    def _add_tables(self, table_of):
        """Looks at how many tables there are, and at the numbers that pairs have of them."""
        count, tables = self.pairs.length // 3, self.smooth_shape[0]
        self.slices[2:2] = [tables]
        if table_of is not None:
            self._add_numbers(taken(table_of, "table_of"), count)
            return
        if tables != count:
            raise Refused(5, words=f"smooth: one table for each of {count} pairs is wanted, and the"
                          f" shape is {self.smooth_shape}")
        self.slices += [None, 0]

    def _add_numbers(self, table_of, count):
        shape = _sides(table_of, "table_of", 30)
        if shape != (count,):
            raise Refused(30, words=f"table_of: one number for each of {count} pairs is wanted, and"
                          f" the shape is {shape}")
        run = run_of(table_of, "I", "table_of")
        self.table_of = run.owner
        self.slices += [run.address, run.length]

    def _start(self, start):
        self.sites = math.prod(self.shape)
        if start is None:
            self.labels = arrays.zeros(self.sites)
        else:
            start = taken(start, "start")
            shape = shape_of(start, "start")
            if shape not in (self.shape, (self.sites,)):
                raise ValueError(f"start: one label for each of {self.sites:,} sites is wanted, of"
                                 f" shape {self.shape}, and the shape is {shape}")
            self.labels = arrays.copied_labels(start, "start")
        self.at, _ = arrays.run_of_labels(self.labels)

    def site(self, site: int) -> str:
        """A site in the caller's words: a pixel by row and column where the data have them."""
        if len(self.shape) != 2:
            return f"site {site}"
        return "the pixel in row %d, column %d" % divmod(site, self.shape[1])

    def pair(self, place: int) -> Tuple[int, int, int]:
        """The two sites and the weight of a pair."""
        owner = self.pairs.owner
        flat = owner.reshape(-1) if arrays.is_array(owner) else owner
        first, second, weight = (int(flat[3 * place + part]) for part in range(3))
        return first, second, weight

    def _at(self, part, place):
        owner = self.owners[part]
        return int(owner.reshape(-1)[place] if arrays.is_array(owner) else owner[place])

    def _words_of_pair(self, status, place):
        """What is wrong with the table of a pair: it is not there, or costs too much."""
        first, second, weight = self.pair(place)
        table = place if self.table_of is None else int(self.table_of[place])
        if status == 31:
            count = self.smooth_shape[0]
            return f"table_of: the pair of sites {first} and {second} has table {table}: " + (
                f"the tables are 0 to {count - 1}" if count else "there is no table")
        size = self.label_count**2
        most = max(self._at(1, table * size + at) for at in range(size))
        return f"smooth: the pair of sites {first} and {second} costs up to {weight} times" \
            f" {most:,}: a pair costs at most 10,000,000"

    def _words_of_smooth(self, place):
        """The smooth cost at a place that is out of its range."""
        k, cost = self.label_count, f"{self._at(1, place):,}"
        words = f"smooth: labels {place // k % k} and {place % k} cost"
        limit = "a cost of the very pair is from 0 to 10,000,000"
        if self.table_of is not None:
            return f"{words} {cost} in table {place // k**2}: {limit}"
        if self.has_tables:
            first, second, _ = self.pair(place // k**2)
            return f"{words} the pair of sites {first} and {second} {cost}: {limit}"
        return f"{words} {cost}: a smooth cost is from 0 to 10,000"

    def refused(self, status: int) -> Refused:
        """The refusal in the caller's words."""
        told, k, words, sites = self.told, self.label_count, None, None
        place = told.place
        if status in (10, 12, 14, 24):
            first, second, weight = self.pair(place)
            sites = (first, second)
            words = {
                10: f"pairs: the pair of sites {first} and {second}: the sites are 0 to"
                    f" {self.sites - 1}",
                12: f"pairs: a pair joins site {first} to itself",
                14: f"pairs: the pair of sites {first} and {second} has the weight {weight}: a"
                    " weight is from 0 to 1,000",
                24: f"the smooth costs are no metric: {_move(told)} cannot take the pair of sites"
                    f" {first} and {second}: take swaps, or smooth costs that are a metric",
            }[status]
        elif status == 15:
            words = f"data: label {place % k} at {self.site(place // k)} costs" \
                f" {self._at(0, place):,}: a data cost is from 0 to 10,000,000"
        elif status == 16:
            words = self._words_of_smooth(place)
        elif status in (31, 32):
            words, sites = self._words_of_pair(status, place), self.pair(place)[:2]
        elif status == 17:
            words = f"label_costs: label {place} costs {self._at(2, place):,}: a label cost is" \
                " from 0 to 10,000,000"
        elif status == 11:
            words = f"start: {self.site(place)} has label {int(self.labels[place])}: the labels" \
                f" are 0 to {k - 1}"
        elif status == 8:
            words = f"the labels of a move are 0 to {k - 1}"
        return Refused(status, place, told.alpha, told.beta, words=words, sites=sites)

    def call_of(self, name: str) -> Any:
        """The call of the library that takes these arrays, of those whose names begin so."""
        tables, width = "_pairs" if self.has_tables else "", "_int32" if self.narrow else ""
        return getattr(calls, f"{name}{tables}{width}")

    def make(self, call: Any, *numbers: int) -> _library.Outcome:
        """One call of the library over these arrays, or a Refused."""
        status = self.status_of(call, *numbers)
        if status:
            raise self.refused(status)
        return self.told

    def status_of(self, call: Any, *numbers: int) -> int:
        """The status of one call of the library over these arrays."""
        status: int = call(self.label_count, *self.slices, *numbers, self.at, self.sites,
                           ctypes.addressof(self.told))
        return status

    def run_at_once(self, moves: str, cycles: int) -> None:
        """A run by one call of the library, or a Refused. Of no cycle it tells the energy."""
        self.make(self.call_of("gco_label"), MOVES[moves], cycles)

    def energy(self) -> int:
        return self.told.data + self.told.smooth + self.told.label

    def found(self, cycles: int, settled: bool, bound: Optional[Tuple[int, int]] = None) -> Found:
        told, labels = self.told, self.labels
        if arrays.is_array(labels):
            labels = labels.reshape(self.shape)
        found = Found(labels, self.energy(), told.data, told.smooth, told.label, cycles, settled,
                      bound)
        found.given = self.given
        return found

    def found_at_end(self) -> Found:
        """What was found by a run that is at its end."""
        told = self.told
        bound = (told.vmin, told.vmax) if told.vmax else None
        return self.found(told.cycles, bool(told.settled), bound)


def _sides(values, what, status):
    """The shape of a table; rows of several lengths are a Refused of that status."""
    try:
        return shape_of(values, what) or (0,)
    except ValueError as error:
        raise Refused(status, words=str(error)) from None


def _move(told):
    if told.alpha == told.beta:
        return f"an expansion of label {told.alpha}"
    return f"a swap of labels {told.alpha} and {told.beta}"


def label(data: Any, smooth: Any, pairs: Any, *, table_of: Any = None, label_costs: Any = None,
          moves: str = "expansion", cycles: Optional[int] = None, start: Any = None,
          progress: Any = None, stoppable: Optional[bool] = None, scale: bool = False) -> Any:
    """Makes moves from a labelling, 0 everywhere if no `start` is given, until a cycle changes
    nothing or `cycles` are done.

    `data` is an array of shape (.., labels), each cost from 0 to 10,000,000. `smooth` is one of
    shape (labels, labels), each cost from 0 to 10,000; or one of shape (pairs, labels, labels), a
    table for each pair, by the label of its first site and that of its second: then what a pair
    costs, with its weight, is from 0 to 10,000,000. `pairs` are (p, q, weight) or (p, q), the
    weight from 0 to 1,000, and 1 where it is left out. `label_costs` are one for each label from 0
    to 10,000,000, or none. Raises Refused, ValueError for a wrong shape, TypeError for numbers with
    a fraction, and OverflowError for numbers beyond their bits.

    `table_of` lets pairs share tables: `smooth` has then the shape (tables, labels, labels), and
    `table_of` the shape (pairs), for each pair the number of its table, from 0 to tables - 1. A
    pair costs its weight times the entry of that table. Another shape is Refused with the status
    30, a number of no table with 31, and a pair that costs more than 10,000,000 with 32. Beside a
    `smooth` of another number of axes, or `scale`, it is a ValueError.

    `progress` is called about every 0.8 s and at the end: with the cycle (from 1) and the label
    of the last move (of a swap both), how many sites changed since the call before, and the energy.
    Where it answers False the run stops there, not settled. True stands for a bar of tqdm where
    that is there, else for lines on standard error.

    Ctrl-C stops a run that is `stoppable` within about 0.8 s, or after the move that is being
    made: the KeyboardInterrupt has what was found till then as `partial`, which is None before the
    first move. A run is stoppable if it has 65,536 data costs or more, where nothing else is said.

    `scale` lets costs and weights have fractions, and costs be below 0; inf in `data` is a label
    that is never taken. They are shifted and scaled as gco_proved.scaling says, and the answer is a
    Scaled in place of a Found. Energies that `progress` is told are those of the whole numbers.
    """
    if scale:
        if table_of is not None or len(shape_of(taken(smooth, "smooth"), "smooth")) == 3:
            raise ValueError("smooth: costs of each pair are whole numbers: scale and round them"
                             " first, without scale=True")
        from .cuts import label_by_scale
        return label_by_scale(data, smooth, pairs, label_costs, moves=moves, cycles=cycles,
                              start=start, progress=progress, stoppable=stoppable)
    try:
        return _labelled(data, smooth, pairs, table_of, label_costs, moves, cycles, start, progress,
                         stoppable)
    except KeyboardInterrupt as stop:
        stop.partial = getattr(stop, "partial", None)  # type: ignore[attr-defined]
        raise


def _labelled(data, smooth, pairs, table_of, label_costs, moves, cycles, start, progress,
              stoppable):
    """label, by one call of the library or by stretches."""
    if moves not in MOVES:
        raise ValueError(f"moves: expansion or swap is wanted, and not {moves!r}")
    allowed = ALL_CYCLES if cycles is None else whole(cycles, 0, ALL_CYCLES, "cycles")
    problem = Problem(data, smooth, pairs, label_costs, start, narrow=True, table_of=table_of)
    if stoppable is None:
        stoppable = _stops(problem)
    if progress is None and not stoppable:
        problem.run_at_once(moves, allowed)
        return problem.found_at_end()
    step = bar(problem.label_count, moves) if progress is True else progress
    return run(problem, moves, allowed, step)


def _stops(problem):
    """Whether a run is to be stopped by Ctrl-C: it is long, and this thread is told of it."""
    return (problem.sites * problem.label_count >= LONG
            and threading.current_thread() is threading.main_thread()
            and callable(signal.getsignal(signal.SIGINT)))


def expand(data: Any, smooth: Any, pairs: Any, alpha: int, *, table_of: Any = None,
           label_costs: Any = None, start: Any = None) -> Found:
    """One move: every site keeps its label or takes `alpha`. `settled`: nothing changed. The
    arrays are those of `label`."""
    problem = Problem(data, smooth, pairs, label_costs, start, narrow=True, table_of=table_of)
    told = problem.make(problem.call_of("gco_expand"), whole(alpha, 0, 2**32 - 1, "alpha"))
    return problem.found(0, not told.changed)


def swap(data: Any, smooth: Any, pairs: Any, alpha: int, beta: int, *, table_of: Any = None,
         start: Any = None) -> Found:
    """One move: every site that has `alpha` or `beta` takes either. `settled`: nothing changed. The
    arrays are those of `label`."""
    problem = Problem(data, smooth, pairs, None, start, narrow=True, table_of=table_of)
    told = problem.make(problem.call_of("gco_swap"), whole(alpha, 0, 2**32 - 1, "alpha"),
                        whole(beta, 0, 2**32 - 1, "beta"))
    return problem.found(0, not told.changed)


def potts(label_count: int, cost: int = 1) -> Any:
    """The table that costs nothing for one label and so much for two."""
    return [[0 if a == b else cost for b in range(label_count)] for a in range(label_count)]


def linear(label_count: int, trunc: int = 10000) -> Any:
    """The table of how far two labels are apart, or `trunc` where that is less."""
    return [[min(abs(a - b), trunc) for b in range(label_count)] for a in range(label_count)]


def quadratic(label_count: int, trunc: int = 10000) -> Any:
    """The table of the square of how far two labels are apart, or `trunc` where that is less."""
    return [[min((a - b) ** 2, trunc) for b in range(label_count)] for a in range(label_count)]
