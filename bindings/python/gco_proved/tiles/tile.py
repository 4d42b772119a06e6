"""What a worker does with one tile: its cheapest labels, its energy, and its run."""
from typing import Any, List, NamedTuple, Optional, Tuple

from .. import arrays, labelling
from .._library import DATA_LIMIT, PAIR_LIMIT, SITE_LIMIT
from ..refusals import Refused
from . import costs
from .boxes import Box, Shape, sides_of_box, within
from .problem import Full, Masked, data_energy, energy_of, pair_energy, problem_of


class Task(NamedTuple):
    """A tile, and all that its worker reads: it can be pickled.

    `window` is the tile and the sites beside it, and `labels` are those of the window. `free` is an
    array of yes and no of the tile, or None where all of it is free.
    """

    box: Box
    window: Box
    labels: Any
    free: Any
    data: Any
    weights: Any
    smooth: Any
    offsets: List[Shape]
    moves: str
    cycles: Optional[int]


class Answer(NamedTuple):
    """The labels of a tile after its run, or None where they are as they were; by how much the
    data costs and those of pairs rose, together at most 0; and whether the run settled."""

    labels: Any
    data: int
    smooth: int
    settled: bool


def data_of(task: Task) -> Any:
    """The data costs of the tile, (.., labels)."""
    return costs.costs_read(task.data, task.box, sides_of_box(task.box), len(task.smooth))


def _rows_of(task: Task) -> Any:
    """The data costs of the free sites, a row each."""
    if task.free is None:
        return data_of(task).reshape(-1, len(task.smooth))
    return costs.rows_read(task.data, task.free, task.box, sides_of_box(task.box),
                           len(task.smooth))


def cheapest(task: Task) -> Tuple[Any, int]:
    """The cheapest label of each site of the tile, the first of several, and what they cost."""
    numpy, data = arrays.numpy, data_of(task)
    return data.argmin(axis=-1).astype(numpy.uint8), int(data.min(axis=-1).sum(dtype=numpy.int64))


def _look_at_labels(task: Task) -> None:
    numpy = arrays.numpy
    if task.labels.size and not 0 <= task.labels.min() <= task.labels.max() < len(task.smooth):
        wrong = numpy.argwhere((task.labels < 0) | (task.labels >= len(task.smooth)))[0].tolist()
        site = tuple(part.start + at for part, at in zip(task.window, wrong))
        raise Refused(11, words=f"start: {site} has label {int(task.labels[tuple(wrong)])}: the"
                      f" labels are 0 to {len(task.smooth) - 1}")


def energy(task: Task) -> Tuple[int, int]:
    """The data costs of the tile's sites, 0 where the task has none; and those of pairs whose lower
    corner is one of the sites."""
    _look_at_labels(task)
    inside = within(task.box, task.window)
    data = 0 if task.data is None else data_energy(data_of(task), task.labels[inside])
    least, most = task.labels.min(), task.labels.max()
    if least == most and task.smooth[least, least] == 0:  # no pair costs anything
        return data, 0
    weights = costs.weights_read(task.weights, task.window, task.labels.shape, task.offsets)
    return data, pair_energy(weights, task.offsets, task.smooth, task.labels, inside)


def run(task: Task) -> Answer:
    """The run of a tile: moves from the labels that stand there, all other sites fixed."""
    numpy = arrays.numpy
    _look_at_labels(task)
    free: Any = Full(task.box, task.window) if task.free is None else \
        Masked(task.free, task.box, task.window)
    rows = _rows_of(task)
    weights = costs.weights_read(task.weights, task.window, task.labels.shape, task.offsets)
    problem = problem_of(rows, free, task.labels, weights, task.offsets, task.smooth)
    _look_at_size(problem)
    start = free.labels_of(task.labels).astype(numpy.uint32)
    begun = numpy.concatenate([start, problem.pinned])
    found = _found(task, free, problem, begun)
    after = found.labels[:problem.sites]
    if numpy.array_equal(after, start):
        return Answer(None, 0, 0, found.settled)
    rise = found.energy - energy_of(problem, task.smooth, begun)
    data = data_energy(rows, after) - data_energy(rows, start)
    labels = task.labels.copy()
    free.write(labels, after)
    labels = labels[within(task.box, task.window)].astype(numpy.uint8)
    return Answer(labels, data, rise - data, found.settled)


def _look_at_size(problem):
    """One problem may have no room for what stands for the fixed sites around a large tile."""
    sites, pairs = len(problem.data), len(problem.pairs)
    if sites > SITE_LIMIT or pairs > PAIR_LIMIT:
        raise Refused(2 if sites > SITE_LIMIT else 13, words=f"tile: some data costs come near"
                      f" {DATA_LIMIT:,}, so {len(problem.pinned):,} sites stand for those around a"
                      f" tile, beside its own {problem.sites:,}: take a smaller tile")


def _found(task, free, problem, start):
    """The library's run. A move that cannot be made is told by the pair's places in the grid."""
    try:
        return labelling.label(problem.data, task.smooth, problem.pairs, moves=task.moves,
                               cycles=task.cycles, start=start)
    except Refused as refused:
        if refused.status != 24 or refused.sites is None:
            raise
        first, second = (free.site(site) for site in refused.sites if site < free.count)
        move = f"an expansion of label {refused.alpha}" if refused.alpha == refused.beta else \
            f"a swap of labels {refused.alpha} and {refused.beta}"
        raise Refused(24, refused.place, refused.alpha, refused.beta,
                      words=f"the smooth costs are no metric: {move} cannot take the pair of the"
                      f" sites {first} and {second}: take swaps, or smooth costs that are a metric"
                      ) from None
