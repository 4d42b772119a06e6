"""gco_proved.tiles against the definitions tried in every case, from each kind of costs and each engine."""
import concurrent.futures
import contextlib
import functools
import itertools
import logging
import multiprocessing
import os
import pathlib
import random
import shutil
import signal
import subprocess
import sys
import tempfile
import threading
import time

import gco_proved as gco
from definitions import Problem
from refusing import refused

np = gco.arrays.numpy
if np is None:
    print("gco_proved.tiles: numpy is missing, not tried (Debian: apt-get install python3-numpy)")
    sys.exit(0)
from gco_proved.tiles import WorkerDied, boxes, label_tiles, lower_bound_tiles, sweeps as of_tiles  # noqa: E402

STEPS = {(2, 4): [(0, 1), (1, 0)], (2, 8): [(0, 1), (1, 0), (1, 1), (1, -1)], (3, 6): [(0, 0, 1), (0, 1, 0), (1, 0, 0)],
         (3, 26): [step for step in itertools.product((-1, 0, 1), repeat=3) if step > (0, 0, 0)]}


def pairs_of(shape, steps, weights):
    """The pairs of a grid, site by site, with the weight that stands at the least corner of the two."""
    places = list(itertools.product(*map(range, shape)))
    number = {place: at for at, place in enumerate(places)}
    pairs = []
    for step, table in zip(steps, weights):
        for place in places:
            other = tuple(map(sum, zip(place, step)))
            if other in number:
                corner = tuple(map(min, zip(place, other)))
                pairs.append((number[place], number[other], int(table if np.ndim(table) == 0 else table[corner])))
    return pairs


def tiles_of(shape, tile, overlap):
    """The sites of each tile, of both kinds of sweep: numbered from 0, and shifted by half a side."""
    for shifted in (False, True):
        axes = []
        for side, most in zip(tile, shape):
            move = side // 2 if shifted and side < most else 0
            begins = range(move - side if move else 0, most, side)
            axes.append([range(max(begin - overlap, 0) if begin > 0 else 0, min(begin + side + overlap, most)) for begin in begins])
        for ranges in itertools.product(*axes):
            yield [sum(at * int(np.prod(shape[axis + 1:])) for axis, at in enumerate(place)) for place in itertools.product(*ranges)]


def lowered(problem, moves, labels, free):
    """A labelling of less energy that a move of the free sites alone reaches, all of them tried; None where there is none."""
    before = problem.energy(labels)
    for move in problem.order(moves):
        for bits in itertools.product((0, 1), repeat=len(free)):
            moved = list(labels)
            for site, bit in zip(free, bits):
                moved[site] = problem.label_in(move, labels[site], bit)
            if problem.energy(moved) < before:
                return moved
    return None


def lowers(problem, moves, labels, free):
    return lowered(problem, moves, labels, free) is not None


def at_rest(problem, moves, labels, tiles):
    """Where a descent ends that moves one tile at a time, by the definitions: no move over any of the tiles lowers the energy."""
    at = 0
    while at < len(tiles):
        moved = lowered(problem, moves, labels, tiles[at])
        labels, at = (labels, at + 1) if moved is None else (moved, 0)
    return labels


def costs_of(rng, shape, steps, count):
    """Random data, smooth costs and weights: small ones, and such as reach the limits."""
    great = rng.random() < 0.3
    data = np.array([rng.choice([0, 1, 10**7, 10**7 - 1]) if great else rng.randrange(12) for _ in range(int(np.prod(shape)) * count)])
    kind = rng.choice(["potts", "linear", "uneven"])
    smooth = np.array(gco.potts(count) if kind == "potts" else gco.linear(count, 2))
    if great:
        smooth = smooth * (10000 // max(int(smooth.max()), 1))
    if kind == "uneven" and count == 2:
        smooth = np.array([[0, 3], [5, 0]])
    weights = [np.array([rng.choice([0, 1000, 999] if great else [0, 1, 2, 5]) for _ in range(int(np.prod(sides)))], dtype=int).reshape(sides)
               for sides in ([max(side - abs(move), 0) for side, move in zip(shape, step)] for step in steps)]
    return data.reshape(*shape, count), smooth, rng.choice([weights, 1000 if great else rng.randrange(4)])


def random_grids(turns):
    rng = random.Random(75)
    fixed = pinned = alone = 0
    for _ in range(turns):
        dimensions = rng.choice([2, 2, 3])
        shape = tuple(rng.randrange(1, 6 if dimensions == 2 else 4) for _ in range(dimensions))
        connect = rng.choice([2 * dimensions, 8 if dimensions == 2 else 26])
        steps = STEPS[dimensions, connect]
        count = rng.randrange(1, 4)
        data, smooth, weights = costs_of(rng, shape, steps, count)
        even = isinstance(weights, int)
        problem = Problem(data.reshape(-1, count).tolist(), smooth.tolist(), pairs_of(shape, steps, [weights] * len(steps) if even else weights), [])
        tile = tuple(rng.randrange(1, most + 1) for most in shape)
        overlap = rng.randrange(0, 2) if all(side > 2 or side == most for side, most in zip(tile, shape)) else 0
        moves = rng.choice(["expansion", "expansion", "swap"])
        start = np.array([rng.randrange(count) for _ in range(int(np.prod(shape)))]).reshape(shape)
        found = label_tiles(data, smooth, weights, tile=tile, overlap=overlap, connect=connect, moves=moves, start=start)
        labels = found.labels.reshape(-1).tolist()
        assert found.energies[0] == problem.energy(start.reshape(-1).tolist()), (shape, tile)
        assert all(later <= before for before, later in zip(found.energies, found.energies[1:]))
        assert (found.data, found.smooth, 0) == problem.parts(labels), (found, problem.parts(labels))
        assert found.energy == found.energies[-1] == found.data + found.smooth
        assert found.settled and found.labels.shape == shape
        tiles = list(tiles_of(shape, tile, overlap))
        for free in tiles:
            if len(free) <= 6:
                assert not lowers(problem, moves, labels, free), (shape, tile, free)
                fixed += 1
        again = label_tiles(data, smooth, weights, tile=tile, overlap=overlap, connect=connect, moves=moves, start=found.labels)
        assert (again.labels == found.labels).all() and set(again.energies) == {found.energy}
        # what a run over the whole leaves as it is, one by tiles leaves too
        whole = gco.label(data, smooth, np.array(problem.pairs).reshape(-1, 3), moves=moves, start=start)
        kept = label_tiles(data, smooth, weights, tile=tile, overlap=overlap, connect=connect, moves=moves, start=whole.labels)
        assert whole.settled and kept.settled and (kept.labels == whole.labels).all() and set(kept.energies) == {whole.energy}
        if tile == shape:
            assert (whole.labels == found.labels).all() and whole.energy == found.energy
            alone += 1
        pinned += int(data.max(initial=0) >= 10**7 - 1)
    assert fixed > 1000 and pinned > turns // 6 and alone > 10, (fixed, pinned, alone)
    return f"{turns} random grids, {fixed} tiles against every labelling"


def fixed_points(turns):
    """What no run over one tile changes, by the definitions, the run leaves as it is: its labels and its energy, in no sweep that lowers it."""
    rng = random.Random(76)
    three = moved = 0
    for _ in range(turns):
        dimensions = rng.choice([2, 3])
        shape = tuple(rng.randrange(1, 5 if dimensions == 2 else 3) for _ in range(dimensions))
        tile = tuple(rng.randrange(1, min(most, 2) + 1) for most in shape)
        connect = rng.choice([2 * dimensions, 8 if dimensions == 2 else 26])
        moves, count = rng.choice(["expansion", "swap"]), rng.randrange(2, 4)
        data, smooth, weights = costs_of(rng, shape, STEPS[dimensions, connect], count)
        pairs = pairs_of(shape, STEPS[dimensions, connect], [weights] * len(STEPS[dimensions, connect]) if isinstance(weights, int) else weights)
        problem = Problem(data.reshape(-1, count).tolist(), smooth.tolist(), pairs, [])
        begun = [rng.randrange(count) for _ in range(problem.sites)]
        rest = at_rest(problem, moves, begun, list(tiles_of(shape, tile, 0)))
        start = np.array(rest).reshape(shape)
        found = label_tiles(data, smooth, weights, tile=tile, connect=connect, moves=moves, start=start)
        assert found.settled and (found.labels == start).all() and set(found.energies) == {problem.energy(rest)}, (shape, tile, connect)
        three += dimensions == 3
        moved += rest != begun
    assert three > turns // 4 and moved > turns // 2, (three, moved)
    return f"{turns} fixed points"


def pictures_of(side, count, seed=3):
    """A picture of squares with noise as data costs."""
    rng = np.random.default_rng(seed)
    grey = (np.add.outer(np.arange(side) // 9, np.arange(side) // 13) * 3 % count + rng.normal(0, count / 6, (side, side))).clip(0, count - 1)
    return abs(grey.astype(int)[..., None] - np.arange(count)).astype(np.int32)


DATA, SMOOTH, TILE = pictures_of(60, 6), gco.linear(6, 2), (16, 11)
WEIGHTS = [np.random.default_rng(5).integers(0, 3, (60, 59)), np.random.default_rng(6).integers(0, 3, (59, 60))]


def data_of(box):
    """The costs of a box, made by a function that a process can be told by name."""
    return DATA[box]


def weights_of(box):
    rows, columns = box
    return [WEIGHTS[0][rows, columns.start:columns.stop - 1], WEIGHTS[1][rows.start:rows.stop - 1, columns]]


def wanted():
    return label_tiles(DATA, SMOOTH, WEIGHTS, tile=TILE)


def near_the_whole():
    """Against one problem of the whole: as good a labelling, by another way."""
    data, smooth = pictures_of(150, 8), gco.linear(8, 3)
    whole = gco.label(data, smooth, gco.grid_pairs(150, 150))
    for tile in ((150, 150), (64, 64), (40, 25)):
        found = label_tiles(data, smooth, tile=tile)
        assert found.settled and found.energy <= 1.001 * whole.energy, (tile, found.energies, whole.energy)
        assert found.energy == gco.label(data, smooth, gco.grid_pairs(150, 150), start=found.labels, cycles=0).energy
    # a start by hand: the cheapest label of each site, the first of several; sides as numbers of numpy
    assert (label_tiles(data, smooth, tile=np.array([40, 25])).labels == found.labels).all() and label_tiles(data, smooth, tile=np.int64(64), sweeps=1).labels.any()
    found = label_tiles(data, smooth, sweeps=0)
    assert (found.labels == data.argmin(axis=-1)).all() and not found.settled and found.energies == [found.energy]
    # one cycle a tile and two sweeps: what is left is due
    short = label_tiles(data, smooth, tile=40, sweeps=2, cycles=1)
    assert len(short.energies) == 3 and not short.settled and short.energy < short.energies[0]
    # a sweep that gains less than a tenth is the last
    early = label_tiles(data, smooth, tile=40, least_gain=0.1)
    gains = [1 - later / before for before, later in zip(early.energies, early.energies[1:])]
    assert gains[-1] < 0.1 and all(gain >= 0.1 for gain in gains[:-1]) and not early.settled


def near_the_whole_volume():
    """Against one problem of a volume, in tiles that cut each axis, and by the energy of one call."""
    rng = np.random.default_rng(8)
    clean = (np.indices((24, 40, 32)) // 8).sum(axis=0) % 3
    grey = np.where(rng.random(clean.shape) < 0.3, rng.integers(0, 3, clean.shape), clean)
    data = 4 * abs(grey[..., None] - np.arange(3)).astype(np.int32)
    pairs = np.array(pairs_of(clean.shape, STEPS[3, 6], [2, 2, 2]))
    whole = gco.label(data, gco.potts(3), pairs)
    for tile in ((9, 16, 16), (24, 10, 32)):
        found = label_tiles(data, gco.potts(3), 2, tile=tile)
        assert found.settled and found.energy <= 1.001 * whole.energy, (found.energies, whole.energy)
        assert found.energy == gco.label(data, gco.potts(3), pairs, start=found.labels, cycles=0).energy


def kinds_of_costs(folder):
    found = wanted()
    tried = ["numpy"]

    def alike(name, data, weights=WEIGHTS, **more):
        other = label_tiles(data, SMOOTH, weights, tile=TILE, **more)
        assert other.energies == found.energies and (np.asarray(other.labels) == found.labels).all(), name
        tried.append(name)
        return other

    np.save(folder / "data.npy", DATA.astype(np.uint8))
    mapped = np.load(folder / "data.npy", mmap_mode="r")
    out = np.lib.format.open_memmap(folder / "labels.npy", "w+", np.uint8, (60, 60))
    assert alike("a memory map", mapped, out=out).labels is out
    assert (np.load(folder / "labels.npy") == found.labels).all()
    alike("a memory map by columns", np.asfortranarray(DATA), [np.asfortranarray(table) for table in WEIGHTS])
    alike("a part of a memory map", np.concatenate([DATA, DATA])[60:], executor=2)
    alike("a function", data_of, weights_of, shape=(60, 60))
    alike("lists", DATA.tolist(), [table.tolist() for table in WEIGHTS])
    try:
        import zarr
    except ImportError:
        print("zarr is missing, not tried (Debian: apt-get install python3-zarr)")
    else:
        kept = zarr.open(str(folder / "data.zarr"), "w", shape=DATA.shape, chunks=(20, 20, 6), dtype="i4")
        kept[:] = DATA
        out = zarr.open(str(folder / "labels.zarr"), "w", shape=(60, 60), chunks=(20, 20), dtype="u1")
        alike("zarr", kept, out=out, executor=2)
        assert (zarr.open(str(folder / "labels.zarr"), "r")[:] == found.labels).all()
        alike("zarr in memory", zarr.array(DATA), executor=2)
    try:
        import dask.array
    except ImportError:
        print("dask is missing, not tried (Debian: apt-get install python3-dask)")
    else:
        alike("dask.array", dask.array.from_array(DATA, chunks=(20, 30, 6)))
        alike("dask.array, by processes", dask.array.from_array(DATA, chunks=(20, 30, 6)), executor=2)
    return "costs from " + ", ".join(tried)


def volumes(folder):
    """Three axes, and each argument as an array of each kind, by as many processes: the labels of arrays in memory."""
    rng = np.random.default_rng(4)
    shape, tile = (8, 9, 7), (4, 5, 4)
    data, start, free = rng.integers(0, 9, (*shape, 3)).astype(np.int32), rng.integers(0, 3, shape).astype(np.uint8), rng.random(shape) < 0.6
    weights = [rng.integers(0, 4, [side - step for side, step in zip(shape, offset)]) for offset in STEPS[3, 6]]
    found = label_tiles(data, gco.potts(3), weights, tile=tile, start=start, free=free)
    low = lower_bound_tiles(data, gco.potts(3), weights, tile=tile)
    assert low <= found.energy < found.energies[0] and (found.labels[~free] == start[~free]).all()
    tried = []
    for name, made in kinds_of_arrays(folder):
        for executor in (None, 2):
            of = [made(f"{place}", table) for place, table in enumerate([data, *weights, start, free])]
            out = None if name == "dask.array" else made("out", np.zeros(shape, np.uint8))
            other = label_tiles(of[0], gco.potts(3), of[1:4], tile=tile, start=of[4], free=of[5], out=out, executor=executor)
            assert other.energies == found.energies and np.asarray(other.labels).tobytes() == found.labels.tobytes(), (name, executor)
            assert out is None or other.labels is out
            assert lower_bound_tiles(of[0], gco.potts(3), of[1:4], tile=tile, executor=executor) == low, (name, executor)
        if out is not None:  # another run goes on from the same array, which is at rest
            again = label_tiles(of[0], gco.potts(3), of[1:4], tile=tile, start=out, free=of[5], out=out)
            assert set(again.energies) == {found.energy} and again.settled
        tried.append(name)
    return "volumes from " + ", ".join(tried)


def kinds_of_arrays(folder):
    """The kinds of arrays that are there: a name, and a function that makes one of a name and of an array in memory."""
    def mapped(name, table):
        made = np.lib.format.open_memmap(folder / f"{name}.npy", "w+", table.dtype, table.shape)
        made[:] = table
        return made

    def chunks(table):
        return (5, 4, 6, 3)[:table.ndim]

    def by_zarr(name, table):
        made = zarr.open(str(folder / f"{name}.zarr"), "w", shape=table.shape, chunks=chunks(table), dtype=table.dtype)
        made[:] = table
        return made

    yield "memory maps", mapped
    try:
        import zarr
        yield "zarr", by_zarr
    except ImportError:
        pass
    try:
        import dask.array
        yield "dask.array", lambda name, table: dask.array.from_array(table, chunks=chunks(table))
    except ImportError:
        pass


def dies_once(marker, box):
    """The costs of a box; the process that is asked first for the middle of the picture dies of it."""
    if box[0].start <= 30 < box[0].stop and multiprocessing.parent_process() is not None and not os.path.exists(marker):
        pathlib.Path(marker).touch()
        os.kill(os.getpid(), signal.SIGKILL)
    return DATA[box]


def wide_and_dies(marker, box):
    """The costs of a wide grid; the process that is asked first dies of it."""
    if multiprocessing.parent_process() is not None and not os.path.exists(marker):
        pathlib.Path(marker).touch()
        os.kill(os.getpid(), signal.SIGKILL)
    rows, columns = np.ogrid[box]
    return abs((rows // 9 + columns // 13 + (rows * 7919 + columns * 104729) % 11 // 10)[..., None] % 2 - np.arange(2))


def dead_over_large_tasks(folder):
    """A worker that dies while tasks of a megabyte are on their way."""
    weights = [np.full((400, 399), 1), np.full((399, 400), 1)]
    whole = label_tiles(functools.partial(wide_and_dies, str(folder)), gco.potts(2), weights, shape=(400, 400), tile=200)
    marker = folder / "died over a large task"
    found = label_tiles(functools.partial(wide_and_dies, str(marker)), gco.potts(2), weights, shape=(400, 400), tile=200, executor=2)
    assert marker.exists() and found.energies == whole.energies and (found.labels == whole.labels).all()


def named(side):
    """What the processes of an executor call first."""
    os.environ["GCO_TEST_SIDE"] = side


def named_and_dies_once(marker, box):
    """The costs of a box, in processes that were begun by `named` alone; one of them dies, of either engine."""
    if multiprocessing.parent_process() is not None:
        assert os.environ["GCO_TEST_SIDE"] == "60"
    return dies_once(marker, box)


def always_dies(box):
    if multiprocessing.parent_process() is not None:
        os.kill(os.getpid(), signal.SIGKILL)
    return DATA[box]


@contextlib.contextmanager
def dask_client():
    """A client of two workers on this machine, or None, which is said."""
    try:
        import distributed
    except ImportError:
        print("distributed is missing, not tried (Debian: apt-get install python3-distributed)")
        yield None
        return
    for name in ("distributed", "distributed.client"):
        logging.getLogger(name).setLevel(logging.CRITICAL)
    with distributed.LocalCluster(n_workers=2, threads_per_worker=1, dashboard_address=None) as cluster, distributed.Client(cluster) as client:
        yield client


def engines(folder, client):
    found = wanted()

    def alike(name, executor, data=DATA, weights=WEIGHTS, **more):
        other = label_tiles(data, SMOOTH, weights, tile=TILE, executor=executor, **more)
        assert other.energies == found.energies and other.labels.tobytes() == found.labels.tobytes(), name

    with concurrent.futures.ThreadPoolExecutor(3) as pool:
        alike("threads", pool)
    with concurrent.futures.ProcessPoolExecutor(2) as pool:
        alike("processes", pool)
        alike("processes again", pool, data_of, shape=(60, 60))
    alike("its own processes", 3)
    # a worker that dies: its own processes are made anew
    alike("a dead worker", 2, functools.partial(dies_once, str(folder / "died")), shape=(60, 60))
    assert (folder / "died").exists()
    refused(WorkerDied, label_tiles, always_dies, SMOOTH, WEIGHTS, tile=60, shape=(60, 60), executor=2, says="a worker died 3 times")
    dead_over_large_tasks(folder)
    # and those of an executor that is given, of processes that are begun as its own were
    for context, begun in itertools.product(("fork", "spawn"), ("once", "always")):
        marker = folder / f"died of {context}, {begun}"
        words = dict(mp_context=multiprocessing.get_context(context), initializer=named, initargs=("60",))
        with concurrent.futures.ProcessPoolExecutor(2, **words) as pool:
            if begun == "once":
                alike(marker.name, pool, functools.partial(named_and_dies_once, str(marker)), shape=(60, 60))
                assert marker.exists()
            else:
                refused(WorkerDied, label_tiles, always_dies, SMOOTH, WEIGHTS, tile=60, shape=(60, 60), executor=pool, says="a worker died 3 times")
    refused(TypeError, label_tiles, DATA, SMOOTH, executor="four", says="executor: None, a number of processes")
    if client is None:
        return "engines: threads, processes"
    alike("Dask", client)
    alike("Dask, a function", client, data_of, shape=(60, 60))
    alike("Dask, a dead worker", client, functools.partial(dies_once, str(folder / "died on Dask")), shape=(60, 60))
    assert (folder / "died on Dask").exists()
    import dask.array
    data, *weights = (dask.array.from_array(table, chunks=chunks) for table, chunks in ((DATA, (20, 30, 6)), (WEIGHTS[0], (20, 30)), (WEIGHTS[1], (30, 20))))
    for kept in ("graphs", "blocks on the cluster"):
        if kept != "graphs":
            data, *weights = client.persist([data, *weights])
        alike(f"Dask over dask.array, {kept}", client, data)
        alike(f"Dask over dask.array, weights too, {kept}", client, data, weights)
        low = lower_bound_tiles(data, SMOOTH, weights, tile=TILE, executor=client)
        assert low == lower_bound_tiles(DATA, SMOOTH, WEIGHTS, tile=TILE), kept
    # a volume, whose start and free sites lie on the cluster too
    rng = np.random.default_rng(9)
    costs, start, free = rng.integers(0, 9, (8, 9, 7, 3)), rng.integers(0, 3, (8, 9, 7)), rng.random((8, 9, 7)) < 0.6
    words = dict(connect=26, tile=(4, 5, 4), weights=2, smooth=gco.potts(3))
    alone = label_tiles(costs, start=start, free=free, **words)
    costs, start, free = client.persist([dask.array.from_array(table, chunks=(5, 4, 6, 3)[:table.ndim]) for table in (costs, start, free)])
    other = label_tiles(costs, start=start, free=free, executor=client, **words)
    assert other.energies == alone.energies and other.labels.tobytes() == alone.labels.tobytes()
    return "engines: threads, processes, Dask, and each with a dead worker"


def stops(folder, client):
    """A run that is stopped goes on from what is on the disk."""
    found = wanted()
    out = np.lib.format.open_memmap(folder / "stopped.npy", "w+", np.uint8, (60, 60))
    told = []

    def three(sweep, done, tiles, energy):
        told.append((sweep, done, tiles, energy))
        return len(told) < 3

    part = label_tiles(DATA, SMOOTH, WEIGHTS, tile=TILE, out=out, progress=three)
    assert len(told) == 3 and not part.settled and part.labels is out
    assert [(sweep, done) for sweep, done, _, _ in told] == [(1, 1), (1, 2), (1, 3)] and {tiles for _, _, tiles, _ in told} == {24}
    energies = [energy for _, _, _, energy in told]
    assert energies == sorted(energies, reverse=True) and part.energy == energies[-1] < found.energies[0]
    del out
    out = np.load(folder / "stopped.npy", mmap_mode="r+")
    rest = label_tiles(DATA, SMOOTH, WEIGHTS, tile=TILE, start=out, out=out)
    assert rest.energies[0] == part.energy and rest.settled and rest.energy <= 1.001 * found.energy

    for kind, made in kinds_of_arrays(folder):
        if kind != "dask.array":
            killed(made("killed", np.zeros((60, 60), np.uint8)), folder / "killed")

    def ctrl_c(sweep, done, tiles, energy):
        if done == 5:
            os.kill(os.getpid(), signal.SIGINT)
        told.append(energy)

    with contextlib.ExitStack() as open_till_then:
        executors = [None, 2] if client is None else [None, 2, client]
        for kind in (concurrent.futures.ThreadPoolExecutor, concurrent.futures.ProcessPoolExecutor):
            executors.append(open_till_then.enter_context(kind(2)))
        for executor in executors:
            told.clear()
            try:
                label_tiles(DATA, SMOOTH, WEIGHTS, tile=TILE, progress=ctrl_c, executor=executor)
            except KeyboardInterrupt as stop:
                kept = stop.partial
                check = label_tiles(DATA, SMOOTH, WEIGHTS, start=kept.labels, sweeps=0)
                assert kept.energy == check.energy < found.energies[0] and not kept.settled, executor
            else:
                raise AssertionError("no KeyboardInterrupt")
            if executor is not None:  # it serves the next run
                assert label_tiles(DATA, SMOOTH, WEIGHTS, tile=TILE, executor=executor).energies == found.energies, executor


def run_and_die(out, executor):
    """A run whose process is killed after nine tiles."""
    def step(sweep, done, tiles, energy):
        if done == 9:
            os.kill(os.getpid(), signal.SIGKILL)

    label_tiles(DATA, SMOOTH, WEIGHTS, tile=TILE, out=opened(out), progress=step, executor=executor)


def opened(path):
    """An array on the disk, to be written to."""
    if path.endswith(".npy"):
        return np.load(path, mmap_mode="r+")
    import zarr
    return zarr.open(path, "r+")


def killed(out, path):
    """A run whose process is killed: its own processes end, and another run goes on from what is on the disk."""
    path = f"{path}.npy" if isinstance(out, np.memmap) else f"{path}.zarr"
    whole = wanted()
    for executor in (1, 2):
        out[...] = 0
        # the pipe is at its end when the last process that holds it has ended
        run = subprocess.run([sys.executable, __file__, "--run-and-die", path, str(executor)], stdout=subprocess.PIPE, stderr=subprocess.DEVNULL, timeout=120)
        assert run.returncode == -signal.SIGKILL, run.returncode
        out = opened(path)
        rest = label_tiles(DATA, SMOOTH, WEIGHTS, tile=TILE, start=out, out=out)
        assert whole.energy < rest.energies[0] < whole.energies[0] and rest.settled and rest.energy <= 1.001 * whole.energy


def slow(box):
    """Costs of 256 labels over which a tile's run takes long: noise, so that no label settles early."""
    rows, columns = np.ogrid[box]
    grey = (rows * 7919 + columns * 104729 + rows * columns * 31) % 256
    return abs(grey[..., None] - np.arange(256)).astype(np.int32)


def stops_soon():
    """Ctrl-C does not wait for the tiles at work, in turn or by processes."""
    for executor in (None, 2):
        sent = []

        def ctrl_c():
            sent.append(time.monotonic())
            os.kill(os.getpid(), signal.SIGINT)

        timer = threading.Timer(1.5, ctrl_c)
        try:
            timer.start()
            label_tiles(slow, gco.linear(256, 200), 40, shape=(1024, 1024), tile=512, start=np.zeros((1024, 1024), np.uint8), cycles=None,
                        executor=executor)
        except KeyboardInterrupt as stop:
            spent = time.monotonic() - sent[0]
            assert stop.partial is None or not stop.partial.settled
            assert spent < 10, (executor, spent)
        else:
            raise AssertionError("no KeyboardInterrupt")
        finally:
            timer.cancel()


def free_sites():
    """Sites that are not free keep their labels, and the others are as good as they can be."""
    rng = random.Random(9)
    for _ in range(60):
        data = np.array([rng.randrange(9) for _ in range(60)]).reshape(4, 5, 3)
        free = np.array([rng.random() < 0.3 for _ in range(20)]).reshape(4, 5)
        start = np.array([rng.randrange(3) for _ in range(20)]).reshape(4, 5)
        found = label_tiles(data, gco.potts(3), 2, free=free, start=start, tile=rng.choice([2, 3, 5]))
        assert (found.labels[~free] == start[~free]).all() and found.settled
        problem = Problem(data.reshape(-1, 3).tolist(), gco.potts(3), pairs_of((4, 5), STEPS[2, 4], [2, 2]), [])
        assert found.energy == problem.energy(found.labels.reshape(-1).tolist())
        whole = label_tiles(data, gco.potts(3), 2, free=free, start=start)
        if free.sum() <= 8:
            assert not lowers(problem, "expansion", whole.labels.reshape(-1).tolist(), np.flatnonzero(free).tolist())
    kept = label_tiles(DATA, SMOOTH, WEIGHTS, free=np.zeros((60, 60), bool), start=np.zeros((60, 60), int), tile=TILE)
    assert kept.settled and not kept.labels.any() and len(kept.energies) == 1


def free_in_a_wide_box():
    """Free sites that lie far apart go by tiles: no box is read that holds them all."""
    asked = []

    def costs(box):
        asked.append(max(part.stop - part.start for part in box))
        return DATA[box]

    free = np.zeros((60, 60), bool)
    free[:5, :5] = free[-5:, -5:] = True
    words = dict(shape=(60, 60), start=np.zeros((60, 60), int), free=free)
    usual, wide = boxes.USUAL, of_tiles.WIDE
    boxes.USUAL = {2: (20, 20)}
    try:
        together = label_tiles(costs, SMOOTH, WEIGHTS, **words)
        assert max(asked) == 60
        asked.clear()
        of_tiles.WIDE = 60 * 60 - 1
        apart = label_tiles(costs, SMOOTH, WEIGHTS, **words)
        assert max(asked) == 20 and (apart.labels == together.labels).all() and apart.settled
    finally:
        boxes.USUAL, of_tiles.WIDE = usual, wide


def in_little_memory(folder):
    """A run over costs and labels on the disk takes the memory of its tiles, and each array of the whole would take more than is there."""
    if not os.path.exists("/proc/self/statm"):
        return
    side = 1500
    made = np.lib.format.open_memmap(folder / "large.npy", "w+", np.int64, (side, side, 2))
    made[...] = abs((np.add.outer(np.arange(side) // 50, np.arange(side) // 70) % 2)[..., None] - np.arange(2))
    del made
    np.lib.format.open_memmap(folder / "large labels.npy", "w+", np.int64, (side, side))
    told = subprocess.run([sys.executable, __file__, "--in-little-memory", folder], stdout=subprocess.PIPE, text=True, timeout=300, check=True)
    assert told.stdout == "tiles ran, the whole has no room\n", told.stdout


def run_in_little_memory(folder):
    """A run that may take 12 MiB more than the process has, where the labels of the whole take 18 MB and its costs 36 MB."""
    import resource
    costs, labels = np.load(f"{folder}/large.npy", mmap_mode="r"), np.load(f"{folder}/large labels.npy", mmap_mode="r+")
    label_tiles(DATA, SMOOTH, tile=TILE, sweeps=1)  # what is loaded or begun once
    taken = int(pathlib.Path("/proc/self/statm").read_text().split()[5]) * resource.getpagesize()
    resource.setrlimit(resource.RLIMIT_DATA, (taken + (12 << 20),) * 2)
    found = label_tiles(costs, gco.potts(2), out=labels, tile=64, sweeps=2)
    assert found.settled and len(found.energies) == 3, found
    try:
        np.array(labels)
    except MemoryError:
        print("tiles ran, the whole has no room")


def bounds():
    """The parts of the tiles add up to each labelling's energy, and no labelling is below the bound."""
    from gco_proved.tiles import bound
    rng = random.Random(11)
    told = bound.lower_bound
    equal = 0
    for _ in range(150):
        dimensions = rng.choice([2, 2, 3])
        shape = tuple(rng.randrange(1, 4 if dimensions == 2 else 3) for _ in range(dimensions))
        connect = rng.choice([2 * dimensions, 8 if dimensions == 2 else 26])
        steps = STEPS[dimensions, connect]
        data, smooth, weights = costs_of(rng, shape, steps, 2)
        even = isinstance(weights, int)
        problem = Problem(data.reshape(-1, 2).tolist(), smooth.tolist(), pairs_of(shape, steps, [weights] * len(steps) if even else weights), [])
        tile = tuple(rng.randrange(1, most + 1) for most in shape)
        least = min(map(problem.energy, itertools.product(range(2), repeat=problem.sites)))
        low = bound.lower_bound_tiles(data, smooth, weights, tile=tile, connect=connect)
        assert low <= least, (low, least, shape, tile)
        equal += low == least
        labels = np.array([rng.randrange(2) for _ in range(problem.sites)]).reshape(shape)
        boxes = bound.shared_boxes(shape, tile)

        def paid(part, table, pairs, passes):
            box, _ = next(boxes)
            one = Problem(part.reshape(-1, 2).tolist(), table.tolist(), pairs.tolist(), [])
            return gco.LowerBound(one.energy(labels[box].reshape(-1).tolist()), None)

        try:
            bound.lower_bound = paid
            total = bound.lower_bound_tiles(data, smooth, weights, tile=tile, connect=connect)
        finally:
            bound.lower_bound = told
        assert total == problem.energy(labels.reshape(-1).tolist()), (shape, tile, connect)
    assert equal > 50, equal
    found = wanted()
    assert 0.9 * found.energy < bound.lower_bound_tiles(DATA, SMOOTH, WEIGHTS, tile=TILE, executor=2) <= found.energy


def mistakes():
    def wrong(kind, *words, says, of=DATA, smooth=SMOOTH, **more):
        return refused(kind, label_tiles, of, smooth, *words, says=says, **more)

    wrong(ValueError, says="label_costs: what a label costs once for the whole is no sum over tiles", label_costs=[1] * 6)
    wrong(gco.Refused, says="data: one cost for each of 5 labels", smooth=gco.potts(5), status=4)
    wrong(gco.Refused, says="smooth: one cost for each two of 1 to 256 labels", smooth=[[0, 1]], status=5)
    wrong(gco.Refused, says="smooth: labels 0 and 1 cost 10,001", smooth=gco.potts(6, 10001), status=16)
    wrong(ValueError, says="a grid of two or three axes", of=DATA[0])
    wrong(ValueError, says="give its sides, as shape=", of=data_of)
    wrong(ValueError, says="shape: the data have (60, 60), and not (60, 61)", shape=(60, 61))
    wrong(ValueError, says="connect: 4 or 8 is wanted of 2 axes, and not 6", connect=6)
    wrong(ValueError, says="tile: 2 sides of at least 1 are wanted, and not (0, 5)", tile=(0, 5))
    wrong(ValueError, says="tile: 2 sides", tile=(5, 5, 5))
    wrong(ValueError, says="4,194,304 sites, and at most 1,048,576", of=lambda box: 0, shape=(5000, 5000), tile=2048)
    wrong(ValueError, says="overlap: 8 is half of a tile's side or more", tile=16, overlap=8)
    wrong(ValueError, says="overlap: a whole number from 0 on", overlap=-1)
    wrong(ValueError, says="tile: 2 sides of at least 1 are wanted, and not 2.5", tile=2.5)
    wrong(ValueError, says="tile: one of 64 x 64 x 64 with an overlap of 30 has 1,906,624 sites", of=lambda box: 0, shape=(500, 500, 500), overlap=30)
    wrong(ValueError, says="moves: expansion or swap", moves="jump")
    wrong(OverflowError, 1001, says="weights: 1001 is not from 0 to 1000")
    wrong(ValueError, [1], says="one array for each of the 2 offsets")
    wrong(ValueError, [WEIGHTS[1], WEIGHTS[0]], says="weights: those of the offset (0, 1) are to have the shape (60, 59), and not (59, 60)")
    heavy = [WEIGHTS[0].copy(), WEIGHTS[1].copy()]
    heavy[1][40, 7] = 1001
    wrong(gco.Refused, heavy, says="weights: that of offset (1, 0) at (40, 7) is 1,001", status=14, tile=TILE)
    costly = DATA.copy()
    for cost in (-1, 10**7 + 1):
        costly[50, 3, 4] = cost
        wrong(gco.Refused, says=f"data: label 4 at (50, 3) costs {cost:,}", of=costly, status=15, tile=TILE)
    wrong(TypeError, says="data: whole numbers are wanted, and not float64", of=DATA / 2)
    wrong(TypeError, [table / 2 for table in WEIGHTS], says="weights: whole numbers are wanted, and not float64")
    wrong(ValueError, says="start: one label for each site", start=np.zeros((60, 59), int))
    start = np.zeros((60, 60), int)
    start[59, 2] = 6
    wrong(gco.Refused, says="start: there are labels from 0 to 6: the labels are 0 to 5", start=start, status=11)
    wrong(gco.Refused, says="start: (59, 2) has label 6", start=start, out=start, status=11, tile=TILE)
    wrong(TypeError, says="start: whole numbers", start=np.zeros((60, 60)))
    wrong(ValueError, says="out: one label for each site", out=np.zeros((60, 59), np.uint8))
    wrong(ValueError, says="free: one yes or no for each site", free=np.ones((60, 59), bool))
    wrong(ValueError, says="data: the costs of a tile are to have the shape (16, 11, 6), and there is ()", of=lambda box: np.array(0), shape=(60, 60), tile=TILE)
    # the pair at which an expansion fails, by its places: 0, 2 beside each other cost 4 and by way of 1 only 2
    steep = [[0, 1, 4], [1, 0, 1], [4, 1, 0]]
    data = np.full((1, 6, 3), 9)
    data[0, 5] = (20, 9, 0)
    start = np.array([[0, 0, 0, 0, 0, 2]])
    text = refused(gco.Refused, label_tiles, data, steep, 1, tile=(1, 6), start=start, status=24)
    assert "an expansion of label 1 cannot take the pair of the sites (0, 4) and (0, 5)" in text, text
    # what stands for the labels around a tile, where data costs are the greatest, has to fit beside its sites
    words = dict(shape=(1024, 1025), tile=1024, start=np.ones((1024, 1025), np.uint8))
    wrong(gco.Refused, says=("1,024 sites stand for those around a tile, beside its own 1,048,576", "take a smaller tile"), status=2,
          of=lambda box: np.broadcast_to([10**7, 0], (*(part.stop - part.start for part in box), 2)), smooth=gco.potts(2), **words)
    # and by processes a refusal comes as it is
    wrong(gco.Refused, says="data: label 4 at (50, 3)", of=costly, status=15, tile=TILE, executor=2)


def threads_side_by_side():
    """Two runs at a time do not meet."""
    found, told = wanted(), []
    runs = [threading.Thread(target=lambda: told.append(wanted())) for _ in range(2)]
    for run in runs:
        run.start()
    for run in runs:
        run.join()
    assert len(told) == 2 and all((one.labels == found.labels).all() for one in told)


if "--run-and-die" in sys.argv:
    run_and_die(sys.argv[2], int(sys.argv[3]))
if "--in-little-memory" in sys.argv:
    run_in_little_memory(sys.argv[2])
    sys.exit(0)
if __name__ == "__main__":
    made = pathlib.Path(tempfile.mkdtemp())
    try:
        said = [random_grids(400), fixed_points(300), kinds_of_costs(made), volumes(made)]
        near_the_whole()
        near_the_whole_volume()
        with dask_client() as client:
            said.append(engines(made, client))
            stops(made, client)
        stops_soon()
        free_sites()
        free_in_a_wide_box()
        in_little_memory(made)
        bounds()
        mistakes()
        threads_side_by_side()
        print("gco_proved.tiles:", ", ".join(said))
    finally:
        shutil.rmtree(made)
