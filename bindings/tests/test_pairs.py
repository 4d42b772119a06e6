"""Pairs with costs of their own: a worked example, the definitions tried in every case, what is refused, bounds, and runs that are
watched and stopped; with a table for each pair, and with a few tables and each pair's number."""
import array
import itertools
import random
import sys

if "--without-numpy" in sys.argv:
    sys.modules["numpy"] = None
import gco_proved as gco
from definitions import PairProblem
from refusing import flat, refused

# a row of three sites; the first pair costs 2, 4, 6 and 0 at the labels 00, 01, 10 and 11, the second 0, 2, 4 and 4
DATA = [[0, 2], [3, 0], [7, 1]]
TABLES = [[[1, 2], [3, 0]], [[0, 1], [2, 2]]]
PAIRS = [(0, 1, 2), (1, 2, 2)]


def worked():
    found = gco.label(DATA, TABLES, PAIRS)
    assert list(found.labels) == [1, 1, 1] and found[1:] == (7, 3, 4, 0, 2, True, None), found
    found = gco.label(DATA, TABLES[::-1], PAIRS, moves="swap")
    assert list(found.labels) == [0, 1, 1] and found[1:] == (3, 1, 2, 0, 2, True, None), found
    bound = gco.lower_bound(DATA, TABLES, PAIRS)
    assert found.gap() == 0.0 and (bound.low, list(bound.labels)) == (7, [1, 1, 1]), bound
    moved = gco.expand(DATA, TABLES, PAIRS, 1)
    assert (list(moved.labels), moved.energy, moved.settled) == ([1, 1, 1], 7, False)
    moved = gco.swap(DATA, TABLES[::-1], PAIRS, 0, 1, start=moved.labels)
    assert (list(moved.labels), moved.energy, moved.settled) == ([0, 1, 1], 3, False)
    # no pairs have no tables
    if gco.arrays.numpy is not None:
        assert list(gco.label(DATA, gco.arrays.numpy.zeros((0, 2, 2), dtype=int), []).labels) == [0, 1, 1]
        costs = gco.arrays.numpy.array(DATA, dtype="int32"), gco.arrays.numpy.array(TABLES, dtype="int32")
        assert gco.label(*costs, PAIRS).energy == 7


def a_table(rng, shape, k):
    far, toll = [rng.randrange(6) for _ in range(k)], rng.randrange(3)
    return [[rng.randrange(9) if shape == "any" else 0 if a == b else toll + abs(far[a] - far[b]) for b in range(k)] for a in range(k)]


def a_problem(rng):
    sites, k = rng.randrange(2, 6), rng.randrange(1, 4)
    data = [[rng.randrange(0, rng.choice([3, 10])) for _ in range(k)] for _ in range(sites)]
    pairs = [(*rng.sample(range(sites), 2), rng.choice([0, 1, 1, 2, 5])) for _ in range(rng.randrange(1, 2 * sites + 1))]
    shape = rng.choice(["metric", "metric", "any"])
    costs = rng.choice([[], [], [rng.randrange(0, 5) for _ in range(k)]])
    return PairProblem(data, [a_table(rng, shape, k) for _ in pairs], k, pairs, costs), tuple(rng.randrange(k) for _ in range(sites))


def given(rng, problem):
    """The costs in one of the forms that they may be given in."""
    forms = [(problem.data, problem.tables)]
    np = gco.arrays.numpy
    if np is not None:
        data, tables = np.array(problem.data).reshape(-1, problem.labels), np.array(problem.tables).reshape(-1, problem.labels, problem.labels)
        forms += [(data.astype(kind), tables.astype(other)) for kind in ("int32", "int64") for other in ("int32", "int64", "uint8")]
        forms += [(data, np.asfortranarray(tables)), (data.astype("int32"), np.repeat(tables, 2, axis=0)[::2])]
    return rng.choice(forms)


def by_definition(count):
    rng = random.Random(41)
    kinds = {"answered": 0, 24: 0, 27: 0, "bound met": 0}
    for turn in range(count):
        problem, start = a_problem(rng)
        moves, cycles = rng.choice(["expansion", "swap"]), rng.choice([0, 1, 2, 50])
        wanted = problem.run(moves, cycles, start)
        told = []
        for more in ({}, {"stoppable": True}, {"progress": lambda *words: told.append(words)}):
            try:
                f = gco.label(*given(rng, problem), problem.pairs, label_costs=problem.costs or None, moves=moves, cycles=cycles, start=start, **more)
                got = (tuple(flat(f.labels)), f.data, f.smooth, f.label, f.cycles, f.settled)
                kinds["answered"] += 1
                assert f.bound is None
                passes = rng.choice([0, 1, 2, 50])
                low = gco.lower_bound(*given(rng, problem), problem.pairs, label_costs=problem.costs or None, passes=passes).low
                least = min(map(problem.energy, itertools.product(range(problem.labels), repeat=problem.sites)))
                assert sum(map(min, problem.data)) <= low <= least
                kinds["bound met"] += low == least
            except gco.Refused as error:
                got = ("refused", error.status, error.place, error.alpha, error.beta)
                kinds[error.status] += 1
            assert got == wanted, (turn, problem.__dict__, start, moves, cycles, wanted, got, more)
    assert all(kinds.values()), kinds
    return kinds


def rows(count):
    """Of a row of sites the bound is the least energy, however its pairs stand."""
    rng = random.Random(44)
    for _ in range(count):
        sites, k = rng.randrange(1, 6), rng.randrange(1, 4)
        data = [[rng.randrange(10) for _ in range(k)] for _ in range(sites)]
        pairs = [((p, p + 1) if rng.random() < 0.5 else (p + 1, p)) + (rng.randrange(4),) for p in range(sites - 1)]
        if not pairs:
            continue
        problem = PairProblem(data, [a_table(rng, "any", k) for _ in pairs], k, pairs, [])
        found = gco.lower_bound(*given(rng, problem), pairs, passes=rng.choice([1, 2, 50]))
        assert found.low == min(map(problem.energy, itertools.product(range(k), repeat=sites))), (problem.__dict__, found)


def few_tables(rng, problem):
    """A few tables in place of the problem's own, and the number that each of its pairs then has."""
    shape = rng.choice(["metric", "metric", "any"])
    tables = [a_table(rng, shape, problem.labels) for _ in range(rng.randrange(1, 4))]
    table_of = [rng.randrange(len(tables)) for _ in problem.pairs]
    problem.tables = [tables[number] for number in table_of]
    return tables, table_of


def numbers_given(rng, table_of):
    """The numbers of tables in one of the forms that they may be given in."""
    forms = [table_of, tuple(table_of), array.array("I", table_of), array.array("b", table_of)]
    np = gco.arrays.numpy
    if np is not None:
        forms += [np.array(table_of, dtype=kind) for kind in ("uint32", "int64", "int8")] + [np.repeat(np.array(table_of), 2)[::2]]
    return rng.choice(forms)


def told_of(call, *words, **more):
    """The labels that a call found and what it tells of them, or its refusal."""
    try:
        found = call(*words, **more)
    except gco.Refused as error:
        return "refused", error.status, error.place, error.alpha, error.beta
    return (tuple(flat(found.labels)), *found[1:])


def one_move(problem, move, f):
    """What expand or swap tells, by the definition."""
    place = problem.irregular(move, f)
    if place is not None:
        return "refused", 24, place, move[0], move[-1]
    g = problem.best(move, f)
    return g, problem.energy(g), *problem.parts(g), 0, g == f, None


def shared_tables(count):
    """A few tables and each pair's number, by the definitions, and beside one table a pair: runs, single moves and bounds."""
    rng = random.Random(45)
    kinds = {"answered": 0, 24: 0, 27: 0, "fewer": 0, "bound met": 0}
    for turn in range(count):
        problem, start = a_problem(rng)
        tables, table_of = few_tables(rng, problem)
        kinds["fewer"] += len(tables) < len(table_of)
        own = problem.data, problem.tables, problem.pairs
        few = problem.data, rng.choice([tables, *([gco.arrays.numpy.array(tables)] if gco.arrays.numpy else [])]), problem.pairs
        costs, numbers = {"label_costs": problem.costs or None}, {"table_of": numbers_given(rng, table_of)}
        moves, cycles = rng.choice(["expansion", "swap"]), rng.choice([0, 1, 2, 50])
        *ended, settled = problem.run(moves, cycles, start)
        for more in ({}, {"stoppable": True}):
            more = {**costs, **more, "moves": moves, "cycles": cycles, "start": start}
            got = told_of(gco.label, *few, **numbers, **more)
            kinds["answered" if got[0] != "refused" else got[1]] += 1
            wanted = (*ended, settled) if ended[0] == "refused" else (ended[0], sum(ended[1:4]), *ended[1:], settled, None)
            assert got == wanted and got == told_of(gco.label, *own, **more), (turn, problem.__dict__, table_of, start, moves, cycles, wanted, got)
        a, b = rng.randrange(problem.labels), rng.randrange(problem.labels)
        if not any(problem.costs):
            got = told_of(gco.swap, *few, a, b, **numbers, start=start)
            assert got == told_of(gco.swap, *own, a, b, start=start), (turn, got)
            assert a == b or got == one_move(problem, (a, b), start), (turn, problem.__dict__, a, b, start, got)
        got = told_of(gco.expand, *few, a, **numbers, **costs, start=start)
        assert got == one_move(problem, (a,), start) == told_of(gco.expand, *own, a, **costs, start=start), (turn, problem.__dict__, a, start, got)
        bound, again = gco.lower_bound(*few, **numbers, **costs), gco.lower_bound(*own, **costs)
        least = min(map(problem.energy, itertools.product(range(problem.labels), repeat=problem.sites)))
        assert sum(map(min, problem.data)) <= bound.low <= least, (turn, problem.__dict__, bound, least)
        assert (bound.low, flat(bound.labels)) == (again.low, flat(again.labels)), (turn, problem.__dict__, bound, again)
        kinds["bound met"] += bound.low == least
        if got[0] != "refused":
            found = gco.expand(*few, a, **numbers, **costs, start=start)
            assert (found.gap() == 0.0) == (found.energy == bound.low), (turn, found, bound)
    assert all(kinds.values()), kinds
    return kinds


def pictures_of_pairs(rng):
    """A picture's problem in which the later moves of a run change few sites: costs, a table for each pair, and pairs."""
    width, height, k = rng.randrange(6, 19), rng.randrange(6, 19), rng.randrange(2, 6)
    centres = [(rng.randrange(width), rng.randrange(height)) for _ in range(k)]
    data = [[min(abs(p % width - x) + abs(p // width - y), 12) + rng.randrange(rng.choice([3, 9])) for x, y in centres]
            for p in range(width * height)]
    pairs = [(p, p + 1) for p in range(width * height) if (p + 1) % width] + [(p, p + width) for p in range(width * (height - 1))]
    rng.shuffle(pairs)
    pairs = [(*rng.sample(pair, 2), rng.choice([1, 1, 2])) for pair in pairs]
    tables = [a_table(rng, "metric", k) for _ in pairs]
    if rng.random() < 0.3:  # a pair that some move refuses, early or late
        tables[rng.randrange(len(pairs))] = a_table(rng, "any", k)
    return data, tables, pairs, k


def by_single_moves(data, tables, pairs, k):
    """A run of expansions one move after another, each of which looks at all pairs: what `gco.label` tells of it."""
    labels, cycles, changed = [0] * len(data), 0, True
    while changed:
        changed, cycles = False, cycles + 1
        for alpha in range(k):
            try:
                found = gco.expand(data, tables, pairs, alpha, start=labels)
            except gco.Refused as error:
                return "refused", error.status, error.place, error.alpha, error.beta
            changed, labels = changed or not found.settled, flat(found.labels)
    return tuple(labels), *found[1:5], cycles, True, None


def beside_single_moves(count):
    """Later moves of a run look near what changed alone: they end as the same moves made one by one."""
    rng = random.Random(46)
    kinds = {"answered": 0, "refused": 0}
    for turn in range(count):
        data, tables, pairs, k = pictures_of_pairs(rng)
        got = told_of(gco.label, data, tables, pairs)
        assert got == by_single_moves(data, tables, pairs, k), (turn, data, tables, pairs, got)
        kinds["refused" if got[0] == "refused" else "answered"] += 1
    assert all(kinds.values()), kinds
    return kinds


def shared_worked():
    """The pairs of `worked` with their tables exchanged by number, and three pairs of one table."""
    found = gco.label(DATA, TABLES, PAIRS, table_of=[1, 0], moves="swap")
    assert list(found.labels) == [0, 1, 1] and found[1:] == (3, 1, 2, 0, 2, True, None), found
    assert found.gap() == 0.0 and gco.lower_bound(DATA, TABLES, PAIRS, table_of=[1, 0]).low == 3
    found.given[4][0] = 0
    refused(ValueError, found.gap, says="changed since the run")
    # at the labels 0 1 1 the pairs of a ring cost 1 * 2, 2 * 2 and 3 * 2: the last two by one table
    ring = [(0, 1), (1, 2, 2), (2, 0, 3)]
    assert gco.label(DATA, TABLES, ring, table_of=(0, 1, 1), start=[0, 1, 1], cycles=0)[1:4] == (13, 1, 12)
    # a table that no pair has may cost as much as it will
    unused = [*TABLES, [[10000000, 0], [0, 10000000]]]
    assert gco.label(DATA, unused, PAIRS, table_of=[1, 0]).energy == 3
    if gco.arrays.numpy is not None:
        np = gco.arrays.numpy
        tables = np.zeros((0, 2, 2), dtype=int), np.array(TABLES)
        for each in tables:
            assert list(gco.label(DATA, each, [], table_of=[]).labels) == [0, 1, 1]
        assert str(refused(gco.Refused, gco.label, DATA, tables[0], PAIRS, table_of=[0, 0], status=31, place=0)) == (
            "table_of: the pair of sites 0 and 1 has table 0: there is no table")


def bad_numbers():
    def words(status, table_of, tables=TABLES, **more):
        told = set()
        for call, labels in ((gco.label, ()), (gco.expand, (1,)), (gco.swap, (0, 1)), (gco.lower_bound, ())):
            told.add(str(refused(gco.Refused, call, DATA, tables, PAIRS, *labels, table_of=table_of, status=status, **more)))
        (one,) = told
        return one
    wanted = "table_of: one number for each of 2 pairs is wanted, and the shape is"
    assert words(30, [0]) == f"{wanted} (1,)" and words(30, []) == f"{wanted} (0,)" and words(30, [0, 1, 0]) == f"{wanted} (3,)"
    assert words(30, [[0], [1]]) == f"{wanted} (2, 1)"
    assert words(30, [[0], [1, 0]]) == "table_of: the rows have 1 to 2 elements: rows of one length are wanted"
    assert words(31, [0, 2], place=1) == "table_of: the pair of sites 1 and 2 has table 2: the tables are 0 to 1"
    assert words(31, [2**32 - 1, 2], place=0) == "table_of: the pair of sites 0 and 1 has table 4294967295: the tables are 0 to 1"
    high = [TABLES[0], [[0, 1], [10000001, 0]], TABLES[0]]
    said = "smooth: labels 1 and 0 cost 10,000,001 in table 1: a cost of the very pair is from 0 to 10,000,000"
    assert words(16, [1, 0], high, place=6) == said and words(16, [0, 2], high, place=6) == said
    high[1][1][0] = 5000001
    assert words(32, [0, 1], high, place=1) == "smooth: the pair of sites 1 and 2 costs up to 2 times 5,000,001: a pair costs at most 10,000,000"
    assert words(32, [1, 0], high, place=0) == "smooth: the pair of sites 0 and 1 costs up to 2 times 5,000,001: a pair costs at most 10,000,000"
    assert gco.label(DATA, high, PAIRS, table_of=[0, 2], cycles=0).energy == 14
    try:
        gco.label(DATA, high, PAIRS, table_of=[0, 3])
        raise AssertionError("it was not refused")
    except gco.Refused as error:
        assert (error.status, error.place, error.sites) == (31, 1, (1, 2)), error
    irregular = [TABLES[1], [[9, 0], [0, 0]]]
    refused(gco.Refused, gco.label, DATA, irregular, PAIRS, table_of=[0, 1], status=24, place=1, says="are no metric: an expansion of label 1")
    refused(gco.Refused, gco.label, DATA, TABLES, PAIRS, table_of=[0, 1], moves="swap", label_costs=[0, 1], status=27)
    beside = "table_of: a smooth of shape (tables, labels, labels) is wanted beside it, and the shape is"
    for smooth in (gco.potts(2), [0, 1, 1, 0]):
        shape = gco.arrays.shape_of(smooth, "smooth")
        assert str(refused(ValueError, gco.label, DATA, smooth, PAIRS, table_of=[0, 0])) == f"{beside} {shape}"
        refused(ValueError, gco.lower_bound, DATA, smooth, PAIRS, table_of=[0, 0], says=beside)
        refused(ValueError, gco.label, DATA, smooth, PAIRS, table_of=[0, 0], scale=True, says="without scale=True")
    refused(ValueError, gco.label, DATA, TABLES, PAIRS, table_of=[0, 1], scale=True, says="without scale=True")
    for fractions in ([0, 0.5], [0.0, 1.0], "01", 1, True, {0: 1, 1: 0}, [None, 0], ["0", "1"]):
        refused(TypeError, gco.label, DATA, TABLES, PAIRS, table_of=fractions, says="table_of: whole numbers are wanted")
    for beyond in ([-1, 0], [0, 2**32]):
        refused(OverflowError, gco.label, DATA, TABLES, PAIRS, table_of=beyond, says="table_of: a number is not from 0 to 4294967295")
    if gco.arrays.numpy is not None:
        np = gco.arrays.numpy
        assert words(30, np.array(1)).endswith("the shape is (0,)") and words(30, np.zeros((2, 2), dtype=int)).endswith("the shape is (2, 2)")
        for kind in ("float64", "bool"):
            refused(TypeError, gco.label, DATA, TABLES, PAIRS, table_of=np.array([0, 1], dtype=kind), says="table_of: whole numbers are wanted")
        refused(OverflowError, gco.label, DATA, TABLES, PAIRS, table_of=np.array([0, -1]), says="table_of: a number is not from 0")
        refused(ValueError, gco.label, DATA, TABLES, PAIRS, table_of=np.ma.masked_array([0, 1], [False, True]), says="table_of: 1 numbers of the masked")


def bad_input():
    def words(status, *given, **more):
        return str(refused(gco.Refused, gco.label, *given, status=status, **more))
    assert words(5, DATA, TABLES[:1], PAIRS) == "smooth: one table for each of 2 pairs is wanted, and the shape is (1, 2, 2)"
    assert words(5, DATA, [[[0, 1]], [[0, 1]]], PAIRS) == "smooth: one cost for each two labels is wanted, as of shape (1, 1), and not (1, 2) of each pair"
    assert words(4, [[0, 1, 2]] * 3, TABLES, PAIRS).startswith("data: the last axis has 3 costs, and smooth says that there are 2 labels")
    high = [TABLES[0], [[0, 1], [10000001, 0]]]
    assert words(16, DATA, high, PAIRS, place=6) == ("smooth: labels 1 and 0 cost the pair of sites 1 and 2 10,000,001: a cost of the very pair is from 0 to"
                                                     " 10,000,000")
    high[1][1][0] = 5000001
    assert words(32, DATA, high, PAIRS, place=1) == "smooth: the pair of sites 1 and 2 costs up to 2 times 5,000,001: a pair costs at most 10,000,000"
    high[1][1][0] = 5000000
    assert gco.label(DATA, high, PAIRS, cycles=0).energy == 12
    assert words(24, DATA, [[[9, 0], [0, 0]], TABLES[1]], PAIRS, place=0).startswith("the smooth costs are no metric: an expansion of label 1 cannot take")
    assert words(27, DATA, TABLES, PAIRS, moves="swap", label_costs=[0, 1]).startswith("swaps, and some label costs more than 0")
    refused(ValueError, gco.label, DATA, TABLES, PAIRS, scale=True)
    refused(TypeError, gco.label, DATA, [[[0.5, 1], [1, 0]]] * 2, PAIRS)


def stopped():
    """A run that is left after its first move, and one that Ctrl-C stops."""
    rng = random.Random(43)
    sites, k = 60, 4
    data = [[rng.randrange(20) for _ in range(k)] for _ in range(sites)]
    pairs = [(p, p + 1) for p in range(sites - 1)]
    tables = [a_table(rng, "metric", k) for _ in pairs]
    kept, gco.stretches.SECONDS = gco.stretches.SECONDS, 0
    try:
        told = []
        found = gco.label(data, tables, pairs, progress=lambda *words: told.append(words) or False)
        assert len(told) == 1 and told[0][:2] == (1, 0) and not found.settled and found.energy == told[0][3]

        def interrupt(cycle, label, changed, energy):
            if label == 2:
                raise KeyboardInterrupt
        try:
            gco.label(data, tables, pairs, progress=interrupt)
            raise AssertionError("it was not stopped")
        except KeyboardInterrupt as stop:
            again = gco.label(data, tables, pairs, cycles=0, start=stop.partial.labels)
            assert stop.moves_made == 3 and stop.partial.energy == again.energy and not stop.partial.settled
    finally:
        gco.stretches.SECONDS = kept


worked()
rows(300)
bad_input()
shared_worked()
bad_numbers()
stopped()
print("pairs with costs of their own:", by_definition(2000))
print("pairs that share tables:", shared_tables(300))
print("later moves beside moves made one by one:", beside_single_moves(300))
