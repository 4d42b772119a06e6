"""Runs by stretches: the labels after each call against the definitions, what a refusal leaves, and arrays that no call
handed back."""
import array
import ctypes
import random
import sys

if "--without-numpy" in sys.argv:
    sys.modules["numpy"] = None
import gco_proved as gco
from definitions import Problem
from gco_proved import _library
from gco_proved._library import ALL_CYCLES, MOVES, UNFINISHED, calls


def some_problem(rng):
    sites, k = rng.randrange(0, 6), rng.randrange(1, 5)
    data = [[rng.randrange(0, rng.choice([3, 10])) for _ in range(k)] for _ in range(sites)]
    shape = rng.choice(["potts", "linear", "linear", "any"])
    smooth = [[{"potts": int(a != b), "linear": min(abs(a - b), 2), "any": rng.randrange(0, 4)}[shape] for b in range(k)] for a in range(k)]
    pairs = [(*rng.sample(range(sites), 2), rng.choice([0, 1, 2, 5])) for _ in range(rng.randrange(0, 2 * sites + 1) if sites > 1 else 0)]
    costs = rng.choice([[], [], [], [rng.randrange(0, 5) for _ in range(k)]])
    start = tuple(rng.randrange(k) for _ in range(sites))
    return Problem(data, smooth, pairs, costs), start


class Lent:
    """The arrays of a call, those of 64 bits or those of 32, and what it is lent."""

    def __init__(self, problem, start, narrow):
        code = "i" if narrow else "q"
        rows = [[x for row in problem.data for x in row], [x for row in problem.smooth for x in row], problem.costs]
        self.tables = [array.array(code, row) for row in rows]
        self.pairs = array.array("I", [x for pair in problem.pairs for x in pair])
        self.k, self.call = problem.labels, calls.gco_label_stretch_int32 if narrow else calls.gco_label_stretch
        self.labels, self.stamps, self.made = array.array("I", start), array.array("I", [0] * len(start)), array.array("I", [0] * problem.labels)
        self.course, self.told = _library.Course(), _library.Outcome()

    def make(self, moves, cycles, most):
        slices = [number for table in self.tables for number in table.buffer_info()]
        at, count = self.pairs.buffer_info()
        return self.call(self.k, *slices, at, count // 3, MOVES[moves], cycles, most, ctypes.addressof(self.course),
                         *self.stamps.buffer_info(), *self.made.buffer_info(), *self.labels.buffer_info(), ctypes.addressof(self.told))

    def kept(self):
        return (tuple(self.labels), bytes(self.course), tuple(self.stamps), tuple(self.made))

    def parts(self):
        return self.told.data, self.told.smooth, self.told.label


def by_definition(count):
    """Each run stopped after each number of moves, by stretches of one size or of several."""
    rng = random.Random(73)
    kinds = {"settled": 0, "cycles": 0, 24: 0, 27: 0, "stretches": 0}
    for turn in range(count):
        problem, start = some_problem(rng)
        moves, cycles = rng.choice(["expansion", "expansion", "swap"]), rng.choice([0, 1, 2, 3, ALL_CYCLES])
        *chain, wanted = problem.steps(moves, cycles, start)
        length = len(problem.order(moves))
        whole = Lent(problem, start, False)
        for sizes in [[1], [2], [3], [length + 1], [1, 4, 2], [ALL_CYCLES]]:
            lent, place = Lent(problem, start, rng.random() < 0.5), 0
            while True:
                before = lent.kept()
                most = sizes[place % len(sizes)]
                status = lent.make(moves, cycles, most)
                if status != UNFINISHED:
                    break
                kinds["stretches"] += 1
                done = lent.course.cycles * length + lent.course.place
                assert 0 < done <= len(chain), (turn, done, chain)
                labels = chain[done - 1]
                assert (tuple(lent.labels), lent.told.cycles, lent.parts()) == (labels, lent.course.cycles, problem.parts(labels)), (turn, sizes)
                assert lent.told.cycles < cycles and lent.course.place < length and not lent.told.settled
                place += 1
            told = lent.told
            if status == 0:
                assert (tuple(lent.labels), *lent.parts(), told.cycles, bool(told.settled)) == wanted, (turn, sizes, wanted)
                assert lent.kept()[1:] == before[1:]
                kinds["settled" if told.settled else "cycles"] += 1
            else:
                assert ("refused", status, told.place, told.alpha, told.beta) == wanted and lent.kept() == before, (turn, sizes, wanted, status)
                kinds[status] += 1
        assert whole.make(moves, cycles, 0) in (0, 27, UNFINISHED) and tuple(whole.labels) == start
    assert all(kinds.values()), kinds
    return kinds


def nonsense(count):
    """Arrays that no call handed back: refused and left as they were, or labels in range."""
    rng = random.Random(74)
    kinds = {0: 0, UNFINISHED: 0, 28: 0}
    for turn in range(count):
        problem, start = some_problem(rng)
        lent = Lent(problem, start, rng.random() < 0.5)
        for numbers in lent.stamps, lent.made:
            for place in range(len(numbers)):
                numbers[place] = rng.choice([0, 1, 2, 3, 9, 2**32 - 1])
        for name, _ in lent.course._fields_:
            setattr(lent.course, name, rng.choice([0, 0, 1, 2, 3, 9, 2**32 - 1]))
        if rng.random() < 0.2:
            rng.choice([lent.stamps, lent.made]).append(0)
        before = lent.kept()
        status = lent.make(rng.choice(list(MOVES)), rng.choice([1, 2, ALL_CYCLES]), rng.randrange(0, 9))
        if status in (0, UNFINISHED):
            assert all(label < problem.labels for label in lent.labels) and lent.parts() == problem.parts(tuple(lent.labels)), turn
        else:
            assert status in (24, 27, 28) and lent.kept() == before, (turn, status)
        kinds[status] = kinds.get(status, 0) + 1
    assert all(kinds.values()), kinds
    return kinds


def watched(count):
    """A run that is watched answers what one call does, whatever the stretches, and tells its moves in their order. Where a stretch
    is one move it tells each, but for those at the end that are known to change nothing: the last of them stands for all."""
    rng = random.Random(75)
    kept, kinds = gco.stretches.SECONDS, {"each": 0, "some": 0, "jumped": 0, "refused": 0}
    for turn in range(count):
        problem, start = some_problem(rng)
        moves, cycles = rng.choice(list(MOVES)), rng.choice([None, None, 0, 1, 2])
        gco.stretches.SECONDS = rng.choice([0, 0, 1e-5, 1e-4, kept])
        told = []
        try:
            answers = [gco.label([x for row in problem.data for x in row], problem.smooth, problem.pairs, label_costs=problem.costs or None, moves=moves,
                                 cycles=cycles, start=start, **more)
                       for more in (dict(stoppable=False), dict(stoppable=True), dict(progress=lambda *words: told.append(words)))]
        except gco.Refused as error:
            assert error.status in (24, 27), error
            kinds["refused"] += 1
            continue
        plain, *others = answers
        for other in others:
            assert list(other.labels) == list(plain.labels) and other[1:] == plain[1:], (turn, answers)
        chain = [start, *[f for f in problem.steps(moves, ALL_CYCLES if cycles is None else cycles, start)][:-1]]
        order = [move if moves == "swap" else move[0] for move in problem.order(moves)]
        at = [(cycle - 1) * len(order) + order.index(named) + 1 for cycle, named, _, _ in told]
        assert sorted(set(at)) == at and at[-1:] == [len(chain) - 1][:len(chain) - 1], (turn, told)
        for before, now, (_, _, changed, energy) in zip([0, *at], at, told):
            assert energy == problem.energy(chain[now]) and changed == sum(a != b for a, b in zip(chain[before], chain[now])), (turn, told)
        if gco.stretches.SECONDS == 0:
            made = moves_to_make(chain, len(order))
            assert at == [*range(1, made), *[len(chain) - 1][:made]], (turn, told, made)
            kinds["each"] += 1
            kinds["jumped"] += made < len(chain) - 1
        else:
            kinds["some"] += 1
    gco.stretches.SECONDS = kept
    assert all(kinds.values()), kinds
    return kinds


def paces():
    """How many moves each stretch has, of 512 by 512 sites and of moves that take so long."""
    for each, wanted in ((0.0011, [12, 24, 48, 96, 192, 384, 727, 727, 727]), (0.09, [12, 8, 8]), (0.2, [12, 3, 3]), (2, [12, 1, 1])):
        sizes = [gco.stretches._moves_of(gco.stretches.SECONDS_A_SITE * 512 * 512)]
        while len(sizes) < len(wanted):
            sizes.append(gco.stretches._moves_next(sizes[-1], each * sizes[-1]))
        assert sizes == wanted, (each, sizes)


def moves_to_make(chain, length):
    """How many moves of a chain a run makes: a whole cycle after the last that changed something, if the chain is so long."""
    last = max([place for place in range(1, len(chain)) if chain[place] != chain[place - 1]], default=1)
    return min(last + length - 1, len(chain) - 1)


paces()
print("stretches:", by_definition(500), "nonsense:", nonsense(2000), "watched:", watched(500))
