"""The definitions, by trying every case: chains of best moves, and least cuts."""
import itertools


class Problem:
    def __init__(self, data, smooth, pairs, costs):
        self.data, self.smooth, self.pairs, self.costs = data, smooth, pairs, costs
        self.sites, self.labels = len(data), len(smooth)

    def parts(self, f):
        return (sum(self.data[p][f[p]] for p in range(self.sites)), sum(self.pair_cost(place, f[p], f[q]) for place, (p, q, _) in enumerate(self.pairs)),
                sum(self.costs[label] for label in set(f)) if self.costs else 0)

    def pair_cost(self, place, a, b):
        return self.pairs[place][2] * self.smooth[a][b]

    def energy(self, f):
        return sum(self.parts(f))

    def label_in(self, move, old, bit):
        if len(move) == 1:
            return move[0] if bit else old
        return move[bit] if old in move else old

    def irregular(self, move, f):
        for place, (p, q, _) in enumerate(self.pairs):
            def entry(x, y):
                return self.pair_cost(place, self.label_in(move, f[p], x), self.label_in(move, f[q], y))
            if entry(0, 0) + entry(1, 1) > entry(0, 1) + entry(1, 0):
                return place
        return None

    def best(self, move, f):
        reached = {tuple(self.label_in(move, f[p], bits[p]) for p in range(self.sites)) for bits in itertools.product((0, 1), repeat=self.sites)}
        least = min(map(self.energy, reached))
        if least >= self.energy(f):
            return f
        return min((g for g in reached if self.energy(g) == least), key=lambda g: g.count(move[-1]))

    def order(self, moves):
        k = self.labels
        return [(a,) for a in range(k)] if moves == "expansion" else [(a, b) for a in range(k) for b in range(a + 1, k)]

    def run(self, moves, cycles, f):
        *_, told = self.steps(moves, cycles, f)
        return told

    def steps(self, moves, cycles, f):
        """The labels after each move of a run, and at last what the run answers."""
        if moves == "swap" and any(self.costs):
            yield ("refused", 27, 0, 0, 0)
            return
        for cycle in range(cycles):
            before = f
            for move in self.order(moves):
                place = self.irregular(move, f)
                if place is not None:
                    yield ("refused", 24, place, move[0], move[-1])
                    return
                f = self.best(move, f)
                yield f
            if f == before:
                yield (f, *self.parts(f), cycle + 1, True)
                return
        yield (f, *self.parts(f), cycles, False)


class PairProblem(Problem):
    """A problem each of whose pairs has a table of its own."""

    def __init__(self, data, tables, labels, pairs, costs):
        super().__init__(data, [[0] * labels] * labels, pairs, costs)
        self.tables = tables

    def pair_cost(self, place, a, b):
        return self.pairs[place][2] * self.tables[place][a][b]


def least_cut(nodes, tedges, edges):
    """The least capacity of a cut, and the nodes of the sink's side of the one with the fewest there.

    tedges are (node, from the source, to the sink), edges (first, second, capacity there, capacity back)."""
    best = None
    for bits in itertools.product((0, 1), repeat=nodes):
        cost = sum(source if bits[node] else sink for node, source, sink in tedges)
        for first, second, there, back in edges:
            if bits[first] != bits[second]:
                cost += back if bits[first] else there
        if best is None or (cost, sum(bits)) < (best[0], sum(best[1])):
            best = (cost, bits)
    return best


def grid_problem(data, smooth, weights):
    """A problem of a picture: data[y][x] are the costs of a pixel, weights[(y, x, y2, x2)] those of its pairs."""
    width = len(data[0])
    pairs = [(y * width + x, y2 * width + x2, weight) for (y, x, y2, x2), weight in weights.items()]
    return Problem([costs for row in data for costs in row], smooth, pairs, [])


def chain(problem, moves, cycles, start):
    """The labels where a chain of best moves ends."""
    return list(problem.run(moves, cycles, tuple(start))[0])
