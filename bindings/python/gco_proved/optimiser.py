"""GCO: a problem that is set part by part, under the names of gco-wrapper's class."""
from typing import Any, Callable, List, Optional

from . import arrays
from .arrays import whole
from .cuts import cycles_of
from .grids import grid_pairs
from .labelling import expand, label, swap
from .lower_bound import PASSES, bound_in_units
from .scaling import EACH_TABLE, ONE_TABLE, costs_of, weighted_tables, whole_costs

Function = Callable[[int, int, int, int], Any]


class GCO:
    """gco-wrapper's class: costs are set, moves made, and labels and energies asked for.

    Costs below 0 are shifted and costs with a fraction scaled, as gco_proved.scaling says; `scale`
    is by what they were multiplied in the last move. Energies are told in the caller's own costs.
    """

    def __init__(self) -> None:
        if arrays.numpy is None:
            raise ImportError("GCO: numpy is wanted: pip install numpy")
        self.scale = 1.0
        self.destroy_graph()

    def create_general_graph(self, n_sites: int, n_labels: int,
                             energy_is_float: bool = False) -> None:
        """A problem of so many sites and labels; `energy_is_float` allows costs with a fraction."""
        sites, count = whole(n_sites, 0, 2**31, "n_sites"), whole(n_labels, 1, 256, "n_labels")
        numpy = arrays.numpy
        self._kind = float if energy_is_float else int
        self._unary: Any = numpy.zeros((sites, count), dtype=self._kind)
        self._set_pairwise(numpy.zeros((count, count), dtype=self._kind))
        self._edges: List[Any] = []
        self._labels = numpy.zeros(sites, dtype=numpy.int32)
        self._there = True

    def create_grid_graph(self, width: int, height: int, n_labels: int,
                          energy_is_float: bool = False) -> None:
        """A problem of a picture, whose neighbours have the weight 1."""
        self.create_general_graph(width * height, n_labels, energy_is_float)
        pairs = grid_pairs(width, height)
        self._edges.append((pairs[:, :2], pairs[:, 2]))

    def destroy_graph(self) -> None:
        """Forgets the problem."""
        self._there = False

    def _asked(self):
        if not self._there:
            raise RuntimeError("GCO: create_general_graph or create_grid_graph comes first")

    def _costs(self, values, what, never=False):
        self._asked()
        costs = costs_of(values if hasattr(values, "__iter__") else [values], what, never)
        if costs.dtype.kind == "f" and self._kind is int:
            raise TypeError(f"{what}: costs with a fraction want energy_is_float=True when the"
                            " graph is made")
        return costs

    def set_data_cost(self, unary_cost: Any) -> None:
        """All unary costs, of shape (sites, labels), or of a picture (height, width, labels)."""
        costs = self._costs(unary_cost, "unary_cost", never=True)
        shape = self._unary.shape
        if costs.ndim < 2 or costs.shape[-1] != shape[1] or costs.size != self._unary.size:
            raise ValueError(f"unary_cost: costs of shape {shape} are wanted, and the shape is"
                             f" {costs.shape}")
        self._unary = costs.reshape(shape).astype(self._kind)

    def set_site_data_cost(self, site: int, label: int, e: Any) -> None:  # noqa: A002
        """One unary cost."""
        cost = self._costs(e, "e", never=True)
        self._unary[self._site(site), self._label(label)] = cost[0]

    def set_neighbor_pair(self, s1: int, s2: int, w: Any) -> None:
        """A pair of sites and its weight."""
        self.set_all_neighbors([s1], [s2], [w])

    def set_all_neighbors(self, s1: Any, s2: Any, w: Any) -> None:
        """Pairs of sites and their weights, in three rows of one length."""
        weights = self._costs(w, "w").reshape(-1)
        ends = [arrays.numbers(sites, "a site").reshape(-1) for sites in (s1, s2)]
        if not len(ends[0]) == len(ends[1]) == len(weights):
            raise ValueError("set_all_neighbors: three rows of one length are wanted, and they have"
                             f" {len(ends[0])}, {len(ends[1])} and {len(weights)}")
        for sites in ends:
            for site in sites[(sites < 0) | (sites >= len(self._labels))][:1]:
                self._site(site)
        self._edges.append((arrays.numpy.column_stack(ends), weights))
        self._tables = None

    def set_smooth_cost(self, cost: Any) -> None:
        """All pairwise costs, of shape (labels, labels)."""
        costs = self._costs(cost, "cost")
        if costs.shape != self._pairwise.shape:
            raise ValueError(f"cost: costs of shape {self._pairwise.shape} are wanted, and the"
                             f" shape is {costs.shape}")
        self._set_pairwise(costs.astype(self._kind))

    def set_pair_smooth_cost(self, l1: int, l2: int, cost: Any) -> None:
        """One pairwise cost. After set_smooth_cost_function the others are 0, as in gco-v3."""
        self._pairwise[self._label(l1), self._label(l2)] = self._costs(cost, "cost")[0]
        self._set_pairwise(self._pairwise)

    def set_smooth_cost_function(self, fun: Function) -> None:
        """Pairwise costs by a function, in place of a table: fun(s1, s2, l1, l2) answers what the
        labels `l1` of the site `s1` and `l2` of the site `s2` cost. A pair pays its weight times
        that, with its sites as they were set. Of a function and a table the last that was set
        counts; set_pair_smooth_cost after a function begins a table of zeros.

        The function is called once for each pair and each two labels, when a move, an energy or a
        bound first wants them, and anew after a pair was added or a function set. What it raises
        passes on, and nothing is changed. It answers one number, of which is refused what
        set_smooth_cost refuses: with a fraction it wants energy_is_float=True.

        Each weight times a cost is at most 10,000,000, after a shift by the least of them where
        that is below 0. What is more is Refused, and with energy_is_float=True scaled down.
        Raises TypeError for what cannot be called. Moves and bounds raise ValueError for a weight
        below 0, and OverflowError for a product beyond 64 bits.
        """
        self._asked()
        if not callable(fun):
            raise TypeError("fun: a function of two sites and two labels is wanted, and not"
                            f" {type(fun).__name__}")
        self._set_pairwise(arrays.numpy.zeros_like(self._pairwise), fun)

    def _set_pairwise(self, table: Any, function: Optional[Function] = None) -> None:
        """One table for all pairs, or a function, beside which the table is not used."""
        self._pairwise = table
        self._function = function
        self._tables: Any = None  # what the function answered, of shape (pairs, labels, labels)

    def _site(self, site):
        self._asked()
        site = whole(site, -2**63, 2**63 - 1, "a site")
        if not 0 <= site < len(self._labels):
            raise ValueError(f"there is no site {site}: the sites are 0 to {len(self._labels) - 1}")
        return site

    def _label(self, label):
        self._asked()
        label = whole(label, -2**63, 2**63 - 1, "a label")
        if not 0 <= label < len(self._pairwise):
            raise ValueError(f"there is no label {label}: the labels are 0 to"
                             f" {len(self._pairwise) - 1}")
        return label

    def _pairs(self):
        numpy = arrays.numpy
        if not self._edges:
            return numpy.zeros((0, 2), dtype=int), numpy.zeros(0, dtype=int)
        return (numpy.concatenate([ends for ends, _ in self._edges]),
                numpy.concatenate([weights for _, weights in self._edges]))

    def _answers(self, ends):
        """What the function answers for each pair and each two labels."""
        if self._tables is None:
            count = len(self._pairwise)
            rows = [self._answers_of(first, second) for first, second in ends.tolist()]
            costs = self._costs(rows, "fun")
            self._tables = costs.reshape(-1, count, count).astype(self._kind)
        return self._tables

    def _answers_of(self, first, second):
        every = range(len(self._pairwise))
        answers = [self._function(first, second, a, b) for a in every for b in every]
        try:
            row = arrays.numpy.asarray(answers)
        except ValueError:  # arrays of several shapes
            row = arrays.numpy.zeros(())
        if row.ndim != 1:
            raise ValueError(f"fun: one number is wanted for the sites {first} and {second} and two"
                             " labels")
        return row

    def _weighed(self, ends, weights, down):
        """The answers of the function times the weights."""
        numpy, tables = arrays.numpy, self._answers(ends)
        if weights.size and weights.min() < 0:
            raise ValueError(f"weights: {weights.min()} is below 0: a weight is from 0 on")
        greatest = numpy.maximum(tables.max(axis=(1, 2)).astype(float),
                                 -tables.min(axis=(1, 2)).astype(float))
        with numpy.errstate(over="ignore"):
            beyond = greatest * weights >= (2.0**60 if self._kind is int else numpy.inf)
        if beyond.any():
            place = int(beyond.argmax())
            first, second = ends[place]
            raise OverflowError(f"fun: the pair of sites {first} and {second} costs up to"
                                f" {weights[place]} times {greatest[place]:.12g}, which is beyond"
                                " 64 bits")
        return weighted_tables(tables, weights, down)

    def _problem(self, down=False):
        """Pairwise costs and pairs, and the limits of costs and weights. Products of the function
        are rounded to the nearest, or `down`."""
        ends, weights = self._pairs()
        if self._function is None:
            return self._pairwise, ends, weights, ONE_TABLE
        ones = arrays.numpy.ones(len(ends), dtype=int)
        return self._weighed(ends, weights, down), ends, ones, EACH_TABLE

    def _moved(self, move, *numbers, **more):
        """Makes moves from the labels, and answers the energy."""
        self._asked()
        pairwise, ends, weights, limits = self._problem()
        costs = whole_costs(self._unary, pairwise, weights, limits=limits)
        pairs = arrays.numpy.column_stack([ends, costs.weights]).reshape(-1, 3)
        self.scale = costs.scale
        found = move(costs.unary, costs.pairwise, pairs, *numbers, start=self._labels, **more)
        self._labels = found.labels.astype(arrays.numpy.int32)
        return self.compute_energy()

    def expansion(self, niters: int = -1) -> Any:
        """Cycles of expansions, all that change something if `niters` is -1. Answers the energy."""
        return self._moved(label, cycles=cycles_of(niters))

    def expansion_on_alpha(self, label: int) -> Any:
        """One expansion. Answers the energy."""
        return self._moved(expand, self._label(label))

    def swap(self, niters: int = -1) -> Any:
        """Cycles of swaps. Answers the energy."""
        return self._moved(label, moves="swap", cycles=cycles_of(niters))

    def alpha_beta_swap(self, l1: int, l2: int) -> Any:
        """One swap. Answers the energy."""
        return self._moved(swap, self._label(l1), self._label(l2))

    def lower_bound(self, passes: int = PASSES) -> Any:
        """A number that no labelling's energy is below, in the caller's own costs and rounded down:
        see gco_proved.lower_bound. The labels stay as they are."""
        self._asked()
        pairwise, ends, weights, limits = self._problem(down=True)
        return bound_in_units(self._unary, pairwise, ends, weights, passes, limits).low

    def compute_energy(self) -> Any:
        """The energy of the labels."""
        return self.compute_data_energy() + self.compute_smooth_energy()

    def compute_data_energy(self) -> Any:
        """What the labels cost at the sites."""
        self._asked()
        every = arrays.numpy.arange(len(self._labels))
        return _sum_of(self._unary[every, self._labels], arrays.numpy.ones(1, dtype=int))

    def compute_smooth_energy(self) -> Any:
        """What the labels cost at the pairs."""
        self._asked()
        ends, weights = self._pairs()
        first, second = self._labels[ends[:, 0]], self._labels[ends[:, 1]]
        if self._function is None:
            paid = self._pairwise[first, second]
        else:
            paid = self._answers(ends)[arrays.numpy.arange(len(ends)), first, second]
        return _sum_of(paid, weights)

    def get_label_at_site(self, site: int) -> int:
        return int(self._labels[self._site(site)])

    def get_labels(self) -> Any:
        """The labels, one for each site."""
        self._asked()
        return self._labels.copy()

    def init_label_at_site(self, site: int, label: int) -> None:
        """The label that a site has before the first move."""
        self._labels[self._site(site)] = self._label(label)


def _sum_of(costs, weights):
    """The sum of costs times weights, which is exact where they are whole, beyond 64 bits too."""
    is_whole = costs.dtype.kind != "f" and weights.dtype.kind != "f"
    if is_whole and abs(costs.astype(float) * weights).sum() >= 2.0**62:
        costs = costs.astype(object)
    total = (costs * weights).sum()
    return int(total) if is_whole else total.item()


__all__ = ["GCO"]
