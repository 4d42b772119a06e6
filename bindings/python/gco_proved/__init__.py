"""gco for Python: labels of least energy by moves, each to the best labelling that it reaches, in
whole numbers.

    import gco_proved as gco                 # or `import gco`, where gco-wrapper is not installed
    found = gco.label(data, smooth, pairs)   # sites x labels, labels x labels, [(p, q, weight), ..]
    found.labels, found.energy

Costs are whole numbers: those with a fraction are a TypeError (label takes scale=True), those
beyond their bits an
OverflowError, those beyond gco's limits a Refused, a wrong shape a ValueError, and none wraps.
numpy arrays are taken and given where numpy is there, and lists and array.array else. A call holds
no lock of Python while it runs, and calls in several threads do not meet.

label, expand, swap              labels of sites; potts, linear and quadratic make smooth costs
lower_bound, Found.gap           how near the least energy they are
GCO, cut_general_graph, cut_grid_graph, cut_grid_graph_simple    the same, by gco-wrapper's names
cut_simple, cut_simple_vh, cut_from_graph    the same, by pygco's names
maxflow.Graph, maxflow.fastmin   a minimum cut and moves on grids, by PyMaxflow's names
minimise                         the least assignment of yes-no variables
restore_pgm, stereo_pgm, segment_pgm    the picture commands, from bytes of PGM to bytes of PGM

`python -m gco` restores, matches and segments pictures: `python -m gco --help`.
"""
from . import maxflow
from .cuts import cut_from_graph, cut_general_graph, cut_grid_graph, cut_grid_graph_simple
from .cuts import cut_simple, cut_simple_vh
from .grids import grid_pairs
from .labelling import Found, expand, label, linear, potts, quadratic, swap
from .lower_bound import LowerBound, lower_bound
from .maxflow import Graph, GraphFloat, GraphInt, abswap_grid, aexpansion_grid
from .maxflow import energy_of_grid_labeling, fastmin, moore_structure, vonNeumann_structure
from .minimum import minimise
from .optimiser import GCO
from .pgm import Labelled, restore_pgm, segment_pgm, stereo_pgm
from .refusals import Refused
from .scaling import Scaled

try:
    from ._version import VERSION as __version__
except ImportError:  # the package as it lies in the repository, not laid out by make
    __version__ = "0+source"

__all__ = ["Found", "GCO", "Graph", "GraphFloat", "GraphInt", "Labelled", "LowerBound",
           "Refused", "Scaled", "abswap_grid", "aexpansion_grid", "cut_from_graph", "cut_general_graph",
           "cut_grid_graph", "cut_grid_graph_simple", "cut_simple", "cut_simple_vh",
           "energy_of_grid_labeling", "expand", "fastmin", "grid_pairs", "label", "linear",
           "lower_bound", "maxflow", "minimise", "moore_structure", "potts", "quadratic",
           "restore_pgm", "segment_pgm", "stereo_pgm", "swap", "vonNeumann_structure",
           "__version__"]
