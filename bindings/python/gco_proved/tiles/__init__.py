"""Pictures and volumes of any size, by tiles: each a run of the library, over processes or a
cluster.

    from gco_proved.tiles import label_tiles
    found = label_tiles(data, smooth, weights, tile=256, executor=4)

A tile whose surroundings are fixed is a problem of its own: a pair over the border goes into the
data cost of the site inside. So a run over a tile never raises the energy of the whole.
"""
from .bound import lower_bound_tiles
from .engines import WorkerDied
from .sweeps import Tiled, label_tiles

__all__ = ["Tiled", "WorkerDied", "label_tiles", "lower_bound_tiles"]
