"""Pairs of sites: in each form that a caller may give them, and those of a picture's neighbours."""
from typing import Any, Optional

from . import arrays
from .arrays import Pairs, Run, is_array, run_of, shape_of, taken, whole

FORMS = "pairs: an array of shape (n, 3), or (n, 2) of weight 1, or a list of (p, q, weight) and" \
    " (p, q) is wanted"


def run_of_pairs(pairs: Any) -> Run:
    """The pairs as one run of three numbers each; a weight that is left out is 1."""
    if isinstance(pairs, Pairs):
        if len(pairs) % 3:
            raise ValueError("pairs: three numbers a pair are wanted")
        return run_of(pairs, "I", "pairs")
    pairs = taken(pairs, "pairs")
    if hasattr(pairs, "shape"):
        return _run_of_rows(pairs)
    triples = Pairs("I")
    for place, pair in enumerate(pairs):
        if not hasattr(pair, "__len__") or len(pair) not in (2, 3) or isinstance(pair, str):
            raise ValueError(f"{FORMS}, and element {place} is {pair!r}")
        try:
            triples.extend(pair)
            if len(pair) == 2:
                triples.append(1)
        except TypeError:
            raise TypeError(f"pairs: element {place} is {pair!r}: whole numbers are wanted:"
                            " scale and round them first") from None
        except OverflowError:
            raise OverflowError(_words_of_range(pair)) from None
    return run_of(triples, "I", "pairs")


def _run_of_rows(pairs):
    if pairs.size == 0:
        return run_of(Pairs("I"), "I", "pairs")
    if len(pairs.shape) != 2 or pairs.shape[1] not in (2, 3):
        raise ValueError(f"{FORMS}, and not one of shape {tuple(pairs.shape)}")
    if not is_array(pairs):  # a memoryview
        return run_of_pairs(pairs.tolist())
    numpy = arrays.numpy
    if pairs.dtype.kind in "iu" and (int(pairs.min()) < 0 or int(pairs.max()) > arrays.MOST["I"]):
        wrong = (pairs < 0) | (pairs > arrays.MOST["I"])
        row = pairs[int(numpy.argmax(wrong.any(axis=1)))]
        raise OverflowError(_words_of_range(row.tolist()))
    if pairs.shape[1] == 2 and pairs.dtype.kind in "iu":
        ones = numpy.ones((len(pairs), 1), dtype=numpy.uint32)
        pairs = numpy.hstack([pairs.astype(numpy.uint32), ones])
    return run_of(pairs, "I", "pairs")


def _words_of_range(pair):
    first, second, weight = (*pair, 1)[:3]
    if not all(0 <= site < 2**32 for site in (first, second)):
        return f"pairs: a site is from 0 on, and there is the pair of {first} and {second}"
    return f"pairs: the pair of sites {first} and {second} has the weight {weight}: a weight is" \
        " from 0 to 1,000"


def grid_pairs(width: int, height: int, weight: int = 1, connect: int = 4,
               right: Any = None, down: Any = None, down_right: Any = None,
               down_left: Any = None) -> Any:
    """The pairs of a picture's neighbours, site x + y * width: of one weight or of one for each.

    `right` has height x (width - 1) weights, `down` (height - 1) x width, and `down_right` and
    `down_left` (height - 1) x (width - 1), the latter of the pair of (y, x + 1) and (y + 1, x).
    """
    width, height = whole(width, 0, 2**31, "width"), whole(height, 0, 2**31, "height")
    weight = whole(weight, 0, 2**32 - 1, "a weight")
    if connect not in (4, 8):
        raise ValueError(f"connect: 4 or 8 is wanted, and not {connect!r}")
    if width * height > 1048576:
        raise ValueError(f"a grid of {width:,} by {height:,} has more than 1,048,576 sites")
    parts = [(1, 0, _fitting(right, height, width - 1, "right")),
             (0, 1, _fitting(down, height - 1, width, "down"))]
    if connect == 8 or down_right is not None:
        parts.append((1, 1, _fitting(down_right, height - 1, width - 1, "down_right")))
    if connect == 8 or down_left is not None:
        parts.append((-1, 1, _fitting(down_left, height - 1, width - 1, "down_left")))
    if arrays.numpy is not None:
        return _pairs_of_arrays(width, height, weight, parts)
    return _pairs_of_rows(width, height, weight, parts)


def _fitting(weights: Optional[Any], height: int, width: int, what: str) -> Optional[Any]:
    """Weights of that shape, else a ValueError."""
    if weights is None:
        return None
    weights = taken(weights, what)
    shape = shape_of(weights, what)
    if shape != (max(height, 0), max(width, 0)) and not (shape == (0,) and height * width <= 0):
        raise ValueError(f"{what}: weights of shape {(max(height, 0), max(width, 0))} are wanted,"
                         f" and not {shape}")
    return weights


def _pairs_of_arrays(width, height, weight, parts):
    numpy = arrays.numpy
    ids = numpy.arange(width * height, dtype=numpy.int64).reshape(height, width)
    rows = []
    for across, along, weights in parts:
        here = ids[:max(height - along, 0), max(-across, 0):width - max(across, 0)]
        rows.append(numpy.empty((here.size, 3), dtype=numpy.int64))
        rows[-1][:, 0] = here.ravel()
        rows[-1][:, 1] = here.ravel() + across + along * width
        rows[-1][:, 2] = weight if weights is None else arrays.numbers(weights, "weights").ravel()
    together = numpy.concatenate(rows)
    return together[numpy.argsort(together[:, 0], kind="stable")]


def _pairs_of_rows(width, height, weight, parts):
    triples = Pairs("I")
    for site in range(width * height):
        y, x = divmod(site, width)
        for across, along, weights in parts:
            if not 0 <= x + across < width or y + along >= height:
                continue
            one = weight
            if weights is not None:
                one = whole(weights[y][x + min(across, 0)], 0, 2**32 - 1, "a weight")
            triples.extend((site, site + across + along * width, one))
    return triples
