"""Colours: luminance put back into a colour picture, and segments by the colours of strokes."""
import math
from typing import Any, List

from ..grids import grid_pairs
from .words import numpy_and_pillow

UNIT = 20           # the costs of one nat: at --strong 1000 two like pixels cost 50 nats
PARTS = 5           # Gaussians for the colours of one kind (Rother, Kolmogorov and Blake 2004)
SPREAD = 25.0       # the least variance of a colour in a Gaussian: five of 255
ELSEWHERE = 0.01    # how much of a kind's colours may be any colour
ROWS = 256          # rows that are worked on at a time


def with_luminance(colours: Any, luminance: Any, restored: Any, blue: Any = 0,
                   red: Any = 0) -> Any:
    """The colours after their luminance has become `restored`, by as much in red, green and blue,
    so that Cb and Cr stay; `blue` and `red` are what is added to Cb and Cr (ITU-R BT.601)."""
    numpy, _ = numpy_and_pillow()
    blues, reds = (numpy.broadcast_to(plane, luminance.shape) for plane in (blue, red))
    moved = numpy.empty(colours.shape, dtype=numpy.uint8)
    for row in range(0, len(colours), ROWS):
        at = slice(row, row + ROWS)
        added = restored[at].astype(int) - luminance[at]
        parts = [added + 1.402 * reds[at], added - 0.344136 * blues[at] - 0.714136 * reds[at],
                 added + 1.772 * blues[at]]
        moved[at] = numpy.clip(numpy.rint(colours[at] + numpy.stack(parts, axis=-1)), 0, 255)
    return moved


def chroma(colours: Any, luminance: Any) -> List[Any]:
    """Cb and Cr, from -127.5 to 127.5 (ITU-R BT.601)."""
    return [(colours[..., 2] - luminance) / 1.772, (colours[..., 0] - luminance) / 1.402]


class Levels:
    """Chroma in levels from 0 on, each half as far from the next as the levels of the luminance,
    with one at no colour."""

    def __init__(self, plane: Any, luminances: int) -> None:
        numpy, _ = numpy_and_pillow()
        self.step = 127.5 / min(luminances - 1, 127)
        nearest = numpy.rint(plane / self.step).astype(numpy.int64)
        self.least = int(nearest.min())
        self.count = int(nearest.max()) - self.least + 1
        self.samples = nearest - self.least

    def values(self, labels: Any) -> Any:
        """The chroma of levels."""
        return (labels.astype(int) + self.least) * self.step


class Mixture:
    """Gaussians of the colours of one kind of seeds, by k-means."""

    def __init__(self, colours: Any) -> None:
        numpy, image_class = numpy_and_pillow()
        row = image_class.fromarray(numpy.ascontiguousarray(colours[None]))
        # until at most a hundredth of the colours change their part
        parts = numpy.asarray(row.quantize(PARTS, kmeans=1 + len(colours) // 100))[0]
        self.gaussians = []
        for part in numpy.unique(parts):
            inside = colours[parts == part].astype(float)
            centre = inside.mean(axis=0)
            apart = inside - centre
            covariance = apart.T @ apart / len(inside) + SPREAD * numpy.eye(3)
            share = (1 - ELSEWHERE) * len(inside) / len(colours)
            height = share / math.sqrt((2 * math.pi) ** 3 * numpy.linalg.det(covariance))
            self.gaussians.append((height, centre, numpy.linalg.inv(covariance)))

    def costs(self, colours: Any) -> Any:
        """The negative log likelihood of colours in twentieths of a nat, in whole numbers."""
        numpy, _ = numpy_and_pillow()
        likely = numpy.full(len(colours), ELSEWHERE / 256 ** 3)
        columns = numpy.ascontiguousarray(colours.T)
        for height, centre, inverse in self.gaussians:
            apart = columns - centre[:, None]
            likely += height * numpy.exp(-0.5 * ((inverse.T @ apart) * apart).sum(axis=0))
        return numpy.rint(-UNIT * numpy.log(likely)).astype(numpy.int64)


def model_costs(colours: Any, labels: Any) -> Any:
    """What each of the two segments costs each pixel, by the colours of those that are labelled 1
    and 2; the lesser of the two is 0 (Boykov and Jolly 2001)."""
    flat = colours.reshape(-1, 3)
    return costs_by_models(colours, [Mixture(flat[labels.ravel() == kind]) for kind in (1, 2)])


def costs_by_models(colours: Any, models: List[Mixture]) -> Any:
    """What each model costs each pixel; the least is 0."""
    numpy, _ = numpy_and_pillow()
    flat = colours.reshape(-1, 3).astype(numpy.int32)
    # each colour once, since a photograph has most of its colours many times
    packed, place = numpy.unique(flat @ numpy.array([1 << 16, 1 << 8, 1], dtype=numpy.int32),
                                 return_inverse=True)
    few = numpy.stack([packed >> 16, packed >> 8 & 255, packed & 255], axis=-1)
    each = [model.costs(few) for model in models]
    least = numpy.minimum.reduce(each)
    costs = numpy.stack([cost - least for cost in each], axis=-1)[place]
    return costs.reshape(*colours.shape[:2], len(models))


def squares_apart(first: Any, second: Any) -> Any:
    """How far colours are apart, squared."""
    numpy, _ = numpy_and_pillow()
    squares = (first.astype(numpy.int32) - second) ** 2
    return squares[..., 0] + squares[..., 1] + squares[..., 2]


def usual_edge(colours: Any) -> int:
    """The root of the mean square difference of the colours of neighbours, at least 1."""
    height, width = colours.shape[:2]
    total = 0
    for at in range(0, height, ROWS):
        strip = colours[at:at + ROWS + 1]
        inside = strip[:ROWS]
        total += int(squares_apart(inside[:, 1:], inside[:, :-1]).sum(dtype="int64"))
        total += int(squares_apart(strip[1:], strip[:-1]).sum(dtype="int64"))
    count = height * (width - 1) + (height - 1) * width
    return max(1, int(round(math.sqrt(total / count)))) if count else 1


def contrast_pairs(colours: Any, strong: int, weak: int, edge: int, neighbours: int) -> Any:
    """Pairs of the weight strong * exp(-d^2 / (2 edge^2)) over their distance, to the nearest whole
    number and at least `weak`, d being how far the colours of the two pixels are apart (Boykov and
    Jolly 2001)."""
    numpy, _ = numpy_and_pillow()
    height, width = colours.shape[:2]
    pairs = grid_pairs(width, height, 1, neighbours)
    flat = colours.reshape(-1, 3)
    apart = squares_apart(flat[pairs[:, 0]], flat[pairs[:, 1]])
    across = (pairs[:, 1] // width > pairs[:, 0] // width) \
        & (pairs[:, 1] % width != pairs[:, 0] % width)
    pairs[:, 2] = contrast_weights(apart, across, strong, weak, edge)
    return pairs


def contrast_weights(apart: Any, across: Any, strong: int, weak: int, edge: int) -> Any:
    """The weights of pairs whose colours are so far apart, squared; which of them lead across."""
    numpy, _ = numpy_and_pillow()
    weights = strong * numpy.exp(-apart / (2.0 * edge * edge))
    weights = numpy.where(across, weights / math.sqrt(2), weights)
    return numpy.maximum(numpy.rint(weights), weak)
