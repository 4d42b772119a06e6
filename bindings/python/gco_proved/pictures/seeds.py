"""Seeds: 0 for nothing, 1 for the first segment and 2 for the second, of a mask or of strokes."""
from typing import Any, Optional

from . import reading
from .reading import Picture
from .words import Undecided, numpy_and_pillow

COLOURED = 64  # by how much the first of red, green and blue is above the others in a stroke
TINTED = 32    # by how much they differ where a pixel has a colour at all
LOSSY = ("JPEG", "MPO", "WEBP", "JPEG2000")
KINDS = {1: "first", 2: "second"}


def read_seeds(name: str, photograph: Picture) -> Any:
    """The seeds of a file. Strokes may be painted on a layer of their own, on a plain sheet, or on
    a copy of the photograph: then what differs from it is the stroke."""
    numpy, _ = numpy_and_pillow()
    if reading.bytes_of(name)[:2] in (b"P5", b"P2"):
        return seeds_of(reading.read_pictures(name)[0], photograph)
    image, notes = reading.opened(name)
    picture = reading.picture_of(image, notes, name)
    opaque = None
    if reading.has_alpha(image):
        opaque = numpy.asarray(reading.with_alpha(image).getchannel("A")) > 127
        opaque = None if opaque.all() else opaque
    if picture.colours is None:
        return seeds_of(picture, photograph, opaque)
    return _of_colours(picture, photograph, opaque, 8 if image.format in LOSSY else 2)


def seeds_of(picture: Picture, photograph: Optional[Picture] = None, opaque: Any = None) -> Any:
    """Seeds of a grey mask, or of grey strokes on a layer or on a copy of the photograph."""
    numpy, _ = numpy_and_pillow()
    if opaque is not None:
        return _of_strokes(picture, opaque)
    values = numpy.unique(picture.samples)
    if values.max() <= 2:
        return picture.samples
    if len(values) > 3 and photograph is not None and photograph.maxval == picture.maxval:
        painted, _ = _painted_on(picture.samples, photograph.samples)
        if painted is not None:
            return _of_strokes(picture, painted)
    return _of_mask(picture, values)


def _of_mask(picture, values):
    """Seeds of a mask: its three values in rising order, or 0 and one more."""
    numpy, _ = numpy_and_pillow()
    if len(values) > 3:
        raise Undecided(_many(picture, len(values)))
    if len(values) == 3:
        return numpy.searchsorted(values, picture.samples)
    if picture.samples.min() > 0:
        raise Undecided(f"{picture.name} has no pixel of 0, so it leaves none open: 0 says nothing,"
                        " a middle grey is the first segment, and white the second")
    return numpy.where(picture.samples == 0, 0, _by_brightness(picture))


def _of_strokes(picture, painted):
    """Seeds of grey strokes: two greys in rising order, or one by its brightness."""
    numpy, _ = numpy_and_pillow()
    values = numpy.unique(picture.samples[painted])
    if len(values) > 3:
        raise Undecided(_many(picture, len(values)))
    if len(values) == 1:
        return numpy.where(painted, _by_brightness(picture), 0)
    places = numpy.searchsorted(values, picture.samples)
    return numpy.where(painted, places + (len(values) == 2), 0)


def _by_brightness(picture):
    """The first segment for a middle grey, and the second for white."""
    numpy, _ = numpy_and_pillow()
    return numpy.where(picture.samples * 4 <= 3 * picture.maxval, 1, 2)


def _many(picture, count):
    return (f"{picture.name} has {count} greys, and seeds have three (nothing, first segment,"
            " second segment): draw without soft edges and save as PNG, or draw the first in red"
            " and the second in blue")


def _painted_on(samples, photograph):
    """What differs from the photograph if at least half of the picture is as there, else None; and
    whether that half is so to the bit."""
    if samples.shape != photograph.shape:
        return None, False
    apart = abs(samples.astype(int) - photograph)
    if apart.ndim > 2:
        apart = apart.max(axis=2)
    if 2 * (apart == 0).sum() >= apart.size:
        return apart > 0, True
    return (apart > 32 if 2 * (apart <= 8).sum() >= apart.size else None), False


def _of_colours(picture, photograph, opaque, edge):
    """Seeds of strokes of red and blue; `edge` is how wide the soft edge of a stroke is."""
    numpy, _ = numpy_and_pillow()
    colours = picture.colours.astype(int)
    red, green, blue = colours[..., 0], colours[..., 1], colours[..., 2]
    first = red - numpy.maximum(green, blue) > COLOURED
    second = blue - numpy.maximum(red, green) > COLOURED
    tinted = painted = colours.max(axis=2) - colours.min(axis=2) > TINTED
    under = photograph.colours
    if under is None:
        greys = photograph.samples * 255 // photograph.maxval
        under = numpy.repeat(greys[..., None], 3, axis=2)
    on_copy, exact = _painted_on(colours, under)
    if on_copy is not None:
        painted = on_copy if exact else on_copy & tinted
    elif opaque is not None:
        painted = opaque
    if opaque is not None:
        painted = painted & opaque
    first, second = first & painted, second & painted
    other = painted & ~_widened(first | second, edge)
    if other.any():
        row, column = (int(place) for place in numpy.argwhere(other)[0])
        raise Undecided(
            f"{picture.name} has {int(other.sum()):,} pixels of a colour that is neither red (the"
            " first segment) nor blue (the second), as"
            f" {tuple(int(part) for part in colours[row, column])} in row {row}, column {column}:"
            " paint these two colours alone")
    if not first.any() and not second.any():
        return seeds_of(picture._replace(colours=None), None, opaque)
    return numpy.where(first, 1, numpy.where(second, 2, 0))


def _widened(places, steps):
    """The places, and those at most so many rows and columns from one of them."""
    numpy, image_class = numpy_and_pillow()
    from PIL import ImageFilter
    image = image_class.fromarray(places.astype(numpy.uint8))
    return numpy.asarray(image.filter(ImageFilter.MaxFilter(2 * steps + 1))) > 0


def missing_kinds(seeds: Any) -> str:
    """The segments that have no seed, in words; nothing if both have one."""
    return " and ".join(word for kind, word in KINDS.items() if not (seeds == kind).any())
