"""Pictures as samples: PGM files as they are, and others by Pillow."""
import pathlib
import re
import struct
import warnings
from typing import Any, List, NamedTuple, Optional, Tuple

from .words import Wrong, numpy_and_pillow

LIMIT = 1048576
_GAP = rb"[ \t\r\n](?:[ \t\r\n]|#[^\r\n]*[\r\n])*"
_HEIC = re.compile(rb"....ftyp(?:hei|hev|mif1|msf1|avif|avis)", re.DOTALL)
_HEADER = re.compile(rb"P([25])" + _GAP + rb"(\d+)" + _GAP + rb"(\d+)" + _GAP + rb"(\d+)[ \t\r\n]")


class Picture(NamedTuple):
    """Grey samples, height x width, each from 0 to maxval.

    Of a picture that is not grey, `colours` are its red, green and blue, and `profile` is what its
    file says of them. `notes` are sentences on what was read other than it lies there.
    """

    name: str
    samples: Any
    maxval: int
    colours: Any = None
    profile: Optional[bytes] = None
    notes: Tuple[str, ...] = ()


def bytes_of(name: str) -> bytes:
    """A file's bytes."""
    try:
        return pathlib.Path(name).read_bytes()
    except FileNotFoundError:
        raise Wrong(f"there is no file {name}") from None
    except IsADirectoryError:
        raise Wrong(f"{name} is a folder: give a picture") from None
    except OSError as error:
        raise Wrong(f"{name} cannot be read: {error.strerror}") from None


def read_pictures(name: str) -> List[Picture]:
    """The one picture of a file, or each one of a PGM file."""
    data = bytes_of(name)
    if not data:
        raise Wrong(f"{name} is empty")
    if data[:2] not in (b"P5", b"P2"):
        return [picture_of(*opened(name), name)]
    found, at = [], 0
    while data[at:at + 2] in (b"P5", b"P2"):
        picture, at = _pgm(data, at, name)
        found.append(picture)
        while data[at:at + 1] in (b" ", b"\t", b"\r", b"\n"):
            at += 1
    return found


def _pgm(data: bytes, at: int, name: str) -> Tuple[Picture, int]:
    """The PGM picture that begins there, and where it ends (docs/PGM.md)."""
    numpy, _ = numpy_and_pillow()
    header = _HEADER.match(data, at)
    if header is None:
        raise Wrong(f"{name} begins as a PGM picture at byte {at}, and its header breaks off")
    width, height, maxval = (int(number) for number in header.groups()[1:])
    if not width or not height:
        raise Wrong(f"{name} has {width} x {height} pixels: there is nothing to label")
    if not 0 < maxval < 65536:
        raise Wrong(f"{name} has the maxval {maxval}: a PGM's is from 1 to 65,535")
    count, end = width * height, header.end()
    if header.group(1) == b"5":
        kind = numpy.dtype("u1" if maxval < 256 else ">u2")
        if len(data) - end < count * kind.itemsize:
            raise Wrong(f"{name} ends before its last sample: it was cut off, or is no picture")
        samples = numpy.frombuffer(data, kind, count, end)
        end += count * kind.itemsize
    else:
        samples, end = _plain(data, end, count, name, numpy)
    samples = samples.astype(numpy.int64)
    if samples.max() > maxval:
        place = int(numpy.argmax(samples > maxval))
        raise Wrong(f"{name}: sample {place} is {samples[place]}, above the maxval {maxval}")
    return Picture(name, samples.reshape(height, width), maxval), end


def _plain(data, at, count, name, numpy):
    """The decimal samples of a P2 picture, and where they end."""
    samples = []
    for word in re.compile(rb"#[^\r\n]*|[^\s#]+").finditer(data, at):
        if word.group().startswith(b"#"):
            continue
        if not word.group().isdigit():
            raise Wrong(f"{name}: what stands at byte {word.start()} is no sample")
        samples.append(min(int(word.group()), 2**31))
        if len(samples) == count:
            return numpy.array(samples), word.end()
    raise Wrong(f"{name} ends before its last sample: it was cut off, or is no picture")


def opened(name: str) -> Tuple[Any, List[str]]:
    """Pillow's picture, upright, and sentences on what is read other than it lies there."""
    _, image_class = numpy_and_pillow()
    from PIL import ImageOps, UnidentifiedImageError
    try:
        with warnings.catch_warnings():
            warnings.simplefilter("ignore", image_class.DecompressionBombWarning)
            image = _by_pillow(name)
            notes = _notes(image, name)
            return ImageOps.exif_transpose(image), notes
    except UnidentifiedImageError:
        raise Wrong(f"{name} is no picture that Pillow reads: give a JPEG, PNG, TIFF or PGM") \
            from None
    except image_class.DecompressionBombError:
        raise Wrong(f"{name} is far too large: make it smaller first") from None
    except (OSError, SyntaxError, ValueError, KeyError, TypeError, struct.error) as error:
        raise Wrong(f"{name} is a broken picture: {error}") from None


def _by_pillow(name: str) -> Any:
    """The file by Pillow, and by its module for HEIC if Pillow alone does not read it."""
    _, image_class = numpy_and_pillow()
    from PIL import UnidentifiedImageError
    try:
        return image_class.open(name)
    except UnidentifiedImageError:
        if _HEIC.match(bytes_of(name)) is None:
            raise
    try:
        from pillow_heif import register_heif_opener
    except ImportError:
        raise Wrong(f"{name} is a HEIC or AVIF picture, which Pillow does not read by itself: pip"
                    " install pillow-heif, or save it as a JPEG") from None
    register_heif_opener()
    return image_class.open(name)


def _notes(image: Any, name: str) -> List[str]:
    """What Pillow reads other than it lies in the file."""
    notes = []
    frames = getattr(image, "n_frames", 1)
    if frames > 1 and image.format != "PSD":
        notes.append(f"{name} has {frames} pictures: the first is read")
    kinds = [kind for tile in image.tile for kind in
             (tile[3] if isinstance(tile[3], tuple) else tile[3:])]
    if image.mode in ("RGB", "RGBA", "LA") and any(
            ";16" in str(kind) or (image.format == "PPM" and isinstance(kind, int) and kind > 255)
            for kind in kinds):
        notes.append(f"{name} has 16 bits for each colour: the upper 8 are read")
    if image.mode == "CMYK":
        notes.append(f"{name} has the colours of a printer (CMYK): they are read without its"
                     " profile")
    return notes


def picture_of(image: Any, notes: List[str], name: str) -> Picture:
    """The grey samples of Pillow's picture, and its colours if it has some."""
    numpy, _ = numpy_and_pillow()
    if image.mode == "1":
        return Picture(name, numpy.asarray(image).astype(numpy.int64), 1, notes=tuple(notes))
    if image.mode == "F":
        raise Wrong(f"{name} has samples with a fraction: save it with 8 or 16 bits")
    if image.mode == "I" or image.mode.startswith("I;16"):
        samples = numpy.asarray(image).astype(numpy.int64)
        if samples.min() < 0 or samples.max() > 65535:
            raise Wrong(f"{name} has samples from {samples.min()} to {samples.max()}: save it with"
                        " 8 or 16 bits")
        return Picture(name, samples, 65535, notes=tuple(notes))
    plain = on_white(image)
    if plain is not image:
        notes = [*notes, f"{name} is transparent in parts: they are read as on white paper"]
    if plain.mode in ("P", "PA", "La", "RGBa"):
        plain = with_alpha(plain).convert("RGB")
    shades = coloured(plain, name)
    grey = (plain if plain.mode == "YCbCr" else shades).convert("L")
    grey, colours = numpy.asarray(grey).astype(numpy.int64), numpy.asarray(shades)
    if (colours == colours[..., :1]).all():
        return Picture(name, grey, 255, notes=tuple(notes))
    profile = None if image.mode == "CMYK" else image.info.get("icc_profile")
    return Picture(name, grey, 255, colours, profile, tuple(notes))


def coloured(image: Any, name: str) -> Any:
    """The picture in red, green and blue."""
    try:
        return image.convert("RGB")
    except ValueError:
        raise Wrong(f"{name} has colours of the kind {image.mode}, which Pillow does not turn into"
                    " red, green and blue: save it as RGB") from None


def has_alpha(image: Any) -> bool:
    """Whether the picture says of its pixels how transparent they are."""
    return image.mode in ("RGBA", "LA", "PA", "La", "RGBa") or "transparency" in image.info


def with_alpha(image: Any) -> Any:
    """The picture in red, green, blue and alpha."""
    if image.mode == "La":
        image = image.convert("LA")
    return image.convert("RGBA")


def on_white(image: Any) -> Any:
    """The picture as it looks on white paper; itself if nothing of it is transparent."""
    _, image_class = numpy_and_pillow()
    if not has_alpha(image):
        return image
    over = with_alpha(image)
    if over.getchannel("A").getextrema()[0] == 255:
        return image
    paper = image_class.new("RGBA", over.size, "white")
    return image_class.alpha_composite(paper, over).convert("RGB")


def fitted_sides(height: int, width: int) -> Tuple[int, int]:
    """The sides of a picture of at most the limit's pixels, of the same form."""
    factor = min((LIMIT / (height * width)) ** 0.5, 1.0)
    return max(int(height * factor), 1), max(min(int(width * factor), LIMIT), 1)


def fitted(picture: Picture, fit: bool) -> Picture:
    """The picture, made smaller where one problem does not take it and that is asked for."""
    height, width = picture.samples.shape
    if height * width <= LIMIT or not fit:
        return picture
    rows, columns = fitted_sides(height, width)
    numpy, image_class = numpy_and_pillow()
    image = image_class.fromarray(picture.samples.astype(numpy.float32))
    image = image.resize((columns, rows), image_class.LANCZOS)
    samples = numpy.clip(numpy.rint(numpy.asarray(image)), 0, picture.maxval)
    colours = picture.colours
    if colours is not None:
        image = image_class.fromarray(colours).resize((columns, rows), image_class.LANCZOS)
        colours = numpy.asarray(image)
    return picture._replace(samples=samples.astype(numpy.int64), colours=colours)


def fitted_seeds(seeds: Any, sides: Optional[Tuple[int, int]]) -> Any:
    """Seeds made as small as their picture, each pixel by its nearest."""
    if sides is None or seeds.shape == sides:
        return seeds
    numpy, image_class = numpy_and_pillow()
    image = image_class.fromarray(seeds.astype(numpy.uint8))
    return numpy.asarray(image.resize((sides[1], sides[0]), image_class.NEAREST)).astype(int)
