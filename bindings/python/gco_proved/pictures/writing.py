"""Labels as pictures: 8 or 16 bits, as they are or spread over all greys."""
import os
import pathlib
import tempfile
from typing import Any, Dict, Optional

from .words import Wrong, numpy_and_pillow

QUICK = 1 << 22  # a PNG of so many samples is compressed as fast as can be: else it takes longest
WIDE = {".png", ".pgm", ".tif", ".tiff"}
LOSSY = {".jpg", ".jpeg", ".webp", ".jp2"}


def look_at(name: str, bits: int, exact: bool) -> None:
    """Whether a file of that name can hold the labels, before any work is done."""
    _, image_class = numpy_and_pillow()
    path = pathlib.Path(name)
    image_class.init()
    ending = path.suffix.lower()
    if ending != ".pgm" and ending not in image_class.EXTENSION:
        raise Wrong(f"{name}: which kind of picture is that? End its name in .png, .pgm or .tif")
    if bits == 16 and ending not in WIDE:
        raise Wrong(f"{name}: 16 bits go into .png, .pgm and .tif: choose one, or give --bits 8")
    if exact and ending in LOSSY:
        raise Wrong(f"{name}: a {ending[1:].upper()} picture does not keep labels as they are:"
                    " write .png, .pgm or .tif")
    if not (path.parent if str(path.parent) else pathlib.Path(".")).is_dir():
        raise Wrong(f"{name}: there is no folder {path.parent}")


def spread(labels: Any, greatest: int, bits: int, scale: bool) -> Any:
    """Labels from 0 to the greatest as samples: as they are, or over all greys to the nearest."""
    top = 2**bits - 1
    if not scale or greatest == 0:
        return labels
    return (labels.astype(int) * top * 2 + greatest) // (2 * greatest)


def write_picture(name: str, samples: Any, bits: int, profile: Optional[bytes] = None) -> None:
    """Writes the file whole, or leaves what stood there; `profile` says what its colours are."""
    numpy, image_class = numpy_and_pillow()
    path = pathlib.Path(name)
    kind = numpy.uint8 if bits == 8 else numpy.uint16
    samples = numpy.ascontiguousarray(samples.astype(kind))
    try:
        with tempfile.NamedTemporaryFile(dir=path.parent, prefix=path.name, suffix=".part",
                                         delete=False) as file:
            if path.suffix.lower() == ".pgm":
                height, width = samples.shape
                file.write(b"P5\n%d %d\n%d\n" % (width, height, 2**bits - 1))
                file.write(samples.astype(">u2" if bits == 16 else "u1").tobytes())
            else:
                image = image_class.fromarray(samples)
                more: Dict[str, Any] = {} if profile is None else {"icc_profile": profile}
                if path.suffix.lower() == ".png" and samples.size > QUICK:
                    more["compress_level"] = 1
                image.save(file, format=image_class.EXTENSION[path.suffix.lower()], **more)
        os.chmod(file.name, 0o666 & ~_mask())
        os.replace(file.name, path)
    except OSError as error:
        pathlib.Path(file.name).unlink(missing_ok=True) if "file" in locals() else None
        raise Wrong(f"{name} cannot be written: {error.strerror or error}") from None


def _mask() -> int:
    """What the system takes away from a new file's rights."""
    kept = os.umask(0)
    os.umask(kept)
    return kept
