#!/usr/bin/env python3
"""Makes the pictures that are measured: PGM files in a folder, the same bytes each time.

    python3 bench/inputs.py bench/out/inputs

They come from `examples/camera.jpg`, and of scikit-image's data (Debian: python3-skimage) from the
stereo pair "motorcycle". Without that package the stereo pair is `examples/left.jpg` and its
fellow, at the same sizes. numpy and Pillow are needed.
"""
import sys
from pathlib import Path

import numpy
from PIL import Image

EXAMPLES = Path(__file__).resolve().parent.parent / "examples"
SKIMAGE = Path("/usr/lib/python3/dist-packages/skimage/data")
MOTORCYCLE = [SKIMAGE / "motorcycle_left.png", SKIMAGE / "motorcycle_right.png"]
ROOM = [EXAMPLES / "left.jpg", EXAMPLES / "right.jpg"]
CAMERA = EXAMPLES / "camera.jpg"

# Name, side in pixels, greatest level, noise as a share of the levels, seed. 5 % of the samples are
# replaced.
NOISY = [
    ("camera64_4", 64, 3, 0.11, 1),
    ("camera64_8", 64, 7, 0.11, 2),
    ("camera64_256", 64, 255, 0.05, 3),
    ("camera128_16", 128, 15, 0.08, 4),
    ("camera256_4", 256, 3, 0.11, 5),
    ("camera256_8", 256, 7, 0.11, 6),
    ("camera256_64", 256, 63, 0.05, 7),
    ("camera256_256", 256, 255, 0.05, 8),
    ("camera512_4", 512, 3, 0.11, 9),
    ("camera512_8", 512, 7, 0.11, 10),
    ("camera1024_4", 1024, 3, 0.11, 11),
]
STEREO = [("stereo185", (185, 125)), ("stereo370", (370, 250)), ("stereo741", (741, 500))]
SEGMENT = [("segment256", 256), ("segment512", 512), ("segment1024", 1024)]
# Where the seeds are: left, top, right and bottom as shares of the sides.
MAN = [(0.33, 0.40, 0.40, 0.75)]
SKY = [(0.02, 0.05, 0.25, 0.10), (0.75, 0.05, 0.95, 0.20)]


def grey(path, size):
    """The picture in grey at a size, as numbers from 0 to 255."""
    with Image.open(path) as picture:
        picture = picture.convert("L")
        way = Image.BOX if size[0] < picture.size[0] else Image.BICUBIC
        return numpy.asarray(picture.resize(size, way)).astype(numpy.float64)


def pgm(samples, maxval):
    height, width = samples.shape
    return b"P5\n%d %d\n%d\n" % (width, height, maxval) + samples.astype(numpy.uint8).tobytes()


def noisy(side, maxval, share, seed):
    """The photograph in few levels, with Gaussian noise and wrong samples."""
    generator = numpy.random.RandomState(seed)
    levels = grey(CAMERA, (side, side)) / 255 * maxval
    levels += generator.normal(0, share * (maxval + 1), levels.shape)
    levels = numpy.clip(numpy.rint(levels), 0, maxval)
    wrong = generator.random_sample(levels.shape) < 0.05
    levels[wrong] = generator.randint(0, maxval + 1, levels.shape)[wrong]
    return pgm(levels, maxval)


def stereo(size):
    """The left view, and then the right one."""
    views = MOTORCYCLE if all(path.exists() for path in MOTORCYCLE) else ROOM
    return b"".join(pgm(grey(view, size), 255) for view in views)


def seeded(side):
    """The photograph, and then its seeds: 1 is the man and 2 the sky."""
    seeds = numpy.zeros((side, side))
    for boxes, seed in ((MAN, 1), (SKY, 2)):
        for box in boxes:
            left, top, right, bottom = (int(share * side) for share in box)
            seeds[top : bottom + 1, left : right + 1] = seed
    return pgm(grey(CAMERA, (side, side)), 255) + pgm(seeds, 2)


def make_inputs(folder):
    """Writes the pictures that the folder does not have."""
    folder.mkdir(parents=True, exist_ok=True)
    wanted = [(name, noisy, rest) for name, *rest in NOISY]
    wanted += [(name, stereo, rest) for name, *rest in STEREO]
    wanted += [(name, seeded, rest) for name, *rest in SEGMENT]
    for name, make, rest in wanted:
        file = folder / f"{name}.pgm"
        if not file.exists():
            file.write_bytes(make(*rest))


def main():
    if len(sys.argv) != 2:
        sys.exit(__doc__)
    make_inputs(Path(sys.argv[1]))


if __name__ == "__main__":
    main()
