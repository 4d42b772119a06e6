#!/usr/bin/env python3
"""Draws the pictures of README.md and docs/IMAGES.md from what the program writes.

    gallery.py --gco crates/gco/out/gco examples docs

Reads the pictures of `examples/`, runs `gco restore`, `gco stereo` and `gco segment` on them as the
pages say, and writes `photo.png`, `room.png`, `man.png`, `restored.png`, `levels.png`,
`disparities.png` and `segments.png` into the folder that is named last. numpy and Pillow are needed
(Debian: python3-numpy python3-pil).
"""
import argparse
import subprocess
from pathlib import Path

import numpy
from PIL import Image

SCALE = 3  # of the small pictures
GAP = 8
LABEL_COLOURS = {1: (255, 60, 60), 2: (60, 140, 255)}
BORDER = (255, 210, 0)
TINT = (20, 70, 127)


def read_pgms(data):
    """The pictures of a P5 file of one byte a sample without comments: samples by row and
    column, and their maxval."""
    pictures = []
    while data:
        width, height, maxval = (int(word) for word in data.split(None, 4)[1:4])
        start = len(b"P5\n%d %d\n%d\n" % (width, height, maxval))
        samples = numpy.frombuffer(data[start : start + width * height], numpy.uint8)
        pictures.append((samples.reshape(height, width), maxval))
        data = data[start + width * height :]
    return pictures


def pgm(samples, maxval):
    """A picture as the bytes of a P5 file."""
    return (
        b"P5\n%d %d\n%d\n" % (samples.shape[1], samples.shape[0], maxval)
        + samples.astype(numpy.uint8).tobytes()
    )


def in_depth(samples, old, new):
    """Samples of one maxval in another, as `pamdepth` rounds them."""
    return (samples.astype(numpy.int64) * new + old // 2) // old


def photo(path):
    """The grey samples of a photograph."""
    return numpy.asarray(Image.open(path).convert("L"))


def run(gco, command, data):
    """The picture that the program writes for an input: its labels and their maxval."""
    return read_pgms(
        subprocess.run([gco, *command.split()], input=data, capture_output=True, check=True).stdout
    )[0]


def grey(picture):
    """A picture of labels or samples, from black to white."""
    samples, maxval = picture
    return in_depth(samples, maxval, 255).astype(numpy.uint8)


def coloured(samples):
    """A grey picture as one of colours, in 32 levels, so that all its colours fit a palette."""
    few = in_depth(in_depth(samples, 255, 31), 31, 255).astype(numpy.uint8)
    return numpy.repeat(few[:, :, None], 3, axis=2)


def image_of(drawn):
    """Samples as an image: one byte a pixel, by a palette where they are colours."""
    if drawn.ndim == 2:
        return Image.fromarray(drawn)
    colours, places = numpy.unique(drawn.reshape(-1, 3), axis=0, return_inverse=True)
    image = Image.fromarray(places.reshape(drawn.shape[:2]).astype(numpy.uint8), "P")
    image.putpalette(colours.astype(numpy.uint8).tobytes())
    return image


def seeded(samples, seeds):
    """A picture with its seeds in two colours."""
    drawn = coloured(samples)
    for seed, colour in LABEL_COLOURS.items():
        drawn[seeds == seed] = colour
    return drawn


def cut_out(samples, labels):
    """A picture, whose pixels of label 1 are tinted and whose border between the labels is
    drawn."""
    drawn = coloured(samples)
    drawn[labels == 1] = drawn[labels == 1] // 2 + numpy.array(TINT, numpy.uint8)
    border = numpy.zeros(labels.shape, bool)
    border[:, :-1] |= labels[:, :-1] != labels[:, 1:]
    border[:-1] |= labels[:-1] != labels[1:]
    drawn[border] = BORDER
    return drawn


def beside(pictures):
    """Pictures of one height, side by side on white."""
    parts = []
    for picture in pictures:
        shape = (picture.shape[0], GAP, *picture.shape[2:])
        parts += ([numpy.full(shape, 255, numpy.uint8)] if parts else []) + [picture]
    return numpy.concatenate(parts, axis=1)


def write_png(path, pictures, scale=1):
    """Writes pictures side by side, each pixel as a square of `scale` pixels."""
    drawn = beside([picture.repeat(scale, axis=0).repeat(scale, axis=1) for picture in pictures])
    image_of(drawn).save(path, "PNG", optimize=True)


def draw_photos(gco, examples, docs):
    """The photographs: 512 pixels a side, from the files that the pages begin with."""
    noisy = in_depth(photo(examples / "photo.jpg"), 255, 31)
    restored = run(gco, "restore --smooth linear --trunc 8", pgm(noisy, 31))
    write_png(docs / "photo.png", [grey((noisy, 31)), grey(restored)])

    left, right = photo(examples / "left.jpg"), photo(examples / "right.jpg")
    room = run(
        gco,
        "stereo --labels 40 --smooth linear --trunc 4 --weight 8 --cap 30",
        pgm(left, 255) + pgm(right, 255),
    )
    small = [Image.fromarray(view).resize((256, 192), Image.LANCZOS) for view in (left, right)]
    views = numpy.concatenate([numpy.asarray(view) for view in small])
    write_png(docs / "room.png", [views, grey(room)])

    camera, seeds = photo(examples / "camera.jpg"), in_depth(
        photo(examples / "painted.png"), 255, 2
    )
    man = run(
        gco,
        "segment --low 128 --high 128 --strong 100 --weak 3 --edge 8",
        pgm(camera, 255) + pgm(seeds, 2),
    )
    write_png(docs / "man.png", [seeded(camera, seeds), cut_out(camera, man[0])])


def draw_small(gco, examples, docs):
    """The small examples, each pixel three times as large."""
    noisy = (examples / "noisy.pgm").read_bytes()
    first = grey(read_pgms(noisy)[0])
    potts = grey(run(gco, "restore --weight 4", noisy))
    linear = grey(run(gco, "restore --smooth linear --trunc 3 --weight 2", noisy))
    few = grey(run(gco, "restore --weight 4 --label-cost 50", noisy))
    write_png(docs / "restored.png", [first, potts, linear], SCALE)
    write_png(docs / "levels.png", [first, potts, few], SCALE)

    dots = (examples / "dots.pgm").read_bytes()
    disparities = run(gco, "stereo --labels 8 --weight 30 --cap 80", dots)
    write_png(docs / "disparities.png", [*map(grey, read_pgms(dots)), grey(disparities)], SCALE)

    two = (examples / "seeded.pgm").read_bytes()
    (picture, _), (seeds, _) = read_pgms(two)
    labels, _ = run(gco, "segment --low 40 --high 170 --strong 90 --weak 40 --edge 60", two)
    write_png(docs / "segments.png", [seeded(picture, seeds), cut_out(picture, labels)], SCALE)


def main():
    parser = argparse.ArgumentParser(description=__doc__.splitlines()[0])
    parser.add_argument("--gco", required=True)
    parser.add_argument("examples", type=Path)
    parser.add_argument("docs", type=Path)
    options = parser.parse_args()
    draw_photos(options.gco, options.examples, options.docs)
    draw_small(options.gco, options.examples, options.docs)


if __name__ == "__main__":
    main()
