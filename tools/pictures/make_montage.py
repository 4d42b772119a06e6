#!/usr/bin/env python3
"""Makes the photographs of `examples/montage.py`, and the picture of what it makes of them.

    PYTHONPATH=bindings/dist/python tools/pictures/make_montage.py examples docs

writes `passer1.jpg`, `passer2.jpg` and `passer3.jpg` into the first folder: its `camera.jpg`, shrunk,
with noise, and each time with another passer-by. The second folder gets `montage.png`: the three, the
montage, and which photograph each pixel is from. numpy and Pillow are needed.
"""
import runpy
import sys
from pathlib import Path

import numpy
from PIL import Image, ImageDraw

SIDE, SIGMA, DRAWN = 256, 4, 150
PASSERS = [(218, 92, 205), (200, 112, 40), (30, 100, 190)]  # column, top and grey of each
COLOURS = numpy.array([(214, 96, 77), (67, 147, 195), (246, 232, 160)], dtype=numpy.uint8)


def with_passer(picture, column, top, grey):
    """The picture with someone who walks there."""
    drawn = picture.copy()
    draw = ImageDraw.Draw(drawn)
    draw.ellipse([column - 9, top, column + 9, top + 22], fill=grey)
    draw.rounded_rectangle([column - 15, top + 23, column + 15, top + 84], radius=9, fill=grey)
    draw.polygon([(column - 12, top + 80), (column + 12, top + 80), (column + 22, top + 138),
                  (column + 10, top + 138), (column, top + 96), (column - 14, top + 138),
                  (column - 26, top + 138)], fill=grey)
    return drawn


def main():
    examples, docs = map(Path, sys.argv[1:])
    camera = Image.open(examples / "camera.jpg").resize((SIDE, SIDE), Image.LANCZOS)
    random = numpy.random.default_rng(2004)
    names = [examples / f"passer{number}.jpg" for number in (1, 2, 3)]
    for name, passer in zip(names, PASSERS):
        seen = numpy.asarray(with_passer(camera, *passer)) + random.normal(0, SIGMA, (SIDE, SIDE))
        Image.fromarray(numpy.clip(numpy.rint(seen), 0, 255).astype(numpy.uint8)).save(name, quality=80)
    example = runpy.run_path(str(Path(__file__).parents[2] / "examples" / "montage.py"))
    photographs = numpy.array([numpy.asarray(Image.open(name)) for name in names], dtype=numpy.int32)
    labels = example["montage"](photographs).labels
    tiles = [Image.open(name).convert("RGB") for name in names]
    tiles += [Image.fromarray(example["taken"](photographs, labels)).convert("RGB"), Image.fromarray(COLOURS[labels])]
    drawn = Image.new("RGB", (len(tiles) * (DRAWN + 6) - 6, DRAWN), "white")
    for place, tile in enumerate(tiles):
        drawn.paste(tile.resize((DRAWN, DRAWN), Image.LANCZOS), (place * (DRAWN + 6), 0))
    drawn.quantize(128).save(docs / "montage.png", optimize=True)


if __name__ == "__main__":
    main()
