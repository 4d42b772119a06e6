#!/usr/bin/env python3
"""Makes the photographs of `examples/`: those that a camera and a paint program would give.

    make_photos.py examples

writes into that folder
- `photo.jpg`, scikit-image's "camera" (512 by 512) with Gaussian noise of sigma 20: for `gco
  restore`;
- `left.jpg`, `right.jpg`, two views of a made room: a wall of bricks, a floor of gravel, and a
  picture on a stand that comes nearer from left to right: for `gco stereo`;
- `painted.png`, strokes over "camera": 0 nothing is said, 128 the man, 255 what is behind him: for
  `gco segment`;
- `camera.jpg`, that photograph without noise, to go with the strokes.
The photographs and textures are CC0. numpy, Pillow and scikit-image are needed (Debian:
python3-skimage).
"""
import sys
from pathlib import Path

import numpy
from PIL import Image, ImageDraw
from skimage import data

WIDTH, HEIGHT = 512, 384
WALL, FLOOR_TOP, FLOOR_STEPS = 4, 232, 20
STAND = (150, 60, 362, 300)  # left, top, right, bottom in the left view
STAND_NEAR, STAND_FAR = 36, 20
SIGMA = 20


def noisy(picture, sigma, seed):
    """The picture with Gaussian noise, as bytes."""
    noise = numpy.random.default_rng(seed).normal(0, sigma, picture.shape)
    return numpy.clip(numpy.rint(picture + noise), 0, 255).astype(numpy.uint8)


def disparity():
    """How far each pixel of the left view lies further to the left in the right one."""
    rows, columns = numpy.mgrid[0:HEIGHT, 0:WIDTH]
    floor = WALL + (rows - FLOOR_TOP) * FLOOR_STEPS // (HEIGHT - FLOOR_TOP)
    made = numpy.where(rows < FLOOR_TOP, WALL, floor)
    left, top, right, bottom = STAND
    on_stand = (rows >= top) & (rows < bottom) & (columns >= left) & (columns < right)
    return numpy.where(
        on_stand, STAND_FAR + (columns - left) * (STAND_NEAR - STAND_FAR) // (right - left), made
    )


def views():
    """The left and the right view of the room, without noise."""
    wall, gravel = data.brick(), data.gravel()
    rows, columns = numpy.mgrid[0:HEIGHT, 0:WIDTH]
    left, top, right, bottom = STAND
    poster = numpy.asarray(
        Image.fromarray(data.camera()).resize((right - left, bottom - top), Image.LANCZOS)
    )

    def room(shift):
        """Wall and floor, seen with each row moved by a part of its disparity."""
        floor = WALL + numpy.maximum(rows - FLOOR_TOP, 0) * FLOOR_STEPS // (HEIGHT - FLOOR_TOP)
        seen = (columns + shift * floor) % 512
        return numpy.where(rows < FLOOR_TOP, wall[rows, seen], gravel[rows % 512, seen])

    one, other = room(0), room(1)
    one[top:bottom, left:right] = poster
    for column in range(left, right):
        moved = STAND_FAR + (column - left) * (STAND_NEAR - STAND_FAR) // (right - left)
        other[top:bottom, column - moved] = poster[:, column - left]
    return one, other


def strokes():
    """What a person paints over the photograph: the man in 128, what is behind him in 255."""
    mask = Image.new("L", (512, 512), 0)
    draw = ImageDraw.Draw(mask)
    draw.line(
        [(235, 85), (185, 100), (130, 160), (90, 250), (60, 400), (60, 500)], fill=128, width=12
    )
    draw.line([(110, 300), (200, 250), (270, 290)], fill=128, width=12)
    draw.line([(20, 40), (160, 30), (330, 60), (490, 40)], fill=255, width=12)
    draw.line([(380, 250), (440, 300), (420, 420)], fill=255, width=12)
    draw.line([(20, 120), (80, 110)], fill=255, width=12)
    draw.line([(3, 188), (16, 200)], fill=255, width=6)
    draw.line([(190, 360), (200, 480)], fill=255, width=12)
    return mask


def main():
    folder = Path(sys.argv[1])
    camera = data.camera()
    Image.fromarray(noisy(camera, SIGMA, 512)).save(folder / "photo.jpg", quality=85)
    Image.fromarray(camera).save(folder / "camera.jpg", quality=85)
    strokes().save(folder / "painted.png", optimize=True)
    for name, view, seed in zip(("left.jpg", "right.jpg"), views(), (1, 2)):
        Image.fromarray(noisy(view, 2, seed)).save(folder / name, quality=90)


if __name__ == "__main__":
    main()
