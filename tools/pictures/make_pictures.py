#!/usr/bin/env python3
"""Makes the pictures of `examples/` for the commands on images, from `examples/camera64.pgm` alone.

    make_pictures.py examples

writes into that folder
- `noisy.pgm`, the picture in 16 grey levels, every fifth sample or so replaced by another level: for `gco restore`;
- `dots.pgm`, a random-dot stereogram (Julesz 1960), the left picture and then the right one: steps of disparity
  0, 2, 4 and 6 that rise to the middle: for `gco stereo`;
- `seeded.pgm`, the picture and then its seeds, a stroke on the coat and three on the background: for `gco segment`.
The numbers come from one fixed generator, so the files are the same each time. Only Python's own library is used.
"""
import sys


def read_pgm(data):
    """The width, the height and the samples of a P5 picture of one byte a sample without comments."""
    words = data.split(None, 4)
    width, height = int(words[1]), int(words[2])
    return width, height, data[len(data) - width * height:]


def write_pgm(path, *pictures):
    """Writes pictures (width, height, maxval, samples) one after another."""
    with open(path, 'wb') as file:
        for width, height, maxval, samples in pictures:
            file.write(b'P5\n%d %d\n%d\n' % (width, height, maxval) + bytes(samples))


def numbers(seed):
    """Numbers from 0 to 2^16 - 1 (a linear congruence modulo 2^32; Knuth, The Art of Computer Programming, 3.3.4)."""
    while True:
        seed = (1664525 * seed + 1013904223) % 2 ** 32
        yield seed >> 16


def noisy(samples, random):
    """The picture in 16 levels, with about a fifth of its samples replaced."""
    made = [sample // 16 for sample in samples]
    for at in range(len(made)):
        if next(random) % 5 == 0:
            made[at] = next(random) % 16
    return made


def disparity(x, y, width, height):
    """0 at the border, and 2 more with each step to the middle, at most 6."""
    step = min(x * 8 // width, (width - 1 - x) * 8 // width, y * 8 // height, (height - 1 - y) * 8 // height)
    return 2 * min(step, 3)


def stereogram(width, height, random):
    """Dots, and the same dots moved to the left by the disparity of the place where the left picture has them."""
    left, right = [], []
    for y in range(height):
        row = [(next(random) % 8) * 36 for _ in range(width)]
        other = [None] * width
        for far in (0, 2, 4, 6):
            for x in range(width):
                if disparity(x, y, width, height) == far and x >= far:
                    other[x - far] = row[x]
        left += row
        right += [(next(random) % 8) * 36 if sample is None else sample for sample in other]
    return left, right


def seeds(width, height):
    """0 where nothing is said, 1 on the dark coat, 2 on the sky and the grass."""
    made = [0] * (width * height)

    def stroke(left, top, right, bottom, seed):
        for y in range(top, bottom):
            for x in range(left, right):
                made[x + y * width] = seed

    stroke(22, 34, 26, 46, 1)
    stroke(4, 4, 60, 6, 2)
    stroke(52, 20, 54, 40, 2)
    stroke(4, 58, 20, 60, 2)
    return made


def main():
    folder = sys.argv[1]
    with open(folder + '/camera64.pgm', 'rb') as file:
        width, height, samples = read_pgm(file.read())
    write_pgm(folder + '/noisy.pgm', (width, height, 15, noisy(samples, numbers(64))))
    left, right = stereogram(96, 64, numbers(1960))
    write_pgm(folder + '/dots.pgm', (96, 64, 255, left), (96, 64, 255, right))
    write_pgm(folder + '/seeded.pgm', (width, height, 255, samples), (width, height, 2, seeds(width, height)))


if __name__ == '__main__':
    main()
