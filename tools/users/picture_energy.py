#!/usr/bin/env python3
"""Writes the problem file of a picture's segmentation in two parts, dark and light, for `gco energy`.

    picture_energy.py --dark 60 --light 170 picture.pgm > problem.toml

The picture is a P5 file of one byte a sample. Variable x + y * width belongs to the pixel in column x of
row y, and is 1 where the pixel goes to the light part.

A pixel costs how far its sample is from the grey of its part, `--dark` or `--light`. Two neighbours, side
by side or one above the other, that go to different parts cost `--strong` where their samples differ by at
most `--edge`, and `--weak` where they differ by more: the border between the parts is drawn along edges of
the picture. Each of these terms is regular (Boykov and Jolly, ICCV 2001, section 2; Kolmogorov and Zabih,
PAMI 2004, section 4.1). Only Python's own library is used.
"""
import argparse
import re
import sys

HEADER = re.compile(rb'P5(?:\s|#[^\n\r]*[\n\r])+(\d+)(?:\s|#[^\n\r]*[\n\r])+(\d+)(?:\s|#[^\n\r]*[\n\r])+(\d+)\s')


def read_pgm(data):
    """The width and the rows of a P5 picture of one byte a sample."""
    header = HEADER.match(data)
    if header is None or not 0 < int(header.group(3)) < 256:
        sys.exit('picture_energy: a P5 picture of one byte a sample is needed')
    width, height = int(header.group(1)), int(header.group(2))
    samples = data[header.end():header.end() + width * height]
    if len(samples) < width * height:
        sys.exit('picture_energy: the picture ends too early')
    return width, [samples[y * width:(y + 1) * width] for y in range(height)]


def unary_terms(rows, dark, light):
    """One term for each pixel."""
    for y, row in enumerate(rows):
        for x, sample in enumerate(row):
            yield [x + y * len(row)], [abs(sample - dark), abs(sample - light)]


def pair_terms(rows, strong, weak, edge):
    """One term for each two neighbours: of a pixel first the one to its right, then the one below."""
    for y, row in enumerate(rows):
        for x, sample in enumerate(row):
            place = x + y * len(row)
            neighbours = []
            if x + 1 < len(row):
                neighbours.append((place + 1, row[x + 1]))
            if y + 1 < len(rows):
                neighbours.append((place + len(row), rows[y + 1][x]))
            for other, other_sample in neighbours:
                cost = strong if abs(sample - other_sample) <= edge else weak
                yield [place, other], [0, cost, cost, 0]


def main():
    parser = argparse.ArgumentParser(description='Writes the problem file of a picture in two parts.')
    parser.add_argument('picture')
    parser.add_argument('--dark', type=int, required=True)
    parser.add_argument('--light', type=int, required=True)
    parser.add_argument('--strong', type=int, default=20)
    parser.add_argument('--weak', type=int, default=5)
    parser.add_argument('--edge', type=int, default=5)
    options = parser.parse_args()
    with open(options.picture, 'rb') as file:
        width, rows = read_pgm(file.read())
    lines = ['# %s in two parts, dark and light: %d by %d pixels' % (options.picture.split('/')[-1], width, len(rows)),
             'variables = %d' % (width * len(rows)), 'terms = [']
    terms = list(unary_terms(rows, options.dark, options.light))
    terms += pair_terms(rows, options.strong, options.weak, options.edge)
    lines += ['{on=%s,values=%s},' % (str(on).replace(' ', ''), str(values).replace(' ', '')) for on, values in terms]
    lines.append(']')
    sys.stdout.write('\n'.join(lines) + '\n')


if __name__ == '__main__':
    main()
