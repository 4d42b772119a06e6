#!/usr/bin/env python3
"""A montage of photographs of one place, without those who walked through it.

    python3 examples/montage.py examples/passer1.jpg examples/passer2.jpg examples/passer3.jpg montage.png

Each pixel is taken from one of the photographs (Agarwala and others, SIGGRAPH 2004). It is wanted
from one that looks there as most of them do. A seam between two photographs costs how far they are
apart at both of its pixels, so it runs where they look alike. That hangs on both labels and on both
pixels, and is no weight times a table: each pair has a table of its own. numpy and Pillow are needed.
"""
import sys

import numpy
from PIL import Image

import gco_proved as gco

MOST = 60  # the most that a pixel costs: a passer-by is not dearer for being darker
SEAM = 2  # how much a seam counts


def data_of(photographs):
    """What each photograph costs each pixel: how far it is from the median of all of them."""
    apart = numpy.abs(photographs - numpy.median(photographs, axis=0).astype(numpy.int32))
    return numpy.minimum(apart, MOST).transpose(1, 2, 0)


def tables_of(photographs, pairs):
    """What each two photographs cost each two neighbours: how far they are apart at both."""
    flat = photographs.reshape(len(photographs), -1).T
    apart = numpy.abs(flat[:, :, None] - flat[:, None, :])  # by pixel and by two photographs
    return SEAM * (apart[pairs[:, 0]] + apart[pairs[:, 1]])


def montage(photographs):
    """Which photograph each pixel is taken from, as a Found."""
    _, height, width = photographs.shape
    pairs = gco.grid_pairs(width, height)
    return gco.label(data_of(photographs), tables_of(photographs, pairs), pairs)


def taken(photographs, labels):
    """The pixels of those photographs."""
    rows, columns = numpy.indices(labels.shape)
    return photographs[labels, rows, columns].astype(numpy.uint8)


def main():
    *names, out = sys.argv[1:]
    photographs = numpy.array([numpy.asarray(Image.open(name).convert("L")) for name in names], dtype=numpy.int32)
    found = montage(photographs)
    Image.fromarray(taken(photographs, found.labels)).save(out)
    shares = numpy.bincount(found.labels.ravel(), minlength=len(names)) / found.labels.size
    print(f"energy {found.energy}: pixels {found.data}, seams {found.smooth}; cycles {found.cycles}")
    print("taken from " + ", ".join(f"{name}: {share:.0%}" for name, share in zip(names, shares)))


if __name__ == "__main__":
    main()
