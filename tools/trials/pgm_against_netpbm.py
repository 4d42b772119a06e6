#!/usr/bin/env python3
"""Compares a reader of PGM images with netpbm's, on random headers and rasters.

    tools/trials/pgm_against_netpbm.py [--count N] [--seed S] READER [ARGUMENT ..]

READER is a command to call. It reads an image on standard input, and writes it as `P5` to standard output,
or a line `refused N`, `refused N at A` or `refused N sample I` to standard error, by the numbers of
docs/PGM.md.
(Where it reads an image and does not write it, it says `refused 30`: such an image counts as read.)

Netpbm's own reader is asked through `pnmtopnm -plain` (Debian's package `netpbm`). Where both read an
image, it has to be the same one. Where one refuses, the difference has to be one that docs/PGM.md
explains. The status is 1 where a difference is left.
"""

import argparse
import random
import re
import subprocess
import sys

SPACES = [b" ", b"\t", b"\r", b"\n"]
COMMENTS = [b"#\n", b"# a comment\n", b"#x\r", b"# 12 34\n", b"#\r\n"]


def gap(draw):
    """A gap, and now and then something that is none."""
    chance = draw.random()
    if chance < 0.02:
        return draw.choice([b"", b"#\n", b"\x0b", b" \x0c", b"x", b" # open", b" -"])
    pieces = [draw.choice(SPACES)]
    while draw.random() < 0.3:
        pieces.append(draw.choice(SPACES + COMMENTS))
    return b"".join(pieces)


def number(draw, value):
    """The digits of a number, with zeros before it now and then."""
    zeros = b"0" * draw.choice([0, 0, 0, 0, 1, 3, 7])
    return zeros + str(value).encode()


def image(draw):
    """An image, mostly well formed."""
    form = draw.choice([b"P5", b"P2"]) if draw.random() < 0.98 else draw.choice([b"P6", b"P", b"", b"p5"])
    width = draw.choice([1, 1, 2, 3, 5, 8]) if draw.random() < 0.96 else draw.choice([0, 4096, 4097, 99999999])
    height = draw.choice([1, 1, 2, 3]) if draw.random() < 0.96 else draw.choice([0, 4096, 4097])
    maxval = draw.choice([1, 2, 7, 254, 255, 256, 257, 1000, 65535])
    if draw.random() < 0.04:
        maxval = draw.choice([0, 65536, 100000])
    parts = [form, gap(draw), number(draw, width), gap(draw), number(draw, height), gap(draw), number(draw, maxval)]
    count = min(width * height, 40)
    samples = [draw.randint(0, maxval) for _ in range(count)]
    if samples and draw.random() < 0.05:
        samples[draw.randrange(count)] = maxval + 1
    if form == b"P2":
        for sample in samples:
            parts += [gap(draw), number(draw, sample)]
        parts.append(draw.choice([b"", b"\n", b" ", b" 9"]))
    else:
        parts.append(draw.choice(SPACES + [b"\r\n"]))
        for sample in samples:
            parts.append((sample % 65536).to_bytes(2, "big") if maxval > 255 else bytes([sample % 256]))
        parts.append(draw.choice([b"", b"", b"\n", b"more"]))
    whole = b"".join(parts)
    if draw.random() < 0.05:
        whole = whole[: draw.randrange(len(whole) + 1)]
    return whole


def read_plain(text):
    """The first image that netpbm writes, or None where it is cut. Of maxval 1 it makes a `P1`, in which
    0 is white."""
    words = text.split()
    if len(words) < 3 or words[0] not in (b"P1", b"P2"):
        return None
    width, height = int(words[1]), int(words[2])
    count = width * height
    if words[0] == b"P1":
        maxval = 1
        samples = [1 - int(bit) for bit in b"".join(words[3:]).decode()[:count] if bit in "01"]
    else:
        maxval = int(words[3])
        samples = [int(word) for word in words[4:4 + count]]
    return (width, height, maxval, samples) if len(samples) == count else None


def read_raw(data):
    """The image that READER writes in its written form."""
    match = re.match(rb"P5\n(\d+) (\d+)\n(\d+)\n", data)
    width, height, maxval = (int(word) for word in match.groups())
    raster = data[match.end():]
    step = 2 if maxval > 255 else 1
    samples = [int.from_bytes(raster[i:i + step], "big") for i in range(0, len(raster), step)]
    return width, height, maxval, samples


def netpbm(data):
    """What netpbm reads first, or None where it refuses. (It goes on to what follows the image.)"""
    run = subprocess.run(["pnmtopnm", "-plain"], input=data, capture_output=True, check=False)
    return read_plain(run.stdout)


def reader(command, data):
    """What READER reads, `"read"` where it read and does not show it, or the words of its refusal."""
    run = subprocess.run(command, input=data, capture_output=True, check=False)
    if run.returncode == 0:
        return read_raw(run.stdout)
    match = re.search(rb"refused ([0-9a-z ]+)", run.stderr)
    if not match:
        sys.exit(f"no answer and no refusal of {data!r}: {run.stderr!r}")
    words = match.group(1).split()
    return "read" if words[0] == b"30" else [word.decode() for word in words]


def explained(data, refusal):
    """Why READER refuses what netpbm reads, in the words of docs/PGM.md, or None."""
    kind = int(refusal[0])
    if kind in (2, 8):
        at = int(refusal[2])
        if at < len(data) and data[at - 1:at].isdigit():
            return "netpbm alone reads: no white space directly after a number or the first two bytes"
    return "netpbm alone reads: a size above the limits" if kind == 4 else None


def compare(data, ours, theirs):
    """Which of the known outcomes this is, or None for a difference that nothing explains."""
    refused = isinstance(ours, list)
    if refused:
        return "both refuse" if theirs is None else explained(data, ours)
    if theirs is None:
        ends = data.startswith(b"P2") and data[-1:].isdigit()
        return "netpbm alone refuses: the last plain sample ends with the input" if ends else None
    return "both read the same" if ours in ("read", theirs) else None


def main():
    arguments = argparse.ArgumentParser(description=__doc__, formatter_class=argparse.RawTextHelpFormatter)
    arguments.add_argument("--count", type=int, default=5000)
    arguments.add_argument("--seed", type=int, default=1)
    arguments.add_argument("reader", nargs=argparse.REMAINDER)
    options = arguments.parse_args()
    draw = random.Random(options.seed)
    outcomes = {}
    left = 0
    for _ in range(options.count):
        data = image(draw)
        ours = reader(options.reader, data)
        theirs = netpbm(data)
        outcome = compare(data, ours, theirs)
        if outcome is None:
            left += 1
            print(f"left: {data!r}: {ours} against {theirs}")
        outcomes[outcome] = outcomes.get(outcome, 0) + 1
    for outcome, count in sorted(outcomes.items(), key=lambda item: -item[1]):
        print(f"{count:6} {outcome}")
    sys.exit(1 if left else 0)


if __name__ == "__main__":
    main()
