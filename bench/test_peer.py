#!/usr/bin/env python3
"""Tests bench/peer.cpp on tiny random pictures, against the definitions:

    python3 bench/test_peer.py bench/out/peer

`tools/tables/pictures_by_definition.py` tries every labelling that a move reaches.
"""
import random
import subprocess
import sys
from pathlib import Path

sys.path.insert(0, str(Path(__file__).resolve().parent.parent / "tools/tables"))
import pictures_by_definition  # noqa: E402

SIZES = [(1, 1), (2, 2), (3, 2), (2, 3), (3, 3), (4, 2)]
COUNT = 300


def pgm(width, height, maxval, samples):
    return b"P5\n%d %d\n%d\n" % (width, height, maxval) + bytes(samples)


def moves_of(choose):
    """Words for the moves, and the same for the definition."""
    given = {
        "shape": choose(["potts", "linear"]),
        "trunc": choose([1, 2, 3]),
        "weight": choose([0, 1, 2, 3]),
        "swaps": choose([False, False, True]),
    }
    words = ["--smooth", given["shape"], "--trunc", given["trunc"], "--weight", given["weight"]]
    return words + ["--moves", "swap" if given["swaps"] else "expansion"], given


def case_of(generator):
    """The words and the input of a run, its maxval, and what the definition answers."""
    choose = generator.choice
    width, height = choose(SIZES)
    near = {"eight": choose([False, True]), "cycles": choose([0, 1, 2, 100])}
    words = ["--neighbours", 8 if near["eight"] else 4, "--cycles", near["cycles"]]

    def some(low, high):
        return [generator.randint(low, high) for _ in range(width * height)]

    command = choose(["restore", "stereo", "segment"])
    if command == "segment":
        samples, seeds = some(0, 30), [max(seed, 0) for seed in some(-4, 2)]
        words += "--low 8 --high 20 --strong 7 --weak 2 --edge 6".split()
        answer = pictures_by_definition.segment(width, samples, seeds, 8, 20, 7, 2, 6, **near)
        source = pgm(width, height, 255, samples) + pgm(width, height, 2, seeds)
        return [command, *words], source, 1, answer
    more, given = moves_of(choose)
    words += more
    if command == "restore":
        maxval = choose([1, 2, 3])
        samples = some(0, maxval)
        answer = pictures_by_definition.restore(width, maxval, samples, **given, **near)
        return [command, *words], pgm(width, height, maxval, samples), maxval, answer
    left, right, labels, cap = some(0, 30), some(0, 30), choose([1, 2, 3]), choose([0, 3, 20])
    words += ["--labels", labels, "--cap", cap]
    answer = pictures_by_definition.stereo(width, left, right, labels, cap, **given, **near)
    views = pgm(width, height, 255, left) + pgm(width, height, 255, right)
    return [command, *words], views, max(labels - 1, 1), answer


def main():
    if len(sys.argv) != 2:
        sys.exit(__doc__)
    generator = random.Random(11)
    for number in range(COUNT):
        words, source, maxval, (labels, (data, smooth)) = case_of(generator)
        command = [sys.argv[1], *map(str, words)]
        run = subprocess.run(command, input=source, capture_output=True, check=True)
        size = source.split(b"\n", 2)[1]
        picture = b"P5\n%s\n%d\n" % (size, maxval) + bytes(labels)
        said = f"energy {data + smooth} data {data} smooth {smooth}\n"
        if run.stdout != picture or run.stderr.decode() != said:
            sys.exit(f"run {number}: {words}: {run.stdout} in place of {picture}, {run.stderr}")
    print(f"{COUNT} runs, all as the definition says")


if __name__ == "__main__":
    main()
