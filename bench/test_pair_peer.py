#!/usr/bin/env python3
"""Tests pair_peer.cpp, and pair_gco.c if it is named too, on tiny random problems whose pairs have
tables of their own, against the definitions:

    python3 bench/test_pair_peer.py bench/out/pair_peer bench/out/pair_gco

`bindings/tests/definitions.py` tries every labelling that a move reaches.
"""
import random
import re
import subprocess
import sys
import tempfile
from pathlib import Path

from pair_problems import write_problem

HERE = Path(__file__).resolve().parent
sys.path.insert(0, str(HERE.parent / "bindings/tests"))
import definitions  # noqa: E402

COUNT = 300
TIMES = re.compile(r"clock \d+\.\d{6} processor \d+\.\d{6}\n")


def table_of(generator, is_metric, labels):
    """What a pair costs by its two labels: how far they are apart on a line, or anything."""
    if not is_metric:
        return [[generator.randrange(9) for _ in range(labels)] for _ in range(labels)]
    places = [generator.randrange(6) for _ in range(labels)]
    toll = generator.randrange(3)
    return [[(here != there) * toll + abs(here - there) for there in places] for here in places]


def problem_of(generator):
    """A random problem of two to six sites."""
    sites, labels = generator.randrange(2, 7), generator.randrange(1, 4)
    most = generator.choice([2, 9])
    data = [[generator.randint(0, most) for _ in range(labels)] for _ in range(sites)]
    pairs = []
    for _ in range(generator.randrange(1, 2 * sites)):
        pairs.append((*generator.sample(range(sites), 2), generator.choice([0, 1, 1, 2, 5])))
    is_metric = generator.random() < 0.7
    tables = [table_of(generator, is_metric, labels) for _ in pairs]
    return definitions.PairProblem(data, tables, labels, pairs, [])


def wanted_of(problem, cycles):
    """The status, the labels and the words of a run, by the definition."""
    told = problem.run("expansion", cycles, (0,) * problem.sites)
    if told[0] == "refused":
        return 1, b"", f"the term of pair {told[2]} is not regular\n"
    labels, data, smooth = told[:3]
    return 0, bytes(labels), f"energy {data + smooth} data {data} smooth {smooth}\n"


def answer_of(program, path, cycles):
    """The same, as a program answers."""
    run = subprocess.run([program, path, str(cycles)], capture_output=True, check=False)
    said = run.stderr.decode()
    return run.returncode, run.stdout, TIMES.sub("", said).replace("refused 24\n", "")


def main():
    programs = sys.argv[1:]
    if not programs:
        sys.exit(__doc__)
    generator = random.Random(12)
    refused = 0
    with tempfile.TemporaryDirectory() as folder:
        path = Path(folder) / "problem.bin"
        for number in range(COUNT):
            problem, cycles = problem_of(generator), generator.choice([0, 1, 2, 100])
            write_problem(path, problem.data, problem.tables, problem.pairs)
            wanted = wanted_of(problem, cycles)
            refused += wanted[0]
            for program in programs:
                answer = answer_of(program, path, cycles)
                if answer != wanted:
                    sys.exit(f"{program}, problem {number}: {answer} in place of {wanted}")
    print(f"{COUNT} problems of pairs, {refused} of them refused, all as the definition says")


if __name__ == "__main__":
    main()
