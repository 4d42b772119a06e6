#!/usr/bin/env python3
"""Small random runs of moves between labellings, each with the labels after each of its moves, worked out over all
labellings.

Writes the tables of the runs step by step in the tests of the crate `move_tests`. To make them again, at the top of
the repository:

    python3 tools/tables/random_steps.py runs > crates/move_tests/src/stepped_runs.rt
    python3 tools/tables/random_steps.py steps > crates/move_tests/src/steps.rt

It knows the definitions of tools/tables/random_runs.py. A run has a row of its form, and a row of 24 steps. A step has ten
digits: the whole cycles before it, alpha and beta, how many labels it changed, and the labels of six sites after it.
The steps of a run are all moves of its chain, also those that a program may leave out since they change nothing.
"""

import random
import sys

from random_moves import RUN_OF_SWAPS, ROW_SITES, padded, print_table
from random_runs import random_run

COUNT = 500
STEPS = 24


def digits_of(step):
    cycle, (_, alpha, beta), before, after = step
    changed = sum(old != new for old, new in zip(before, after))
    return "".join(map(str, [cycle, alpha, beta, changed, *padded(after, ROW_SITES)]))


def print_runs(runs):
    rows = [told[-1] for told, _ in runs]
    swaps = sum(row[3] == str(RUN_OF_SWAPS) for row in rows)
    print("//! Small random runs that are made step by step. Made by tools/tables/random_steps.py, over all labellings:")
    print(f"//! {COUNT} runs, {swaps} of them of swaps.")
    print()
    print_table("RUNS_MADE", "runs", rows)


def print_steps(runs):
    changes = sum(before != after for _, steps in runs for _, _, before, after in steps)
    print("//! The labels after each move of the runs of `stepped_runs`. Made by tools/tables/random_steps.py, over all")
    print(f"//! labellings: {sum(len(steps) for _, steps in runs)} moves, {changes} of which change a label.")
    print()
    print("/// The steps of each of these runs, of 24 steps a row of `stepped`.")
    print('pub const STEPS: &[u8] = b"\\')
    for _, steps in runs:
        row = "".join(map(digits_of, steps)).ljust(10 * STEPS, "0")
        print(f"    {row}\\")
    print('";')


def main():
    draw = random.Random(2003)
    runs = [random_run(draw) for _ in range(COUNT)]
    if sys.argv[1:] not in (["runs"], ["steps"]):
        sys.exit("random_steps.py: runs or steps")
    {"runs": print_runs, "steps": print_steps}[sys.argv[1]](runs)


if __name__ == "__main__":
    main()
