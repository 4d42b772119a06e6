#!/usr/bin/env python3
"""Writes the answers to every table of three variables over -1, 0 and 1, by trying all cases.

Table number n has the ternary digits of n, less 1, as its eight numbers, the most significant digit first.
Its answer is one character. A digit from 0 to 5 is the first projection that is not regular, in the order
in which the first, the second and the third variable are fixed to 0 and to 1. A letter says that the table
is regular, and which assignment is the smallest least one: a is 000, b is 001, and so on to h, which is 111.
The answers stand 81 to a line.

    python3 tools/tables/three_tables.py > crates/compile_cut/src/tests/answers.rt
"""
from itertools import product


def value(table, assignment):
    first, second, third = assignment
    return table[4 * first + 2 * second + third]


def first_failure(table):
    """The number of the first projection that is not regular."""
    for position, fixed in product(range(3), range(2)):
        def at(s, t):
            others = [s, t]
            others.insert(position, fixed)
            return value(table, others)
        if at(0, 0) + at(1, 1) > at(0, 1) + at(1, 0):
            return 2 * position + fixed
    return None


def smallest_least(table):
    """The one least assignment whose ones are among the ones of every least assignment."""
    assignments = list(product(range(2), repeat=3))
    least = min(value(table, x) for x in assignments)
    best = [x for x in assignments if value(table, x) == least]
    smallest = [x for x in best if all(all(a <= b for a, b in zip(x, y)) for y in best)]
    assert len(smallest) == 1, table
    return smallest[0]


def answer(table):
    failure = first_failure(table)
    if failure is not None:
        return str(failure)
    first, second, third = smallest_least(table)
    return "abcdefgh"[4 * first + 2 * second + third]


def main():
    answers = "".join(answer(table) for table in product((-1, 0, 1), repeat=8))
    print("/// What tools/tables/three_tables.py says of every table of three variables over -1, 0 and 1.")
    print("pub const ANSWERS: [&str; 81] = [")
    for start in range(0, len(answers), 81):
        print(f'    "{answers[start:start + 81]}",')
    print("];")


if __name__ == "__main__":
    main()
