#!/usr/bin/env python3
"""The rows of crates/energy_tests/src/wide.rt: least values of chains of 200 yes-no variables with one
cost that is tied to all of them, found by dynamic programming along the chain.

    python3 tools/tables/wide_ties.py
"""

VARIABLES = 200
WEIGHTS = (0, 1, 3, 8)
COSTS = (0, 1, 40, 150, 400, 2_000)


def own_cost(variable):
    """What a variable costs at 1; at 0 it costs nothing."""
    return (variable * variable * 11 + variable) % 23 - 11


def least(weight, cost, unless_all):
    """The least value and, of all assignments that have it, the fewest ones. Neighbours that differ
    cost `weight`; `cost` is paid unless all are 1, or if any is."""
    # by the last value, and whether all values so far keep the cost from being paid
    best = {}
    for value in (0, 1):
        best[value, value == unless_all] = (own_cost(0) * value, value)
    for variable in range(1, VARIABLES):
        after = {}
        for (last, free), (energy, ones) in best.items():
            for value in (0, 1):
                state = value, free and value == unless_all
                sums = (energy + own_cost(variable) * value + weight * (value != last), ones + value)
                after[state] = min(after.get(state, sums), sums)
        best = after
    return min((energy + (0 if free else cost), ones) for (_, free), (energy, ones) in best.items())


if __name__ == "__main__":
    for weight in WEIGHTS:
        for cost in COSTS:
            for unless_all in (1, 0):
                energy, ones = least(weight, cost, unless_all)
                print(f"    ({weight}, {cost:_}, {'true' if unless_all else 'false'}, {energy:_}, {ones}),")
