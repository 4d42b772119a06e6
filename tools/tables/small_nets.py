#!/usr/bin/env python3
"""Small nets with their least cuts, worked out over all cuts.

Writes a table for the tests of the crate `block_tests`. To make it again, at the top of the repository:

    python3 tools/tables/small_nets.py > crates/block_tests/src/small_nets.rt

A cut is a set of nodes, the sink's side. Its capacity is that of the source's arcs into it, of the sink's arcs from
outside it, and of the arcs from outside into it. For each net every set is tried; the right side is the set of the
nodes that lie in every least cut, which is itself a least cut.
"""

import random
import textwrap

COUNT = 240


def capacity(net, cut):
    """The capacity of a cut, given by the bits of a number."""
    sources, sinks, arcs = net
    inside = lambda node: cut >> node & 1
    total = sum(sources[v] if inside(v) else sinks[v] for v in range(len(sources)))
    return total + sum(c for a, b, c in arcs if inside(b) and not inside(a))


def least_cut(net):
    """The least capacity, and the nodes that lie in every cut of that capacity."""
    cuts = range(1 << len(net[0]))
    capacities = [capacity(net, cut) for cut in cuts]
    least = min(capacities)
    side = (1 << len(net[0])) - 1
    for cut in cuts:
        if capacities[cut] == least:
            side &= cut
    assert capacities[side] == least
    return least, side


def random_net(draw, number):
    """A net of up to seven nodes, with arcs of all kinds: parallel, opposite, from a node to itself, of capacity 0."""
    nodes = number % 8
    most = draw.choice([1, 2, 4, 9])
    sources = [draw.choice([0, draw.randint(0, most)]) for _ in range(nodes)]
    sinks = [draw.choice([0, draw.randint(0, most)]) for _ in range(nodes)]
    arcs = []
    for _ in range(draw.randint(0, 2 * nodes) if nodes else 0):
        a, b = draw.randrange(nodes), draw.randrange(nodes)
        arcs.append((a, b, draw.randint(0, most)))
        if draw.random() < 0.2:
            arcs.append((b, a, draw.randint(0, most)))
    return sources, sinks, arcs


def numbers_of(net):
    """A net and its answer as one row: nodes, arcs, each node's two arcs, each arc, the value, the side as bits."""
    sources, sinks, arcs = net
    row = [len(sources), len(arcs)]
    for pair in zip(sources, sinks):
        row += pair
    for arc in arcs:
        row += arc
    return row + list(least_cut(net))


def main():
    draw = random.Random(1988)
    print("/// How many nets the table has.")
    print("pub const COUNT: usize = %d;" % COUNT)
    print()
    print("/// Of each net: nodes, arcs, the source's and the sink's arc of each node, each arc, the value, the side as")
    print("/// bits. Made by tools/tables/small_nets.py, over all cuts.")
    print("pub const NUMBERS: &[u32] = &[")
    numbers = [n for number in range(COUNT) for n in numbers_of(random_net(draw, number))]
    text = ", ".join(map(str, numbers)) + ","
    print(textwrap.fill(text, 99, initial_indent="    ", subsequent_indent="    "))
    print("];")


if __name__ == "__main__":
    main()
