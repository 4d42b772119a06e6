#!/usr/bin/env python3
"""How many cuts a run of swaps has whose later swaps look near the changes alone, and how many sites these have.

The numbers of the test `later_swaps_look_near_changes` of the crate `move_tests`. To make them again, at the top of the
repository:

    python3 tools/tables/later_swaps.py

The picture, what a label costs a pixel and the first labelling are those of tools/tables/open_sites.py; two pixels that
share an edge cost 2 where their labels differ, and 3, 5 and 8 in further runs. Each cycle swaps the labels 0 and 1, 0 and 2,
0 and 3, 1 and 2, 1 and 3, 2 and 3 (Boykov, Veksler, Zabih, PAMI 2001, section 4). A swap is left out, and all after it, where
no label changed since the same one of the cycle before. In a swap a pixel that has one of the two labels is 0 where it gets
the first and 1 where it gets the second; all others keep their labels. The values of a swap are the least ones, and of these
those with the fewest ones. The labels become what the values make where that has a lower energy, and else stay.

A swap that is made whole has one net: of the pixels that are left open when pixels are decided as in
tools/tables/open_sites.py, though there be none. A swap is remembered if its values are those by which the pixels keep the
labels that they have after it. Fresh pixels are those that changed since and the neighbours of these. The next swap of the
same labels looks near the changes if that one is remembered; at most a 64th of all pixels changed since; and of the pixels
that have one of its labels at most a 64th are fresh. Each other swap is made whole.

Of the pixels that have one of the two labels the fresh ones are opened, and rings around them as in the first stage of
tools/tables/stage_sites.py. Where more than half of them are open the swap is made whole. Else the values of the open pixels
have two bounds: what is least with all others of the two labels at 0, and with all these at 1. A pixel may turn if the
bounds do not tell that it keeps its label: one of the second label where the lower bound is 0, one of the first where the
upper bound is 1, and each that is not open. From the fresh ones on all pixels are found that may turn, each beside another
that may. If all of these are open, all other pixels keep their labels, and the values are the least ones of those that were
found. Such a swap has no net. Else those that are not open are opened, and rings around them as before, and there are
bounds again, eight times at most; then the swap is made whole. Its values are compared with those of a cut of the whole
network, in which no pixel is decided.
"""
import itertools

import open_sites
from open_sites import LABELS, SIDE, data_cost, levels_to, neighbours, push_all, smooth_cost
from stage_sites import KEEPS, OPEN, SITES, TAKES, open_fresh, parts_of

CHANGED_SHARE = 64
FRESH_SHARE = 64
OPENED_SHARE = 2
STAGES = 8
MOST_CYCLES = 6
UNLIKE_COSTS = [2, 3, 5, 8]


class Swap:
    """A swap of the labels: its pixels, and what their values cost."""

    def __init__(self, labels, first, second):
        self.labels, self.ends = labels, (first, second)
        self.sites = [site for site in range(SITES) if labels[site] in self.ends]
        self.kept = [label == second for label in labels]

    def rise(self, values, site, undecided=None):
        """What turning the pixel from 0 to 1 adds, where each undecided neighbour has this value, or is left out."""
        first, second = self.ends
        total = data_cost(site, second) - data_cost(site, first)
        for other in neighbours(site):
            value = undecided if values[other] is None else values[other]
            if self.labels[other] not in self.ends:
                label = self.labels[other]
            elif value is not None:
                label = self.ends[value]
            else:
                continue
            total += smooth_cost(second, label) - smooth_cost(first, label)
        return total

    def open_count(self):
        """How many pixels deciding leaves open."""
        values = [None] * SITES
        changed = True
        while changed:
            changed = False
            for site in self.sites:
                if values[site] is None:
                    if self.rise(values, site, 1) >= 0:
                        values[site], changed = 0, True
                    elif self.rise(values, site, 0) < 0:
                        values[site], changed = 1, True
        return sum(values[site] is None for site in self.sites)

    def least(self, known):
        """The least values with the fewest ones where those that are not None are known: the ones reach the sink.

        Two open neighbours cost something where their values differ, either way, and nothing where they are the same.
        """
        source, sink = SITES, SITES + 1
        residual = [dict() for _ in range(SITES + 2)]
        is_open = [known[site] is None and label in self.ends for site, label in enumerate(self.labels)]
        for site in range(SITES):
            if is_open[site]:
                cost = self.rise(known, site)
                residual[source][site], residual[site][sink] = max(cost, 0), max(-cost, 0)
                residual[site][source], residual[sink][site] = 0, 0
                for other in neighbours(site):
                    if is_open[other]:
                        residual[site][other] = smooth_cost(*self.ends)
        levels = levels_to(residual, source, sink)
        while source in levels:
            push_all(residual, levels, source, sink)
            levels = levels_to(residual, source, sink)
        return [site in levels if is_open[site] else bool(known[site]) for site in range(SITES)]

    def energy(self, labels):
        """What the labels cost."""
        return sum(data_cost(site, labels[site]) for site in range(SITES)) + sum(
            smooth_cost(labels[site], labels[other]) for site in range(SITES) for other in neighbours(site) if site < other)

    def made(self, values):
        """The labels that the values make where these have a lower energy, and else the labels as they are."""
        labels = [self.ends[values[site]] if label in self.ends else label for site, label in enumerate(self.labels)]
        return labels if self.energy(labels) < self.energy(self.labels) else self.labels

    def turning(self, known):
        """Whether each pixel may turn, by two bounds."""
        lower, upper = (self.least([None if state == OPEN else value for state in known]) for value in [0, 1])
        assert all(lower[site] <= upper[site] for site in range(SITES))
        return [label in self.ends and (known[site] != OPEN or (not lower[site] if self.kept[site] else upper[site]))
                for site, label in enumerate(self.labels)]

    def near(self, changed):
        """The values as they are found near what changed; none where the swap is to be made whole; and why."""
        if len(changed) > SITES // CHANGED_SHARE:
            return None, 'many changed'
        fresh = sorted({other for site in changed for other in [site, *neighbours(site)]})
        count = sum(self.labels[site] in self.ends for site in fresh)
        if count > len(self.sites) // FRESH_SHARE:
            return None, f'{count} fresh'
        known = [TAKES if label in self.ends else KEEPS for label in self.labels]
        front = fresh
        for stage in range(STAGES):
            open_fresh(known, front)
            count = known.count(OPEN)
            if count > len(self.sites) // OPENED_SHARE:
                return None, f'{count} open'
            found, front = parts_of(known, self.turning(known), fresh)
            if not front:
                inside = set(found)
                values = self.least([None if site in inside else self.kept[site] for site in range(SITES)])
                return values, f'near, {stage + 1} stages, {count} open, {len(found)} may turn'
        return None, 'not closed'


class Run:
    """A run: its labels, which move changed each pixel last, and which was the last of each two labels, if it is remembered."""

    def __init__(self):
        self.labels = [0] * SITES
        self.stamps = [0] * SITES
        self.made = {}
        self.moves = 0
        self.last = None
        self.settled = False

    def values_near(self, swap, ends):
        """The values of a swap that looks near the changes, none where it is made whole; and how it is made."""
        if ends not in self.made:
            return None, 'not remembered'
        changed = [site for site in range(SITES) if self.stamps[site] > self.made[ends]]
        values, how = swap.near(changed)
        return values, f'{len(changed)} changed, {how}'

    def swap(self, ends):
        """How many pixels the net of the next swap has, None where it has no net; and how it is made."""
        swap = Swap(self.labels, *ends)
        best = swap.least([None] * SITES)
        values, how = self.values_near(swap, ends)
        assert values is None or values == best
        self.labels = swap.made(best)
        self.moves += 1
        self.made.pop(ends, None)
        if best == [label == ends[1] for label in self.labels]:
            self.made[ends] = self.moves
        turned = [site for site in range(SITES) if self.labels[site] != swap.labels[site]]
        for site in turned:
            self.stamps[site] = self.moves
            self.last = ends
        return (swap.open_count() if values is None else None), f'{how}, {len(turned)} turned'

    def cycle(self):
        """How many pixels the net of each swap of a cycle has, and how it is made."""
        swaps = []
        for ends in itertools.combinations(range(LABELS), 2):
            self.settled = self.settled or self.last == ends
            if self.settled:
                break
            swaps.append((ends, *self.swap(ends)))
        return swaps


def main():
    for unlike in UNLIKE_COSTS:
        open_sites.UNLIKE = unlike
        run, nets = Run(), []
        for cycle in range(1, MOST_CYCLES + 1):
            for ends, count, how in run.cycle():
                nets += [] if count is None else [count]
                print(f'    {ends}: {how}; {"no net" if count is None else f"a net of {count}"}')
            print(f'unlike labels cost {unlike}, cycle {cycle}: up to here {len(nets)} nets of {sum(nets)} sites')


if __name__ == '__main__':
    main()
