#!/usr/bin/env python3
"""How many cuts a run of expansions has whose later expansions look near the changes alone, and how many sites these.

The numbers of the test `later_expansions_open_few_sites` of the crate `move_tests`. To make them again, at the top of the
repository:

    python3 tools/tables/stage_sites.py

The picture, what a label costs a pixel and the first labelling are those of tools/tables/open_sites.py; two pixels that share an
edge cost 2 where their labels differ, and 5 in a second run. Each cycle expands the labels 0, 1, 2 and 3 (Boykov, Veksler,
Zabih, PAMI 2001, section 5). An expansion is left out, and all after it, where no label changed since the same one of
the cycle before.

The first expansion of a label is made whole: the pixels that its decisions leave open are cut. So is a later one where a
32nd of all pixels or more have another label and changed since the label's last expansion. Else it is made in
stages. A pixel that has the label keeps it. Fresh pixels are those that changed since and the neighbours of these. The
first stage opens the fresh pixels and rings around them; all others count as taking the label. The cut of a stage takes
the least energy over its open pixels, and of all least values those with the fewest ones. An open pixel that it shows 0
keeps its label for good. Of those that take the label the parts that hold a fresh pixel are looked at: where no pixel
beside a part counts as taking the label without being open, the parts are what takes the label. Else the next stage opens
the parts, the pixels beside them that count so, and rings around these; all else that did not turn 0 counts as taking the
label again. A move is made whole in place of its next stage where its stages open more than half as many pixels together as there are.

A ring is what is beside the pixels of the ring before and counts as taking the label without being open. The first stage
opens at most 20, each later one at most 48. A ring is opened only where fewer pixels are listed than twice those that the
rings lie around, those that are open before the rings, and 16 together; of a later stage, three times those that are open.
A pixel that the rings lie around is listed once for each pixel beside it through which it was met.

In further runs parts of the pixels look by themselves before the first stage. A part's own pixels are as many that
follow one another; it sees a quarter as many more at each of its ends. It goes by stages as above, from its own fresh pixels
on, but opens only what it sees, and all else counts as taking the label. It ends where nothing that it sees is left to be
opened, or where more than half of what it sees is open. A pixel that one of the parts finds to keep its label is known to
keep it, and one that a part leaves open is open in the first stage. That stage then opens the fresh pixels of which nothing
else is known, and rings around these. The cuts of the parts are not counted. Where the fresh pixels are a 32nd of all,
there are no parts, so that a test can tell such a stage from a whole move, which has none.

Each cut is one of the whole network, in which pixels that are not open are tied to their value, and what each move ends
with is compared with the best labelling that it reaches.
"""
import open_sites
from open_sites import LABELS, SIDE, after, decided, levels_to, neighbours, push_all, residuals_of

SITES = SIDE * SIDE
FIRST_RINGS = 20
LATER_RINGS = 48
RING_ROOM = 16
FIRST_SHARE = 1
LATER_SHARE = 3
CHANGED_SHARE = 32
OPENED_SHARE = 2
PART_STAGES = 64
SEEN_SHARE = 2
BEYOND_SHARE = 4
SITES_A_FRESH_ONE = 32
PARTS = 8
MOST_CYCLES = 4
UNLIKE_COSTS = [2, 5]

# What is known of a pixel in a stage.
KEEPS, TAKES, OPEN = range(3)


def cut(labels, alpha, known):
    """Whether each pixel takes the label: the least values of the open ones, with the fewest ones."""
    residual, source, sink = residuals_of(labels, alpha)
    bound = 1 + sum(sum(ends.values()) for ends in residual)
    for site, state in enumerate(known):
        if state == KEEPS:
            residual[source][site] += bound
        elif state == TAKES:
            residual[site][sink] += bound
    levels = levels_to(residual, source, sink)
    while source in levels:
        push_all(residual, levels, source, sink)
        levels = levels_to(residual, source, sink)
    return [site in levels for site in range(SITES)]


def open_around(known, around, more, rings, seen=range(SITES)):
    """Opens at most so many rings around the listed pixels, of those that are seen, until about so many more are listed."""
    listed = list(around)
    most = 2 * len(around) + more + RING_ROOM
    ring = listed
    for _ in range(rings):
        if len(listed) >= most:
            return
        beside = []
        for site in ring:
            for other in neighbours(site):
                if known[other] == TAKES and other in seen:
                    known[other] = OPEN
                    beside.append(other)
        listed = listed + beside
        ring = beside


def parts_of(known, values, fresh):
    """The pixels of the parts that hold a fresh pixel, and those beside them that take the label and are not open."""
    part, front = [], []
    is_in = set()

    def meet(site):
        if values[site] and known[site] != OPEN:
            front.append(site)
        elif values[site] and site not in is_in:
            is_in.add(site)
            part.append(site)

    for site in fresh:
        meet(site)
    for site in part:
        for other in neighbours(site):
            meet(other)
    return part, front


def open_fresh(known, fresh, seen=range(SITES)):
    """Opens the fresh pixels that count as taking the label, and rings around them."""
    new = [site for site in fresh if known[site] == TAKES]
    for site in new:
        known[site] = OPEN
    open_around(known, new, FIRST_SHARE * len(new), FIRST_RINGS, seen)


def open_next(known, values, part, front, seen=range(SITES)):
    """Opens what the next stage looks at, of what is seen."""
    for site in range(SITES):
        if known[site] == OPEN:
            known[site] = TAKES if values[site] else KEEPS
    for site in part + front:
        if site in seen and known[site] == TAKES:
            known[site] = OPEN
    open_around(known, front, LATER_SHARE * (len(part) + len(front)), LATER_RINGS, seen)


def look_apart(labels, alpha, known, fresh, seen):
    """What a part knows at last of the pixels, from its own fresh ones on."""
    known = list(known)
    open_fresh(known, fresh, seen)
    for _ in range(PART_STAGES):
        if known.count(OPEN) > len(seen) // SEEN_SHARE:
            break
        values = cut(labels, alpha, known)
        part, front = parts_of(known, values, fresh)
        open_next(known, values, part, front, seen)
        if not any(site in seen for site in front):
            break
    return known


def find_keeping(labels, alpha, known, fresh, parts):
    """Takes over what so many parts find, each by itself."""
    own = -(-SITES // parts)
    beyond = own // BEYOND_SHARE
    found = []
    for first in range(0, SITES, own):
        seen = range(max(first - beyond, 0), min(first + own + beyond, SITES))
        own_fresh = [site for site in fresh if first <= site < first + own]
        if own_fresh:
            found.append((seen, look_apart(labels, alpha, known, own_fresh, seen)))
    for seen, told in found:
        for site in seen:
            if known[site] != KEEPS and told[site] != TAKES:
                known[site] = told[site]


def staged(labels, alpha, changed, parts):
    """How many pixels each stage opens, and which take the label; none where the move is to be made whole."""
    near = {other for site in changed for other in [site, *neighbours(site)]}
    fresh = sorted(site for site in near if labels[site] != alpha)
    known = [KEEPS if label == alpha else TAKES for label in labels]
    if parts > 1 and len(fresh) * SITES_A_FRESH_ONE != SITES:
        find_keeping(labels, alpha, known, fresh, parts)
    open_fresh(known, fresh)
    counts = []
    while sum(counts) + known.count(OPEN) <= SITES // OPENED_SHARE:
        counts.append(known.count(OPEN))
        values = cut(labels, alpha, known)
        part, front = parts_of(known, values, fresh)
        if not front:
            return counts, part
        open_next(known, values, part, front)
    return counts, None


class Run:
    """A run: its labels, which move changed each pixel last, which was each label's last, and the last that changed one."""

    def __init__(self, parts):
        self.parts = parts
        self.labels = [0] * SITES
        self.stamps = [0] * SITES
        self.made = [0] * LABELS
        self.moves = 0
        self.last = None

    def expand(self, alpha):
        """How many pixels each cut of the next expansion has."""
        best = after(self.labels, alpha)
        since = self.made[alpha]
        changed = [site for site in range(SITES) if self.stamps[site] > since]
        counts, taken = [], None
        if since and sum(self.labels[site] != alpha for site in changed) * CHANGED_SHARE < SITES:
            counts, taken = staged(self.labels, alpha, changed, self.parts)
        if taken is None:
            counts = counts + [decided(self.labels, alpha).count(None)]
        else:
            assert sorted(taken) == [site for site in range(SITES) if best[site] != self.labels[site]]
        self.moves += 1
        self.made[alpha] = self.moves
        for site in range(SITES):
            if best[site] != self.labels[site]:
                self.stamps[site] = self.moves
                self.last = alpha
        self.labels = best
        return counts

    def cycle(self):
        """How many pixels the cuts of each expansion of a cycle have."""
        moves = []
        for alpha in range(LABELS):
            if self.last == alpha:
                break
            moves.append(self.expand(alpha))
        return moves


def main():
    for parts, unlike in [(parts, unlike) for parts in [1, PARTS] for unlike in UNLIKE_COSTS]:
        open_sites.UNLIKE = unlike
        run, cuts, sites = Run(parts), 0, 0
        for cycle in range(1, MOST_CYCLES + 1):
            moves = run.cycle()
            count = sum(map(sum, moves))
            cuts += sum(map(len, moves))
            sites += count
            print(f'{parts} parts, unlike labels cost {unlike}, cycle {cycle}: {count} sites; up to here {cuts} cuts of {sites} sites; {moves}')


if __name__ == '__main__':
    main()
