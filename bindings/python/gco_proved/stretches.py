"""A run by stretches: some moves a call of the library, so that it is watched and stopped."""
import ctypes
import time
from typing import TYPE_CHECKING, Any, Callable, Optional, Tuple

from . import _library, arrays
from ._library import MOVES, UNFINISHED, calls
from .progress import cycle_length, move_at

if TYPE_CHECKING:
    from .labelling import Found, Problem

# a stretch is of as many moves as take so many seconds: the first one by the time of a slow move
SECONDS = 0.8
SECONDS_A_SITE = 2.5e-7
# and the later ones by the time of the stretch before, of at most so many times as many moves
GROWTH = 2
MOST = 1 << 20


class _Stretches:
    """A run that is under way: the arrays that are lent to each call, and where it stands."""

    def __init__(self, problem: "Problem", moves: str, allowed: int) -> None:
        self.problem, self.moves, self.allowed = problem, moves, allowed
        self.call = calls.gco_label_stretch_int32 if problem.narrow else calls.gco_label_stretch
        self.course = _library.Course()
        self.lent = arrays.zeros(problem.sites), arrays.zeros(problem.label_count)
        self.count = cycle_length(problem.label_count, moves)

    def make(self, most: int) -> bool:
        """Makes at most so many moves. Whether the run goes on."""
        (stamps, sites), (made, labels) = map(arrays.run_of_labels, self.lent)
        status = self.problem.status_of(self.call, MOVES[self.moves], self.allowed, most,
                                        ctypes.addressof(self.course), stamps, sites, made, labels)
        if status not in (0, UNFINISHED):
            raise self.problem.refused(status)
        return status == UNFINISHED

    def moves_made(self) -> int:
        """How many moves of the run are made. At its end those that are left of the cycle count
        too, since they are known to change nothing."""
        told, course = self.problem.told, self.course
        if told.cycles > course.cycles:  # the run ended, and its course stayed as it was
            return told.cycles * self.count
        return course.cycles * self.count + course.place

    def last(self) -> Tuple[int, int]:
        """The cycle of the last move that was made, from 1, and its place in it, from 0."""
        cycle, place = divmod(self.moves_made() - 1, self.count)
        return cycle + 1, place

    def found_so_far(self) -> Optional["Found"]:
        """What was found till now, None before the first move. The call before may have been
        refused, so the energy is asked for anew."""
        if not self.moves_made():
            return None
        cycle, _ = self.last()
        self.problem.run_at_once(self.moves, 0)
        return self.problem.found(cycle, False)


class _Singles(_Stretches):
    """The same by single moves, where each pair has a table. It ends as the whole run does: moves
    that were made since a label changed last are left out."""

    def __init__(self, problem: "Problem", moves: str, allowed: int) -> None:
        super().__init__(problem, moves, allowed)
        self.call = problem.call_of("gco_expand" if moves == "expansion" else "gco_swap")
        self.number = self.still = 0  # how many moves are made, and how many since a label changed
        self.ended = 0

    def make(self, most: int) -> bool:
        told, end = self.problem.told, self.allowed * self.count
        if not end:
            self.problem.run_at_once(self.moves, self.allowed)
            return False
        for _ in range(most):
            change = move_at(self.problem.label_count, self.moves, self.number % self.count)
            self.problem.make(self.call, *(change if isinstance(change, tuple) else (change,)))
            self.number += 1
            self.still = 0 if told.changed else self.still + 1
            if self.still == self.count or self.number == end:
                self.ended = -(-self.number // self.count)
                told.cycles, told.settled = self.ended, int(self.still == self.count)
                return False
        return True

    def moves_made(self) -> int:
        return self.ended * self.count or self.number


def run(problem: "Problem", moves: str, allowed: int, progress: Optional[Callable[..., Any]],
        each: bool = False) -> "Found":
    """The cycles of a run, by stretches of some 0.8 s, or move by move where `each` is
    asked for. The labels are those of one call.

    A KeyboardInterrupt has what was found till then as `partial`, None before the first move, and
    as `moves_made` how many moves that are.
    """
    kind = _Singles if problem.has_tables else _Stretches
    stretches = kind(problem, moves, allowed)
    most, goes_on = 1 if each else _moves_of(SECONDS_A_SITE * problem.sites), True
    try:
        while goes_on:
            before = _copy(problem.labels) if progress else None
            began = time.perf_counter()
            goes_on = stretches.make(most)
            spent = time.perf_counter() - began
            if progress and stretches.moves_made():
                cycle, place = stretches.last()
                changed = arrays.differing(before, problem.labels)
                named = move_at(problem.label_count, moves, place)
                if progress(cycle, named, changed, problem.energy()) is False and goes_on:
                    return problem.found(cycle, False)
            most = 1 if each else _moves_next(most, spent)
    except KeyboardInterrupt as stop:
        stop.moves_made = stretches.moves_made()  # type: ignore[attr-defined]
        stop.partial = stretches.found_so_far()  # type: ignore[attr-defined]
        raise
    return problem.found_at_end()


def _moves_next(most: int, spent: float) -> int:
    """How many moves the next stretch has, where so many took so long."""
    return min(_moves_of(spent / most), most * GROWTH)


def _moves_of(each: float) -> int:
    """How many moves take about SECONDS, where each takes so long."""
    return max(1, min(int(SECONDS / max(each, 1e-9)), MOST))


def _copy(labels: Any) -> Any:
    return labels[:] if arrays.numpy is None else labels.copy()
