"""A run over a picture: its moves and what they leave, a bar, and Ctrl-C that stops between them."""
import contextlib
import signal
import sys
import threading
from concurrent.futures import Future
from typing import Any, Callable, Iterator, List, NamedTuple, Optional, Tuple

from .. import labelling, progress, stretches
from ..lower_bound import PASSES, LowerBound, lower_bound
from ..refusals import Refused
from .words import Wrong

WHAT_TO_DO = {
    1: "the memory does not serve: take fewer --levels or --labels, fewer --jobs, or a smaller"
       " picture (--fit)",
    24: "the smooth costs are no metric, so an expansion cannot be made: take --moves swap,"
        " --smooth linear or potts, or a lower --trunc",
    27: "swaps take no label cost: leave --label-cost or --moves swap away",
}


class Step(NamedTuple):
    """Where some moves ended: the cycle and the label or labels of the last, how many pixels
    changed, and the energy's parts."""

    cycle: int
    change: Any
    changed: int
    data: int
    smooth: int
    label: int


class Ran(NamedTuple):
    """What a run found, its steps, and whether Ctrl-C stopped it. Of a run by tiles there are no
    steps. `done` says how far it came. `low` is a bound, if one was asked for."""

    found: labelling.Found
    steps: List[Step]
    stopped: bool
    done: str = ""
    low: Optional[int] = None


class Wanted(NamedTuple):
    """What --gap, --refine and --passes ask for."""

    gap: bool = False
    refine: bool = False
    passes: int = PASSES


def ran(data: Any, smooth: Any, pairs: Any, label_costs: Any, moves: str, cycles: int,
        drawn: Optional[bool], kept: bool, wanted: Wanted = Wanted(), start: Any = None) -> Ran:
    """Makes the moves; `drawn` asks for a bar, and None for one where a person looks on. Where
    there is no bar, and no step is to be `kept`, it is one call of the library. Where steps are
    kept, there is one for each move, which takes longer.

    A run that is to be refined starts from the labels of the bound. The one from 0 goes beside it,
    and the answer is the one of less energy. With two labels one move from 0 reaches each
    labelling, so there is nothing to refine.
    """
    if drawn is None:
        drawn = sys.stderr.isatty()

    def run_from(labels: Any, drawn: bool) -> Ran:
        if not drawn and not kept:
            return Ran(_at_once(data, smooth, pairs, label_costs, moves, cycles, labels), [], False)
        problem = labelling.Problem(data, smooth, pairs, label_costs, labels, narrow=True)
        return _by_stretches(problem, moves, cycles, drawn, kept)

    def bound_by(passes: int) -> LowerBound:
        return lower_bound(data, smooth, pairs, label_costs=label_costs, passes=passes)

    refines, low = wanted.refine and len(smooth) > 2, None
    few = passes_of_start(wanted.passes, len(smooth))
    plain = _beside(lambda: run_from(None, False)) if refines else None
    if refines:
        low, start = bound_by(few)
    if wanted.gap and not (refines and few == wanted.passes):
        low = bound_by(wanted.passes).low
    ended = run_from(start, drawn)._replace(low=low)
    return ended if plain is None or ended.stopped else _lower(ended, plain)


def passes_of_start(passes: int, labels: int) -> int:
    """How many of the passes are made for a start: of fewer than 16 labels as many sixteenths."""
    return -(-passes * min(labels, 16) // 16)


def _beside(call: Callable[[], Ran]) -> "Future[Ran]":
    """A call in a thread that the end of the program does not wait for."""
    future: Future[Ran] = Future()

    def answer() -> None:
        try:
            future.set_result(call())
        except BaseException as failure:
            future.set_exception(failure)

    threading.Thread(target=answer, daemon=True).start()
    return future


def _lower(ended: Ran, plain: "Future[Ran]") -> Ran:
    """The run of less energy, the first of two that have the same."""
    try:
        other = plain.result()
    except KeyboardInterrupt:
        return ended._replace(stopped=True, done="one of two runs")
    return other._replace(low=ended.low) if other.found.energy < ended.found.energy else ended


def _by_stretches(problem: labelling.Problem, moves: str, cycles: int, drawn: bool,
                  each: bool) -> Ran:
    """The moves by stretches, or one by one where each is to be kept, and what they leave."""
    steps: List[Step] = []
    bar = progress.bar(problem.label_count, moves) if drawn else None

    def step(cycle: int, change: Any, changed: int, energy: int) -> None:
        told = problem.told
        steps.append(Step(cycle, change, changed, told.data, told.smooth, told.label))
        if bar:
            bar(cycle, change, changed, energy)

    problem.run_at_once(moves, 0)
    told = problem.told
    steps.append(Step(0, None, 0, told.data, told.smooth, told.label))
    start = problem.found(0, False)
    try:
        return Ran(stretches.run(problem, moves, cycles, step, each), steps, False)
    except KeyboardInterrupt as stop:
        if not hasattr(stop, "partial"):
            raise
        return Ran(stop.partial or start, steps, True,
                   done=f"{stop.moves_made} moves")  # type: ignore[attr-defined]


@contextlib.contextmanager
def in_words() -> Iterator[None]:
    """Tells what the library refuses in a sentence that says what to do."""
    try:
        yield
    except Refused as refused:
        words = WHAT_TO_DO.get(refused.status, refused)
        raise Wrong(f"refused {refused.status}: {words}") from None
    except MemoryError:
        raise Wrong(WHAT_TO_DO[1]) from None


def _at_once(data, smooth, pairs, label_costs, moves, cycles, start):
    """One call of the library. Ctrl-C then ends the program at once, and nothing is written."""
    ended = (threading.current_thread() is threading.main_thread()
             and signal.getsignal(signal.SIGINT) is signal.default_int_handler)
    if ended:
        signal.signal(signal.SIGINT, signal.SIG_DFL)
    try:
        return labelling.label(data, smooth, pairs, label_costs=label_costs, moves=moves,
                               cycles=cycles, start=start, stoppable=False)
    finally:
        if ended:
            signal.signal(signal.SIGINT, signal.default_int_handler)


def lines(found: labelling.Found, tells_labels: bool, tells_bound: bool,
          low: Optional[int] = None) -> str:
    """The lines of the energy and of the bound, as the program gco says them, and of the gap."""
    text = f"energy {found.energy} data {found.data} smooth {found.smooth}"
    if tells_labels:
        text += f" label {found.label}"
    if tells_bound:
        text += "\n" + bound_line(found.bound)
    return text if low is None else text + "\n" + gap_line(found.energy, low)


def bound_line(bound: Optional[Tuple[int, int]]) -> str:
    """`bound A B`: A times the energy is at most B times the least; or `bound none`."""
    return "bound none" if bound is None else f"bound {bound[0]} {2 * bound[1]}"


def gap_line(energy: int, low: int) -> str:
    """What --gap says: the bound, and by how much the energy is above the least, rounded up."""
    if low == 0 < energy:
        return "least at least 0: no share of it is known"
    hundredths = -(-(energy - low) * 10000 // low) if low else 0
    percent = f"{hundredths // 100}.{hundredths % 100:02d}".rstrip("0").rstrip(".")
    return f"least at least {low}: at most {percent} % above the least energy"
