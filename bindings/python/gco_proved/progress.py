"""The progress of a run: a bar of tqdm where that is there, else a line for each call."""
import sys
from typing import Any, Callable


def bar(label_count: int, moves: str) -> Callable[..., None]:
    """What a run calls as it goes on. A bar is as long as one cycle, and begins anew with it."""
    length = cycle_length(label_count, moves)
    try:
        from tqdm import tqdm
    except ImportError:
        return _line
    drawn: Any = None
    at = 0

    def fill(moves_made: int) -> None:
        drawn.update(moves_made - drawn.n)
        if drawn.n >= length:
            drawn.close()

    def step(cycle: int, change: Any, changed: int, energy: int) -> None:
        nonlocal drawn, at
        while at < cycle:
            if drawn is not None and drawn.n < length:
                fill(length)
            at += 1
            drawn = tqdm(total=length, unit="move", desc=f"cycle {at}", leave=True)
        drawn.set_postfix(energy=energy, changed=changed, refresh=False)
        fill(moves_till(change, label_count))

    return step


def cycle_length(label_count: int, moves: str) -> int:
    """How many moves a cycle has."""
    return label_count if moves == "expansion" else label_count * (label_count - 1) // 2


def move_at(label_count: int, moves: str, place: int) -> Any:
    """The move at a place of a cycle, from 0: a label, or two of a swap."""
    if moves == "expansion":
        return place
    alpha = 0
    while place >= label_count - 1 - alpha:
        place -= label_count - 1 - alpha
        alpha += 1
    return alpha, alpha + 1 + place


def moves_till(change: Any, label_count: int) -> int:
    """How many moves of a cycle are made where this one is."""
    if not isinstance(change, tuple):
        return int(change) + 1
    alpha, beta = change
    return alpha * label_count - alpha * (alpha + 1) // 2 + beta - alpha


def _line(cycle: int, change: Any, changed: int, energy: int) -> None:
    if changed:
        print(f"cycle {cycle} label {change}: {changed} sites, energy {energy}", file=sys.stderr)
