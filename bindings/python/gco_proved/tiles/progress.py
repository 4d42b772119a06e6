"""The progress of sweeps: a bar of tqdm where that is there, else a line for each sweep."""
import sys
from typing import Any, Callable


def bar() -> Callable[..., None]:
    """What a run calls after each tile. A bar is as long as the tiles that a sweep looks at."""
    return _bar("sweep {}", "energy")


def bound_bar() -> Callable[..., None]:
    """What a bound calls after each tile."""
    step = _bar("bound", "least")

    def tell(done: int, tiles: int, low: int) -> None:
        step(1, done, tiles, low)

    return tell


def _bar(name, number):
    """A bar of that name, which tells a number under the other one."""
    try:
        from tqdm import tqdm
    except ImportError:
        return _line(name, number)
    drawn: Any = None
    at = 0

    def step(sweep: int, done: int, tiles: int, told: int) -> None:
        nonlocal drawn, at
        if sweep != at:
            if drawn is not None:
                drawn.close()
            drawn, at = tqdm(total=tiles, unit="tile", desc=name.format(sweep), leave=True), sweep
        drawn.set_postfix({number: told}, refresh=False)
        drawn.update(done - drawn.n)
        if done == tiles:
            drawn.close()

    return step


def _line(name, number):
    def step(sweep: int, done: int, tiles: int, told: int) -> None:
        if done == tiles:
            print(f"{name.format(sweep)}: {tiles} tiles, {number} {told}", file=sys.stderr)

    return step
