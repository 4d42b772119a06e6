"""--plot: the energy over the moves, and its parts."""
from typing import Any, List, Optional

from .words import Wrong


def look_at_plot() -> Any:
    """matplotlib's figures, or a sentence that asks for it."""
    try:
        import matplotlib
        matplotlib.use("Agg")
        from matplotlib import pyplot
    except ImportError:
        raise Wrong("--plot wants matplotlib: pip install matplotlib (Debian: apt-get install"
                    " python3-matplotlib)") from None
    return pyplot


def plot(name: str, steps: List[Any], title: str, low: Optional[int] = None) -> None:
    """Draws the energy, and the parts of the pixels, the pairs and the labels, over the moves; and
    under it the bound, if there is one."""
    pyplot = look_at_plot()
    figure, axes = pyplot.subplots(figsize=(9, 5), constrained_layout=True)
    over = range(len(steps))
    parts = {"data": [step.data for step in steps], "smooth": [step.smooth for step in steps],
             "label": [step.label for step in steps]}
    axes.plot(over, [sum(three) for three in zip(*parts.values())], label="energy", color="black")
    for name_of_part, values in parts.items():
        if any(values) or name_of_part != "label":
            axes.plot(over, values, label=name_of_part)
    if low is not None:
        axes.axhline(low, label="least at least", color="black", linestyle="dotted")
    for place in range(1, len(steps)):
        if steps[place].cycle != steps[place - 1].cycle and place > 1:
            axes.axvline(place - 1, color="lightgrey", linewidth=0.8, zorder=0)
    axes.set(xlabel="moves (a grey line begins a cycle)", ylabel="energy", title=title)
    axes.set_ylim(bottom=0)
    axes.legend()
    try:
        figure.savefig(name)
    except (OSError, ValueError) as error:
        raise Wrong(f"{name} cannot be written: {error}") from None
    finally:
        pyplot.close(figure)
