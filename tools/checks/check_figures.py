#!/usr/bin/env python3
"""Tests that the pages tell the figure that `make bench` wrote: the mean of gco's time over that of
the same moves over the library maxflow, in the first table of docs/MEASURED.md.

    python3 tools/checks/check_figures.py

`bench/measure.py --renew` writes the table, and the figure into these pages.
"""
import re
import sys
from pathlib import Path

TOP = Path(__file__).resolve().parents[2]
MEASURED = "docs/MEASURED.md"
MEAN = re.compile(r"^\| mean \(most\) \|[ |]*(\d+\.\d\d) \(", re.MULTILINE)
# Where a page tells the figure.
TOLD = {
    "README.md": re.compile(r"(\d+\.\d\d)(?=\s+of\s+the\s+time\s+of\s+Kolmogorov's\s+maxflow)"),
    "docs/BINDINGS.md": re.compile(r"(\d+\.\d\d)(?=\s+times\s+as\s+long\s+as\s+the\s+same\s+moves)"),
}


def mean_told(top=TOP):
    """The mean of the first table; nothing if there is none."""
    found = MEAN.search((top / MEASURED).read_text(encoding="utf-8"))
    return found.group(1) if found else None


def faults(top=TOP):
    mean = mean_told(top)
    if mean is None:
        yield f"{MEASURED}: the first table has no mean"
    for page, place in TOLD.items():
        told = place.findall((top / page).read_text(encoding="utf-8"))
        if told != [mean]:
            yield f"{page} tells {told or 'no mean'}, and {MEASURED} {mean}"


def renew(top=TOP):
    """Writes the mean of the table into the pages that tell it."""
    mean = mean_told(top)
    for page, place in TOLD.items():
        text = (top / page).read_text(encoding="utf-8")
        (top / page).write_text(place.sub(mean, text), encoding="utf-8")


def main():
    wrong = list(faults())
    for fault in wrong:
        print(fault)
    print(f"{len(TOLD)} pages tell the mean, {len(wrong)} wrong")
    sys.exit(1 if wrong else 0)


if __name__ == "__main__":
    main()
