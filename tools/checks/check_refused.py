#!/usr/bin/env python3
"""Tests that docs/REFUSED.md has each line that a refused run can print, and no other:

    python3 tools/checks/check_refused.py

The numbers are taken from crates/program_texts/src/fault_line.rt, which prints the lines. Other pages have
no table of these lines.
"""
import re
import sys
from pathlib import Path

from refused_page import COMMANDS, refusals, refusals_of

TOP = Path(__file__).resolve().parents[2]
UNPRINTED = {23}
PAGE = "docs/REFUSED.md"


def printed_numbers():
    """The numbers in the source of the fault line."""
    text = (TOP / "crates/program_texts/src/fault_line.rt").read_text(encoding="utf-8")
    return {int(number) for number in re.findall(r'"(\d+)(?: [a-z]+ ?)?"', text)}


def tables_elsewhere():
    """The other pages that have a table of refused lines."""
    for page in sorted((TOP / "docs").glob("*.md")):
        if page != TOP / PAGE and "\n| `refused " in page.read_text(encoding="utf-8"):
            yield page.name


def faults():
    """What is wrong with the page."""
    told = {row.number for row in refusals()}
    for number in sorted((printed_numbers() - UNPRINTED) - told):
        yield f"refused {number} can be printed and is not on the page"
    for number in sorted(told - printed_numbers()):
        yield f"refused {number} is on the page and nothing prints it"
    for page in tables_elsewhere():
        yield f"docs/{page} has a table of refused lines too"
    for command in COMMANDS:
        if not refusals_of(command):
            yield f"no line of {command} is on the page"


def main():
    wrong = list(faults())
    for fault in wrong:
        print(fault)
    print(f"{len(refusals())} lines, {len(wrong)} wrong")
    sys.exit(1 if wrong else 0)


if __name__ == "__main__":
    main()
