#!/usr/bin/env python3
"""Counts the sources by group of crates:

    python3 tools/checks/proof_size.py             prints a table
    python3 tools/checks/proof_size.py --test      ends in status 1 if docs/PROVED.md tells another size
    python3 tools/checks/proof_size.py --renew     writes the sizes of docs/PROVED.md

The page tells rounded numbers: they may be 2 % beside those of today. `check_quotes.py` tests them, too.

Lines without blank ones and comments. A contract is the lines of `requires` and `ensures`, a body
what stands between the braces behind them. Crates of tests are the last row, and not in the sum.
"""
import re
import sys

from contracts_page import CLAUSE, FUNCTION, TOP, block_end, groups, indent_of

PAGE = TOP / "docs/PROVED.md"
LADDER = ("## The ladder", "## The size of the proof")
# The rows of the page's table by their first words, and the column that each tells.
ROWS = {
    "crates, without": "crates",
    "functions": "functions",
    "lines of their bodies": "bodies",
    "lines of their contracts": "contracts",
    "lines of definitions": "definitions",
    "lines of proof:": "proofs",
    "planted bugs": "planted bugs",
    "lines of the ladder": "ladder",
}
NEAR = 0.02
COLUMNS = ["crates", "functions", "contracts", "bodies", "definitions", "proofs", "planted bugs"]


def told_lines(text):
    """The lines that are neither blank nor a comment."""
    return [line for line in text.split("\n") if line.strip() and not re.match(r"\s*(//|--)", line)]


def lines_below(folder, pattern):
    return sum(len(told_lines(file.read_text(encoding="utf-8"))) for file in folder.rglob(pattern))


def function_sizes(lines):
    """Of each function the lines of its contract and of its body."""
    for start, line in enumerate(lines):
        if not FUNCTION.match(line.lstrip().removeprefix("pub(crate) ")):
            continue
        end, indent = block_end(lines, start), indent_of(line)
        contract, behind = 0, start
        for at in range(start, end):
            is_clause = CLAUSE.match(lines[at]) is not None
            if lines[at] == " " * indent + "{}":
                break
            if lines[at] == " " * indent + "{" or lines[at].endswith(" {") and not is_clause:
                behind = at + 1
                break
            contract += is_clause or contract > 0
        yield contract, max(end - behind - 1, 0) if behind > start else 0


def row_of(crates):
    """What the columns say of some crates."""
    row = [0] * len(COLUMNS)
    row[0] = len(crates)
    for crate in crates:
        folder = TOP / "crates" / crate
        for file in (folder / "src").rglob("*.rt"):
            sizes = list(function_sizes(told_lines(file.read_text(encoding="utf-8"))))
            row[1] += len(sizes)
            row[2] += sum(contract for contract, _ in sizes)
            row[3] += sum(body for _, body in sizes)
        row[4] += lines_below(folder / "specs", "*.antt")
        row[5] += lines_below(folder / "proofs", "*.antt")
        row[6] += len(list((folder / "must-fail").glob("*.edit")))
    return row


def is_test(crate):
    return crate.endswith("_tests")


def all_rows():
    """The groups of crates that are no tests, each with its row; then the row of all."""
    rows = []
    for heading, crates in groups():
        row = row_of([crate for crate in crates if not is_test(crate)])
        if row[0]:
            rows.append((heading, row))
    return rows + [("**all**", [sum(column) for column in zip(*(row for _, row in rows))])]


def sizes():
    """What the page tells, as it is today."""
    text = PAGE.read_text(encoding="utf-8")
    ladder = text[text.index(LADDER[0]) : text.index(LADDER[1])]
    quotes = re.findall(r"^```\w+\n(.*?)^```$", ladder, re.DOTALL | re.MULTILINE)
    lines = sum(len(told_lines(quote)) for quote in quotes)
    return {**dict(zip(COLUMNS, all_rows()[-1][1])), "ladder": lines}


def rounded(number):
    """The number as the page tells it."""
    return str(number) if number < 100 else f"some {round(number, -1):,}"


def told_rows(text):
    """Of each row of the page's table its first words, and the match of its number."""
    for first in ROWS:
        yield first, re.search(rf"(?<=^\| ){re.escape(first)}.*\| (.*) \|$", text, re.MULTILINE)


def faults():
    """What the page tells wrongly of the proof's size."""
    today, text = sizes(), PAGE.read_text(encoding="utf-8")
    for first, row in told_rows(text):
        number = today[ROWS[first]]
        told = int(re.sub(r"\D", "", row.group(1))) if row else 0
        if abs(told - number) > NEAR * number:
            yield f"docs/PROVED.md: {first}: {told:,}, and today {number:,}"


def renew():
    today, text = sizes(), PAGE.read_text(encoding="utf-8")
    for first, row in reversed(list(told_rows(text))):
        text = text[: row.start(1)] + rounded(today[ROWS[first]]) + text[row.end(1) :]
    PAGE.write_text(text, encoding="utf-8")


def table():
    tests = [crate for _, crates in groups() for crate in crates if is_test(crate)]
    print("| |" + "".join(f" {column} |" for column in COLUMNS))
    print("|---" * (len(COLUMNS) + 1) + "|")
    for heading, row in [*all_rows(), ("tests", row_of(tests))]:
        print(f"| {heading} |" + "".join(f" {number:,} |" for number in row))


def main():
    if sys.argv[1:] == ["--test"]:
        wrong = list(faults())
        sys.exit("\n".join(wrong) if wrong else 0)
    elif sys.argv[1:] == ["--renew"]:
        renew()
    elif sys.argv[1:]:
        sys.exit(__doc__)
    else:
        table()


if __name__ == "__main__":
    main()
