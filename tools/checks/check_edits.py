#!/usr/bin/env python3
"""Tests that each must-fail edit of the crates can be applied. The gate's script runs it before `rt ci`.

    python3 tools/checks/check_edits.py            lists what is wrong; the status is then 1

An edit is a file crates/NAME/must-fail/FUNCTION-what_is_wrong.edit. A line `file: PATH` names a source of
the crate, and pairs of lines `old: TEXT` and `new: TEXT` change it; a further `file:` line names another
source. Each old text stands exactly once in what the pairs before it made, and each new text is another
one. A function of that name stands in the crate. Nothing is compiled and nothing is proved here:
`rt must-fail NAME` does that.
"""

import re
import sys
from collections import Counter
from pathlib import Path

TOP = Path(__file__).resolve().parents[2]
TABLE = TOP / "tools/checks/edit_crates.txt"
NAMED = re.compile(r"([a-z0-9_]+)-[a-z0-9_]+\.edit")
MOST_OF_A_FUNCTION = 2


class Fault(Exception):
    """What is wrong with an edit."""


def words_of(path):
    """The lines of an edit, each as its number, its word and its text."""
    for number, line in enumerate(path.read_text(encoding="utf-8").split("\n"), 1):
        word, _, text = line.partition(":")
        if line.strip():
            yield number, word, text.removeprefix(" ")


def source_of(crate, number, name):
    """The text of the source that a line names."""
    path = crate / name.strip()
    if not name.startswith("src/") or path.suffix != ".rt" or not path.is_file():
        raise Fault(f"line {number}: {name} is no source of {crate.name}")
    return path.read_text(encoding="utf-8")


def changed(text, number, old, new):
    """The text of a source after a pair."""
    found = text.count(old) if old.strip() else 0
    if found != 1:
        raise Fault(f"line {number}: the old text stands {found} times there, in place of once")
    if old == new:
        raise Fault(f"line {number}: the new text is the old one")
    return text.replace(old, new)


def apply(path):
    """Applies an edit to the texts of the sources that it names."""
    crate, first, texts, source, old = path.parent.parent, {}, {}, None, None
    for number, word, text in words_of(path):
        if word == "file" and old is None:
            source = text.strip()
            first[source] = source_of(crate, number, text)
            texts.setdefault(source, first[source])
        elif word == "old" and source and old is None:
            old = (number, text)
        elif word == "new" and old is not None:
            texts[source] = changed(texts[source], *old, text)
            old = None
        else:
            raise Fault(f"line {number}: `{word}` is out of order: a file, and then pairs of old and new")
    if old is not None or texts == first:
        raise Fault("a file and at least one whole pair of an old and a new text are due")


def has_function(crate, name):
    """Whether a function of that name stands in the crate."""
    function = re.compile(rf"\bfn {name}\b")
    sources = (crate / "src").rglob("*.rt")
    return any(function.search(path.read_text(encoding="utf-8")) for path in sources)


def fault_of(path):
    """What is wrong with an edit, if anything is."""
    try:
        apply(path)
    except Fault as fault:
        return str(fault)
    named = NAMED.fullmatch(path.name)
    if named is None:
        return "its name is not FUNCTION-what_is_wrong.edit"
    if not has_function(path.parent.parent, named.group(1)):
        return f"no function {named.group(1)} stands in the crate"
    return None


def listed():
    """The crates of the table, each with who relies on it."""
    lines = TABLE.read_text(encoding="utf-8").splitlines()
    rows = [line.partition(":") for line in lines if line.strip() and not line.startswith("#")]
    return {crate.strip(): reason.strip() for crate, _, reason in rows}


def table_faults(edits):
    """What is wrong with the table, and with how many edits a function has."""
    table, having = listed(), {path.parent.parent.name for path in edits}
    for crate in sorted(having - table.keys()):
        yield f"{crate} has edits and no line in {TABLE.name}: who outside relies on it?"
    for crate in sorted(table.keys() - having):
        yield f"{TABLE.name} lists {crate}, which has no edit"
    for crate in sorted(crate for crate, reason in table.items() if not reason):
        yield f"{TABLE.name}: {crate} has no reason"
    counts = Counter((path.parent.parent.name, path.name.partition("-")[0]) for path in edits)
    for (crate, function), count in sorted(counts.items()):
        if count > MOST_OF_A_FUNCTION:
            yield f"{crate}: {function} has {count} edits, in place of at most {MOST_OF_A_FUNCTION}"


def main():
    if sys.argv[1:]:
        sys.exit(__doc__)
    edits = sorted((TOP / "crates").glob("*/must-fail/*"))
    faults = [(path.relative_to(TOP), fault_of(path)) for path in edits]
    faults = [f"{path}: {fault}" for path, fault in faults if fault]
    faults += table_faults(edits)
    for fault in faults:
        print(fault)
    sys.exit(1 if faults else 0)


if __name__ == "__main__":
    main()
