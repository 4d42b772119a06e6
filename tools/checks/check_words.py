#!/usr/bin/env python3
"""Tests how the sources of the crates are written. The gate's script runs it first.

    python3 tools/checks/check_words.py                   lists what is wrong; the status is then 1
    python3 tools/checks/check_words.py --wrap [CRATE ..] first breaks wide lines, then `rt fmt` is due

A comment, a clause and a definition of specs/ are at most 100 columns wide, and so are the imports
of specs/ and src/. The name of a definition stands in one crate. The name of a definition or a function is not a bare participle.
ALLOWED and BARE have the names that stay for good.
"""

import re
import sys
from collections import defaultdict
from pathlib import Path

TOP = Path(__file__).resolve().parents[2]
COLUMNS = 100

# Names that stay in two crates, each with its reason.
ALLOWED = {}

# Names of one word that look like participles and stay, each with its reason.
BARE = {
    "labelling": "a noun of the field",
    "holding": "a noun: what a node holds",
    "saving": "a noun: what a pair saves",
    "got": "hands out a field of a state: what the sink got",
    "known": "hands out a field of a direction: the label that is known",
    "drawn": "hands out a number of a book of turns",
    "left": "hands out a number of a book of turns",
    "met": "hands out a field of a gate of the tests",
}
IRREGULAR = set(
    """begun bent bound bought broken brought built caught chosen dealt done drawn driven eaten
    fallen fed felt fought found forgotten given gone got gotten grown heard held hidden kept known
    laid led left lent lost made meant met paid ridden risen said seen sent shaken shown slept sold
    sought spent spoken spun stood struck stuck sworn swept swung taken taught thought thrown told
    torn understood woken won worn wound written""".split()
)
ENDING = re.compile(r"\w*[aeiouy]\w*(?:[^e]ed|ing)")
FUNCTION = re.compile(r"\s*(?:pub(?:\(crate\))? )?(?:const )?fn (\w+)")
DEFINING = re.compile(
    r"(?:pub (?:record|data)|(?:abbrev|unfoldable|record|data)(?: pub)?|pub) ([A-Za-z_][\w'-]*)"
)
OPENS, CLOSES = "([{⌜", ")]}⌝"
# What a break may stand before, the best first: what binds least.
OPERATORS = [
    ["→"],
    ["⊎"],
    ["×", "↔"],
    ["≡", "≢", "≤", "<", "≤ℤ", "<ℤ"],
    ["++", "∷", "+", "-", "+ℤ", "-ℤ", "&&", "||"],
]
# What is too short for a line of its own.
SHORT = re.compile(r".{0,16}")
MARK = re.compile(r"^\s*(?:///|//!|//|--)")
IMPORT = re.compile(r"\s*(?:pub )?(?:ghost )?use ")
# An import of names: what stands before them, the names, and what stands after them.
NAMES = re.compile(r"(.*\{)(.*)(\};?)")
LISTED = re.compile(r"(?:[-*] |\d+\. |#|\||```)")


def sources(crate, kind, ending):
    """The files of one kind of a crate, in the order of their names."""
    return sorted((TOP / "crates" / crate / kind).rglob("*" + ending))


def clause_lines(lines):
    """Which lines of a source belong to a clause."""
    found, depth = set(), 0
    for number, line in enumerate(lines):
        text = line.strip()
        begins = re.match(r"(?:requires|ensures|ghost(?! use))\b", text)
        if depth == 0 and not begins:
            continue
        found.add(number)
        depth += sum(text.count(mark) for mark in "{(") - sum(text.count(mark) for mark in "})")
        depth = max(depth, 0)
    return found


def kinds_of(path, lines):
    """What each line is held to: `comment`, `import`, `clause`, `definition`, or nothing."""
    is_code = path.suffix == ".rt"
    is_proof = "proofs" in path.relative_to(TOP).parts
    clauses = clause_lines(lines) if is_code else set()
    found, in_use = [], False
    for number, line in enumerate(lines):
        text = line.strip()
        if text.startswith("//" if is_code else "--"):
            found.append("comment")
        elif in_use or IMPORT.match(text):
            in_use = "}" not in text if "{" in text or in_use else False
            found.append("" if is_proof else "import")
        elif number in clauses:
            found.append("clause")
        elif not is_code and text and not is_proof:
            found.append("definition")
        else:
            found.append("")
    return found


def wide_lines(path):
    """The number and the kind of each line that is too wide."""
    lines = path.read_text(encoding="utf-8").split("\n")
    kinds = kinds_of(path, lines)
    for number, (line, kind) in enumerate(zip(lines, kinds)):
        if kind and len(line) > COLUMNS:
            yield number + 1, kind


def all_sources(crate):
    kinds = [("src", ".rt"), ("specs", ".antt"), ("proofs", ".antt")]
    return [path for kind, ending in kinds for path in sources(crate, kind, ending)]


def filled(mark, words, hang):
    """Words in lines of a comment, which are full."""
    lines, line = [], mark
    for word in words:
        if line != mark and line != mark + hang and len(line) + 1 + len(word) > COLUMNS:
            lines.append(line)
            line = mark + hang
        line += " " + word
    return lines + [line]


def wrapped_comment(lines):
    """A paragraph of a comment whose lines fit. Lists, tables and code keep their lines."""
    mark = MARK.match(lines[0]).group(0)
    texts = [line.strip()[len(mark.strip()):].strip() for line in lines]
    listed = re.match(r"(?:[-*]|\d+\.) ", texts[0])
    if any(text.startswith(("#", "|", "```")) for text in texts):
        return lines
    hang = " " * len(listed.group(0)) if listed else ""
    return filled(mark, " ".join(texts).split(), hang)


def is_break(line):
    """Whether a comment's line ends a paragraph before it, or is one by itself."""
    text = MARK.sub("", line, count=1).strip()
    return not text or LISTED.match(text) is not None


def goes_on(lines, kinds, end, mark):
    """Whether the paragraph of a comment goes on at this line."""
    if end == len(lines) or kinds[end] != "comment" or is_break(lines[end]):
        return False
    return MARK.match(lines[end]).group(0) == mark


def wrap_comments(lines, kinds):
    """All comments with their wide paragraphs broken."""
    done, at, fenced = [], 0, False
    while at < len(lines):
        if kinds[at] != "comment":
            done.append(lines[at])
            at += 1
            continue
        fenced ^= "```" in lines[at]
        end, mark = at + 1, MARK.match(lines[at]).group(0)
        empty = not lines[at].strip()[len(mark.strip()):].strip()
        while not empty and goes_on(lines, kinds, end, mark):
            end += 1
        part = lines[at:end]
        if not fenced and any(len(line) > COLUMNS for line in part):
            part = wrapped_comment(part)
        done += part
        at = end
    return done


def places(text):
    """Where a line may be broken: the column, how deep it is, and how much its operator binds."""
    depth, found = 0, []
    for column, mark in enumerate(text):
        if mark in CLOSES:
            depth -= 1
        if mark == " " and column > 0:
            word = text[column + 1:].partition(" ")[0]
            rank = next((n for n, row in enumerate(OPERATORS) if word in row), None)
            if rank is not None:
                found.append((column, depth, rank))
            elif text[column - 1] == "." and re.search(r"λ [^.]*\.$", text[:column]):
                found.append((column, depth, 0.5))
            elif text[:column].endswith((" in", ";", " =", " :")):
                found.append((column, depth, 0))
            elif text[column + 1] in "([{" or text[column - 1] in ")]}":
                found.append((column, depth + 0.5, len(OPERATORS)))
            else:
                found.append((column, depth + 0.5, len(OPERATORS) + 1))
        if mark in OPENS:
            depth += 1
    return found


def halves(line, least):
    """A wide line in two, broken as far out as it goes, and then as late as it goes."""
    found = [it for it in places(line) if least < it[0] <= COLUMNS]
    found = [it for it in found if not SHORT.fullmatch(line[it[0]:].strip())] or found
    if not found:
        return None
    column, _, _ = min(found, key=lambda it: (it[1], it[2], -it[0]))
    return line[:column].rstrip(), line[column:].strip()


def wrapped_line(line, indent):
    """The lines that a wide line of a clause or a definition is broken into."""
    done = []
    while len(line) > COLUMNS:
        own = len(line) - len(line.lstrip())
        parts = halves(line, max(own, indent) + 20)
        if parts is None:
            break
        done.append(parts[0])
        line = " " * indent + parts[1]
    return done + [line]


def wrapped_import(line):
    """The imports that a wide import is broken into, each of some of its names."""
    head, names, tail = NAMES.fullmatch(line).groups()
    done, part = [], []
    for name in names.split(", "):
        if part and len(head + ", ".join(part + [name]) + tail) > COLUMNS:
            done.append(head + ", ".join(part) + tail)
            part = []
        part.append(name)
    return done + [head + ", ".join(part) + tail]


def wrap_terms(path, lines):
    """All imports, clauses and definitions with their wide lines broken."""
    kinds, done, base = kinds_of(path, lines), [], 0
    for line, kind in zip(lines, kinds):
        own = len(line) - len(line.lstrip())
        if kind == "clause" and re.match(r"(?:requires|ensures|ghost)\b", line.strip()):
            base = own
        if kind == "import" and len(line) > COLUMNS and NAMES.fullmatch(line):
            done += wrapped_import(line)
        elif kind in ("clause", "definition") and len(line) > COLUMNS:
            hang = max(own, base + 4) if kind == "clause" else max(own, 4) if own != 2 else 4
            done += wrapped_line(line, hang)
        else:
            done.append(line)
    return done


def wrap(path):
    """Breaks the wide lines of a file, if it has any."""
    if not any(True for _ in wide_lines(path)):
        return
    lines = path.read_text(encoding="utf-8").split("\n")
    lines = wrap_comments(lines, kinds_of(path, lines))
    path.write_text("\n".join(wrap_terms(path, lines)), encoding="utf-8")


def double_names(crates):
    """The names that more than one crate defines, with the places."""
    found = defaultdict(lambda: defaultdict(list))
    for crate in crates:
        for path in sources(crate, "specs", ".antt"):
            for number, line in enumerate(path.read_text(encoding="utf-8").split("\n"), 1):
                named = DEFINING.match(line)
                if named and not line.startswith(("pub mod", "pub use")):
                    found[named.group(1)][crate].append(f"{path.relative_to(TOP)}:{number}")
    return {name: own for name, own in found.items() if len(own) > 1}


def is_participle(name):
    """Whether a name is one word that reads as a participle: `taken`, `Joined`, `waiting`."""
    word = name.lower()
    if "_" in name or re.search("[a-z][A-Z]", name):
        return False
    return word in IRREGULAR or ENDING.fullmatch(word) is not None


def bare_participles(crates):
    """The definitions and functions whose names are bare participles, with their places."""
    kinds = [("specs", ".antt", DEFINING), ("src", ".rt", FUNCTION)]
    for crate in crates:
        for kind, ending, naming in kinds:
            for path in sources(crate, kind, ending):
                for number, line in enumerate(path.read_text(encoding="utf-8").split("\n"), 1):
                    named = naming.match(line)
                    if named and is_participle(named.group(1)) and named.group(1) not in BARE:
                        if not line.startswith(("pub mod", "pub use")):
                            yield f"{path.relative_to(TOP)}:{number}", named.group(1)


def faults_of_participles(crates):
    for at, name in bare_participles(crates):
        yield f"{at}: {name} is a bare participle, which says nothing of what it is"


def faults_of_names(double):
    """The names that stand in two crates and are not allowed to."""
    for name, own in sorted(double.items()):
        if name not in ALLOWED:
            places_of = ", ".join(at for it in own.values() for at in it)
            yield f"{name} is defined in two crates: {places_of}"


def faults_of_widths(crates):
    for at, kind in wide_places(crates):
        yield f"{at}: this {kind} is wider than {COLUMNS} columns"


def wide_places(crates):
    """The wide lines: where each is, and what it is."""
    for crate in crates:
        for path in all_sources(crate):
            for line, kind in wide_lines(path):
                yield f"{path.relative_to(TOP)}:{line}", kind


def main():
    crates = sorted(path.name for path in (TOP / "crates").iterdir() if (path / "src").is_dir())
    asked = sys.argv[1:]
    if asked and asked[0] != "--wrap":
        sys.exit(__doc__)
    if asked[:1] == ["--wrap"]:
        for crate in asked[1:] or crates:
            for path in all_sources(crate):
                wrap(path)
    faults = [*faults_of_widths(crates), *faults_of_names(double_names(crates))]
    faults += faults_of_participles(crates)
    for fault in faults:
        print(fault)
    sys.exit(1 if faults else 0)


if __name__ == "__main__":
    main()
