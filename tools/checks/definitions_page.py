#!/usr/bin/env python3
"""Makes the last part of docs/DEFINITIONS.md of the sources: each word that a public contract cites,
with the comment that stands above its definition.

    python3 tools/checks/definitions_page.py           writes the part, from its mark on
    python3 tools/checks/definitions_page.py --test    ends in status 1 if the part is not that of the sources

Words that only definitions and proofs cite are left out: they stand beside the others in specs/.
"""
import re
import sys
import textwrap

from contracts_page import TOP, groups, section_of

PAGE = TOP / "docs/DEFINITIONS.md"
MARK = "<!-- From here on tools/checks/definitions_page.py makes this page. -->\n"
DEFINING = re.compile(
    r"(?:pub (?:record|data)|(?:abbrev|unfoldable|record|data)(?: pub)?|pub) ([A-Za-z_][\w'-]*)"
)
WORD = re.compile(r"[A-Za-z_][\w'-]*")
NO_WORDS = {"Prelude.antt", "Lib.antt"}
CASES = {"zero", "suc", "true", "false", "pos"}


class Definition:
    """A name with its arguments, and the comment above it."""

    def __init__(self, name, lines, first, last):
        self.name = name
        above = first
        while above > 0 and lines[above - 1].startswith("--"):
            above -= 1
        self.comment = " ".join(line[2:].strip() for line in lines[above:first])
        self.head = " ".join([name, *arguments(name, lines[first:last])])


def is_variable(word):
    """Whether an argument of an equation is a name of its own, and no case."""
    return re.fullmatch(r"[a-z][\w'-]*", word) is not None and word not in CASES


def arguments(name, lines):
    """The arguments of a definition: of a record, or of its first equation, `_` for a case."""
    text = " ".join(line.strip() for line in lines)
    if re.match(r"(?:pub )?record", text):
        bound = re.search(rf"{re.escape(name)} (.*?) : Type", text)
        return " ".join(re.findall(r"\(([^:()]*):", bound.group(1))).split() if bound else []
    for at, line in enumerate(lines[1:], 1):
        if line.startswith(name + " "):
            equation = " ".join(line.strip() for line in lines[at:]).split(" =")[0]
            names = re.sub(r"\([^()]*\)|\{[^{}]*\}", "_", equation).split()[1:]
            named = [word if is_variable(word) else "_" for word in names]
            return named if set(named) != {"_"} else []
    return []


def definitions_of(crate):
    """The definitions of a crate by file, in their order."""
    for file in sorted((TOP / "crates" / crate / "specs").glob("*.antt")):
        if file.name in NO_WORDS:
            continue
        lines = file.read_text(encoding="utf-8").split("\n")
        starts = [at for at, line in enumerate(lines) if DEFINING.match(line)]
        for at in starts:
            last = at + 1
            while last < len(lines) and lines[last].strip() and not lines[last].startswith("--"):
                last += 1
            yield file.name, Definition(DEFINING.match(lines[at]).group(1), lines, at, last)


def cited_words(crates):
    """The words in the contracts that the crates show."""
    words = set()
    for crate in crates:
        for block in re.findall(r"```rust\n(.*?)```", section_of(crate), re.DOTALL):
            shown = [line for line in block.split("\n") if not line.lstrip().startswith("///")]
            words.update(WORD.findall("\n".join(shown)))
    return words


def wrapped(text):
    """The text in lines of at most 100 columns, but for a word that is longer."""
    return textwrap.fill(
        text, 100, subsequent_indent="  ", break_long_words=False, break_on_hyphens=False
    )


def crate_part(crate, words):
    """The crate's words, file by file, and those that have no comment; nothing if none is cited."""
    lines, bare, file = [], [], None
    for name, found in definitions_of(crate):
        if found.name not in words:
            continue
        if not found.comment:
            bare.append(f"`{found.head}`")
            continue
        if name != file:
            lines += ["", f"`specs/{name}`", ""]
            file = name
        lines.append(wrapped(f"- **`{found.head}`**: {found.comment}"))
    if bare:
        lines += ["", wrapped("Without a comment: " + ", ".join(bare))]
    return "\n".join([f"### `{crate}`", *lines, ""]) if lines else ""


def made_part():
    shown = [
        (heading, [crate for crate in crates if not crate.endswith("_tests")])
        for heading, crates in groups()
    ]
    words = cited_words([crate for _, crates in shown for crate in crates])
    sections = []
    for heading, crates in shown:
        parts = [part for part in (crate_part(crate, words) for crate in crates) if part]
        if parts:
            sections.append(f"## {heading}\n\n" + "\n".join(parts))
    return MARK + "\n" + "\n".join(sections)


def written_part():
    """What is written by hand: the page up to its mark."""
    return PAGE.read_text(encoding="utf-8").split(MARK)[0]


def page():
    return written_part() + made_part()


def is_current():
    """Whether the page's last part is that of the sources."""
    return PAGE.read_text(encoding="utf-8") == page()


def main():
    if sys.argv[1:] == ["--test"]:
        if not is_current():
            sys.exit(f"docs/{PAGE.name} is not up to date: python3 tools/checks/definitions_page.py")
    elif sys.argv[1:]:
        sys.exit(__doc__)
    else:
        PAGE.write_text(page(), encoding="utf-8")


if __name__ == "__main__":
    main()
