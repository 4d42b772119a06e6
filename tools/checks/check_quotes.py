#!/usr/bin/env python3
"""Tests what README.md, docs/PROVED.md and docs/CALLING.md quote of the sources, outside the gate:

    python3 tools/checks/check_quotes.py           lists what is wrong, and ends in status 1 if anything is
    python3 tools/checks/check_quotes.py --renew   first writes the right lines and quotes, where a name leads to them

docs/CONTRACTS.md and the last part of docs/DEFINITIONS.md are made of the sources: they have to be up to date. So
have the sizes of the proof in docs/PROVED.md.

A place is told as `name` (`crates/NAME/specs/File.antt:12`): line 12 of that file must define the name. A quote is a
block of code after a paragraph with a place: its lines must stand in that file, from that line on. A block after a
paragraph that ends with a path, as (`crates/NAME/stdout`), must be that file. Each block of docs/PROVED.md is a quote.
"""

import re
import sys
from pathlib import Path

import contracts_page
import definitions_page
import proof_size

TOP = Path(__file__).resolve().parents[2]
PAGES = ["README.md", "docs/PROVED.md", "docs/CALLING.md"]
ALL_QUOTED = ["docs/PROVED.md"]
MADE = [contracts_page, definitions_page]
PLACE = re.compile(r"`(\w+)`\*{0,2} \(`([\w./]+\.(?:rt|antt)):(\d+)`\)")
ANY_PLACE = re.compile(r"`[\w./]+\.(?:rt|antt):\d+`")
WHOLE_FILE = re.compile(r"\(`(crates/[\w./]+)`\)[:.]?$")
DEFINING = r"\b(?:fn|record|abbrev|unfoldable|struct|enum|trait|const)\b(?: pub)? "


def lines_of(path):
    return (TOP / path).read_text(encoding="utf-8").rstrip("\n").split("\n")


def defines(path, number, name):
    lines = lines_of(path)
    if number > len(lines):
        return False
    return re.search(DEFINING + re.escape(name) + r"(?![\w-])", lines[number - 1]) is not None


def definition_at(path, number):
    """A definition from its first line on: up to a blank line, and of a function up to its body."""
    lines = lines_of(path)
    end = number - 1
    while end < len(lines) and lines[end].strip() not in ("", "{"):
        end += 1
    return lines[number - 1 : end]


def blocks_of(lines):
    """Of each block of code the first line and the line behind it, from 0, without the fences."""
    fences = [index for index, line in enumerate(lines) if line.startswith("```")]
    return [(first + 1, last) for first, last in zip(fences[::2], fences[1::2])]


def paragraph_above(lines, first):
    """The paragraph that ends above a block."""
    end = first - 1
    while end > 0 and not lines[end - 1].strip():
        end -= 1
    begin = end
    while begin > 0 and lines[begin - 1].strip():
        begin -= 1
    return "\n".join(lines[begin:end])


def source_of(lines, first):
    """Where a block is quoted from: a path and a line, a path alone where the whole file is quoted, or None."""
    paragraph = paragraph_above(lines, first)
    whole = WHOLE_FILE.search(paragraph)
    if whole:
        return whole.group(1), None
    places = PLACE.findall(paragraph)
    return (places[-1][1], int(places[-1][2])) if places else None


def renewed_place(match):
    name, path, number = match.groups()
    found = [at for at in range(1, len(lines_of(path)) + 1) if defines(path, at, name)]
    if int(number) in found or len(found) != 1:
        return match.group(0)
    return match.group(0).replace(f":{number}`", f":{found[0]}`")


def renewed(page):
    """The page with the right line at each place, and the right text in each quote."""
    lines = PLACE.sub(renewed_place, (TOP / page).read_text(encoding="utf-8")).split("\n")
    for first, last in reversed(blocks_of(lines)):
        source = source_of(lines, first)
        if source:
            path, number = source
            lines[first:last] = definition_at(path, number) if number else lines_of(path)
    return "\n".join(lines)


def wrong_quote(lines, first, last, must):
    """What is wrong with a block, or None."""
    source = source_of(lines, first)
    if source is None:
        return "the quote has no place before it" if must else None
    path, number = source
    quote = lines[first:last]
    told = lines_of(path)
    if number:
        told = told[number - 1 : number - 1 + len(quote)]
    return None if quote and quote == told else f"the quote does not stand in {path}"


def faults_of(page):
    text = (TOP / page).read_text(encoding="utf-8")
    lines = text.split("\n")
    for told in ANY_PLACE.findall(PLACE.sub("", text)):
        yield f"{page}: {told} has no name before it"
    for name, path, number in PLACE.findall(text):
        if not (TOP / path).is_file():
            yield f"{page}: there is no {path}"
        elif not defines(path, int(number), name):
            yield f"{page}: {path}:{number} does not define {name}"
    for first, last in blocks_of(lines):
        wrong = wrong_quote(lines, first, last, page in ALL_QUOTED)
        if wrong:
            yield f"{page}:{first}: {wrong}"


def main():
    if sys.argv[1:] == ["--renew"]:
        for page in PAGES:
            (TOP / page).write_text(renewed(page), encoding="utf-8")
        for made in MADE:
            made.PAGE.write_text(made.page(), encoding="utf-8")
        proof_size.renew()
    elif sys.argv[1:]:
        sys.exit(__doc__)
    faults = [fault for page in PAGES for fault in faults_of(page)]
    faults += [f"docs/{made.PAGE.name} is not up to date" for made in MADE if not made.is_current()]
    faults += proof_size.faults()
    for fault in faults:
        print(fault)
    places = 0
    quotes = 0
    for page in PAGES:
        text = (TOP / page).read_text(encoding="utf-8")
        lines = text.split("\n")
        places += len(PLACE.findall(text))
        quotes += sum(1 for first, _ in blocks_of(lines) if source_of(lines, first))
    print(f"{places} places, {quotes} quotes, {len(faults)} wrong")
    sys.exit(1 if faults else 0)


if __name__ == "__main__":
    main()
