#!/usr/bin/env python3
"""Counts the words of the pages and their long sentences, and holds both to a limit:

    python3 tools/checks/check_pages.py            ends in status 1 if a limit is passed
    python3 tools/checks/check_pages.py --list     words of each page, and each long sentence

A word has a letter in it. Counted is what is written by hand: no block of code, and nothing that a
tool makes (docs/CONTRACTS.md, the last part of docs/DEFINITIONS.md, the tables of `make bench`). A
sentence ends at a full stop, a colon that ends a line, a cell of a table or an item of a list.
"""
import re
import sys
from pathlib import Path

TOP = Path(__file__).resolve().parents[2]
WORD_LIMIT = 30_000
LONG = 30
LONG_LIMIT = 20
MADE_PAGES = {"docs/CONTRACTS.md"}
# What tools make within a page, and blocks of code.
MADE_PARTS = [
    re.compile(r"<!-- From here on .*", re.DOTALL),
    re.compile(r"<!-- bench \w+ -->.*?<!-- end -->", re.DOTALL),
    re.compile(r"^```.*?^```$", re.DOTALL | re.MULTILINE),
    re.compile(r"(?:^\n)(?:^ {4}.*\n)+(?=\n)", re.MULTILINE),
]
FOLDERS = ["", "docs", "bench", "examples", "tools", "web", "bindings/rust"]
ITEM = re.compile(r"\s*(?:[-*]|\d+\.) ")
STOP = re.compile(r"(?<!\b[ie]\.[ge])[.?!][)*\"]*(?=\s|$)|:(?=\s*$)")


def pages():
    found = [page for folder in FOLDERS for page in sorted((TOP / folder).glob("*.md"))]
    return [page for page in found if str(page.relative_to(TOP)) not in MADE_PAGES]


def written(page):
    """What is written by hand of a page."""
    text = page.read_text(encoding="utf-8")
    for part in MADE_PARTS:
        text = part.sub("\n", text)
    return text


def words_of(text):
    return [word for word in text.split() if re.search("[A-Za-z]", word)]


def passages(text):
    """The paragraphs, items, headings and cells, each as one line."""
    passage = []
    for line in [*text.split("\n"), ""]:
        is_row = line.startswith("|")
        if is_row or not line.strip() or line.startswith("#") or ITEM.match(line):
            yield " ".join(passage)
            passage = []
        if is_row:
            yield from re.split(r"(?<!\\)\|", line)
        elif line.startswith("#"):
            yield line
        else:
            passage.append(line.strip())


def sentences(text):
    for passage in passages(text):
        # what stands in `..` is one word, whatever is in it
        whole = re.sub(r"`[^`]*`", lambda code: re.sub(r"\W", "_", code.group()), passage)
        yield from (part.strip() for part in STOP.split(whole) if part.strip())


def main():
    if sys.argv[1:] not in ([], ["--list"]):
        sys.exit(__doc__)
    listed = sys.argv[1:] == ["--list"]
    all_words = all_long = 0
    for page in pages():
        text = written(page)
        long = [it for it in sentences(text) if len(words_of(it)) > LONG]
        all_words += len(words_of(text))
        all_long += len(long)
        if listed:
            print(f"{page.relative_to(TOP)}: {len(words_of(text))} words, {len(long)} long sentences")
            for sentence in long:
                print(f"    {len(words_of(sentence))}: {sentence}")
    print(
        f"{all_words:,} words by hand (at most {WORD_LIMIT:,}), "
        f"{all_long} sentences of over {LONG} words (at most {LONG_LIMIT})"
    )
    sys.exit(1 if all_words > WORD_LIMIT or all_long > LONG_LIMIT else 0)


if __name__ == "__main__":
    main()
