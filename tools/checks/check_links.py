#!/usr/bin/env python3
"""Tests that each file that a page names is there, that each picture of docs/ is shown by a page,
that tools/README.md has each script, and docs/ARCHITECTURE.md each crate:

    python3 tools/checks/check_links.py
"""
import re
import sys
from pathlib import Path

TOP = Path(__file__).resolve().parents[2]
NAMED = re.compile(
    r"`((?:bench|bindings|crates|docs|examples|release|tools|web)/[\w./-]+\.\w+"
    r"|CONTRIBUTING\.md|CHANGELOG\.md|SECURITY\.md|CITATION\.cff|LICENSE-\w+|VERSION)(?::\d+)?`"
)
BARE = re.compile(r"(?<![\w`/])(docs/[A-Z]+\.md|tools/[\w/]+\.py)\b")
SHOWN = re.compile(r"!?\[[^\]]*\]\(([^)#:]+)\)")
# What the built or unpacked tree has, and this one has not.
MADE = re.compile(r"(?:^|/)(?:dist|out)/")


def pages():
    return [
        TOP / "README.md",
        TOP / "CONTRIBUTING.md",
        *sorted((TOP / "docs").glob("*.md")),
        TOP / "examples/README.md",
        TOP / "bench/README.md",
        TOP / "tools/README.md",
        TOP / "CHANGELOG.md",
        TOP / "SECURITY.md",
    ]


def faults():
    shown = set()
    for page in pages():
        text = page.read_text(encoding="utf-8")
        for name in sorted(set(NAMED.findall(text)) | set(BARE.findall(text))):
            if not MADE.search(name) and "NAME" not in name and not (TOP / name).exists():
                yield f"{page.relative_to(TOP)}: there is no {name}"
        for target in SHOWN.findall(re.sub(r"`[^`\n]*`", "", text)):
            file = (page.parent / target).resolve()
            shown.add(file)
            if not file.exists():
                yield f"{page.relative_to(TOP)}: there is no {target}"
    told = (TOP / "tools/README.md").read_text(encoding="utf-8")
    scripts = {script.name for script in (TOP / "tools").rglob("*.py")}
    for name in sorted(scripts ^ set(re.findall(r"`(\w+\.py)`", told))):
        yield f"tools/README.md and tools/ do not both have {name}"
    told = (TOP / "docs/ARCHITECTURE.md").read_text(encoding="utf-8")
    for crate in re.findall(r"^(\w+)[\w ]*:", (TOP / "crates.txt").read_text(), re.MULTILINE):
        if f"`{crate}`" not in told:
            yield f"docs/ARCHITECTURE.md does not say what {crate} does"
    for picture in sorted((TOP / "docs").glob("*.png")):
        if picture not in shown:
            yield f"docs/{picture.name} is shown by no page"


def main():
    wrong = list(faults())
    for fault in wrong:
        print(fault)
    print(f"{len(pages())} pages, {len(wrong)} wrong")
    sys.exit(1 if wrong else 0)


if __name__ == "__main__":
    main()
