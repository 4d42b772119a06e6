#!/usr/bin/env python3
"""Makes docs/CONTRACTS.md of the sources: each public call of each crate, with its contract and the
comment above it, as they stand in src/.

    python3 tools/checks/contracts_page.py             writes the page
    python3 tools/checks/contracts_page.py --test      ends in status 1 if the page is not that of the sources

The crates come in the order and under the headings of crates.txt. Crates of tests and programs
have no public calls. A body is left out, and so are the private parts of a type.
"""
import re
import sys
from pathlib import Path

TOP = Path(__file__).resolve().parents[2]
PAGE = TOP / "docs/CONTRACTS.md"
HEAD = """# Contracts

Each public call of each crate, as it stands in the sources. `tools/checks/contracts_page.py` makes this page,
and `tools/checks/check_quotes.py` tests that it is up to date. For a caller, `docs/CALLING.md` comes first.

- A call asks for its `requires`, and then its `ensures` hold. The name of a clause stands before its
  braces.
- `x.old` is what `x` was at the call, and `x.new` what it is at the return. `x.now` is said of what a
  call cannot change.
- The words are defined in `specs/` of the crate that the `ghost use` lines of the file name.
  `docs/DEFINITIONS.md` has them in words.
- A function that ends in `{}` has no code. It is a law: its contract is proved, and a proof may cite it.
"""
ITEM = re.compile(r"pub (?:const fn|fn|struct|enum|trait|const|type|static)\b")
FUNCTION = re.compile(r"(?:pub )?(?:const )?fn ")
IMPL = re.compile(r"impl(?:<.*?>)? (?!.* for )")
MODEL = re.compile(r"impl(?:<.*?>)? Model for (\w+)")
CLOSERS = {"}", "};", "];", ")", ");", "}];", "{}"}
TEXT = re.compile(r"(pub const \w+: &(?:'static )?str =)")
CLAUSE = re.compile(r"\s*(?:requires|ensures|decreases|where)\b")


def groups():
    """The headings of crates.txt and the crates under each."""
    found = []
    for line in (TOP / "crates.txt").read_text(encoding="utf-8").split("\n"):
        if line.startswith("# ") and not line.startswith("# The crates, lowest first"):
            found.append((line[2:], []))
        elif re.match(r"\w+(?: staticlib)?:", line):
            if not found:
                found.append(("Sums", []))
            found[-1][1].append(re.match(r"\w+", line).group())
    return found


def indent_of(line):
    return len(line) - len(line.lstrip())


def block_end(lines, start):
    """The line behind an item that ends with its closing brace, or with a semicolon."""
    indent = indent_of(lines[start])
    if TEXT.match(lines[start]):
        return next(at for at in range(start, len(lines)) if lines[at].endswith('";')) + 1
    for index in range(start, len(lines)):
        line = lines[index].rstrip()
        if index == start and (line.endswith(";") or line.endswith("}")):
            return index + 1
        if indent_of(line) == indent and line.lstrip() in CLOSERS:
            return index + 1
        if index > start and indent_of(line) == indent and line.endswith(";"):
            return index + 1
    return len(lines)


def function_head(lines, start):
    """Signature and clauses of a function, and the line behind its body."""
    indent = indent_of(lines[start])
    head = []
    for index in range(start, len(lines)):
        line = lines[index].rstrip()
        if line == " " * indent + "{":
            end = block_end(lines, index)
            if end == index + 2:  # no code: a law
                head[-1] += " {}"
            return head, end
        if line.endswith("{") and not CLAUSE.match(line):
            return head + [line[:-1].rstrip()], block_end(lines, start)
        head.append(line)
        if line.endswith(";") and not line.startswith(" " * (indent + 1) + " "):
            return head, index + 1
        if line.endswith(";") or line.endswith("{}"):
            return head, index + 1
    return head, len(lines)


def with_comment(lines, start):
    """The comment that stands above a line."""
    first = start
    while first > 0 and re.match(r"\s*(?:///|#\[)", lines[first - 1]):
        first -= 1
    return [line for line in lines[first:start] if line.lstrip().startswith("///")]


def public_fields(lines):
    """A struct without its private fields, a text without its words, or another item as it is."""
    if TEXT.match(lines[0]):
        return [TEXT.match(lines[0]).group() + ' "..";']
    if not lines[0].startswith("pub struct") or len(lines) == 1:
        return lines
    kept, comment = [lines[0]], []
    for line in lines[1:-1]:
        if line.lstrip().startswith("///"):
            comment.append(line)
        elif line.lstrip().startswith("pub ") and not line.lstrip().startswith("pub(crate)"):
            kept += comment + [line]
            comment = []
        elif line.lstrip().startswith("ghost "):
            kept += comment + [line]
            comment = []
        else:
            comment = []
    if len(kept) == 1:
        return [lines[0].replace(" {", " { .. }")]
    return kept + [lines[-1]]


def members(lines, start, end, wanted):
    """The functions between two lines of a block that are wanted, each with its comment."""
    shown, index = [], start
    while index < end:
        if indent_of(lines[index]) == 4 and FUNCTION.match(lines[index].lstrip()):
            head, behind = function_head(lines, index)
            if wanted(lines[index].lstrip()):
                shown += ([""] if shown else []) + with_comment(lines, index) + head
            index = behind
        else:
            index += 1
    return shown


def trait_of(lines, start, end):
    """A trait: its types and ghost members, and the contracts of its functions."""
    plain = [
        line
        for line in lines[start + 1 : end - 1]
        if re.match(r"    (?:type|ghost|const) ", line) and " use " not in line
    ]
    functions = members(lines, start + 1, end - 1, lambda _: True)
    between = [""] if plain and functions else []
    return [lines[start], *plain, *between, *functions, "}"]


def model_of(lines, start, end):
    """What contracts see of a type: its ghost value, view and invariant."""
    return [line for line in lines[start:end] if "ghost use" not in line and line.strip()]


def items_of(lines):
    """What a file shows to other crates, item by item."""
    index = 0
    while index < len(lines):
        line = lines[index]
        if ITEM.match(line) and FUNCTION.match(line):
            head, behind = function_head(lines, index)
            yield with_comment(lines, index) + head
            index = behind
            continue
        end = index + 1
        if ITEM.match(line):
            end = block_end(lines, index)
            shown = trait_of(lines, index, end) if line.startswith("pub trait") else None
            yield with_comment(lines, index) + (shown or public_fields(lines[index:end]))
        elif MODEL.match(line):
            end = block_end(lines, index)
            if f"pub struct {MODEL.match(line).group(1)}" in "\n".join(lines):
                yield model_of(lines, index, end)
        elif IMPL.match(line):
            end = block_end(lines, index)
            shown = members(lines, index + 1, end - 1, lambda text: text.startswith("pub "))
            if shown:
                yield [line, *shown, "}"]
        index = end


def said_of(lines):
    """The comment at the top of a file, as one paragraph a blank line."""
    return "\n".join(line[3:].strip() for line in lines if line.startswith("//!"))


def section_of(crate):
    """The crate's part of the page; nothing if it shows nothing."""
    source = TOP / "crates" / crate / "src"
    files = sorted(source.rglob("*.rt"), key=lambda file: (file.name != "lib.rt", file))
    said, parts = "", []
    for file in files:
        lines = file.read_text(encoding="utf-8").split("\n")
        if file == source / "lib.rt":
            said = said_of(lines)
        items = ["\n".join(item) for item in items_of(lines)]
        if items:
            name = file.relative_to(source.parent)
            words = "" if file == source / "lib.rt" else f": {said_of(lines)}"
            parts.append(f"`{name}`{words}\n\n```rust\n" + "\n\n".join(items) + "\n```\n")
    if not parts:
        return ""
    return f"### `{crate}`\n\n{said}\n\n" + "\n".join(parts)


def contents_line(heading, crates):
    """A group and links to its crates."""
    return f"- {heading}: " + ", ".join(f"[`{crate}`](#{crate})" for crate in crates)


def page():
    contents, sections = [], []
    for heading, crates in groups():
        shown = [crate for crate in crates if not crate.endswith("_tests")]
        found = {crate: section_of(crate) for crate in shown}
        kept = [crate for crate in shown if found[crate]]
        if kept:
            contents.append(contents_line(heading, kept))
            sections.append(f"## {heading}\n\n" + "\n".join(found[crate] for crate in kept))
    return "\n".join([HEAD, *contents, "", *sections])


def is_current():
    """Whether the page is that of the sources."""
    return PAGE.exists() and PAGE.read_text(encoding="utf-8") == page()


def main():
    if sys.argv[1:] == ["--test"]:
        if not is_current():
            sys.exit(f"docs/{PAGE.name} is not up to date: python3 tools/checks/contracts_page.py")
    elif sys.argv[1:]:
        sys.exit(__doc__)
    else:
        PAGE.write_text(page(), encoding="utf-8")


if __name__ == "__main__":
    main()
