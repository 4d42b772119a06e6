#!/usr/bin/env python3
"""Writes the manual pages gco.1, gco-restore.1 .. from what the program's help and docs/REFUSED.md
say:

    make_manuals.py --gco crates/gco/out/gco --version 1.0.0 --date 2026-11-26 FOLDER

Options and their defaults are help's own; the problem files of gco-label.1 and gco-energy.1 are the
first table of docs/LABEL.md and docs/ENERGY.md.
"""
import argparse
import re
import sys
from pathlib import Path

TOP = Path(__file__).resolve().parents[2]
sys.path.insert(0, str(TOP / "tools/checks"))
from help_pages import read_pages  # noqa: E402
from refused_page import refusals_of  # noqa: E402

DOCS = TOP / "docs"
FORMATS = {"label": "LABEL.md", "energy": "ENERGY.md"}
READS_PICTURES = ("restore", "stereo", "segment")
FROM_FILES = {
    "restore": "jpegtopnm photo.jpg | ppmtopgm | pamdepth 31"
    " | gco restore --smooth linear --trunc 8"
    " | pamdepth 255 | pnmtopng > restored.png",
    "stereo": "(pngtopnm left.png | ppmtopgm; pngtopnm right.png | ppmtopgm)"
    " | gco stereo --labels 64 --smooth linear --trunc 4 --weight 8 --cap 30 > disparities.pgm",
    "segment": "(pngtopnm picture.png | ppmtopgm; pngtopnm mask.png | ppmtopgm | pamdepth 2)"
    " | gco segment --low 60 --high 170 | pamdepth 255 | pnmtopng > parts.png",
}
READERS = (
    "The program reads PGM, the grey format of the Netpbm tools (Debian: netpbm)."
    " Pictures in another format come and go by them:"
)


def escaped(text):
    """Text as roff takes it: its hyphens are those of options, and its quotes are ASCII."""
    text = (
        text.replace("\\", "\\e")
        .replace("-", "\\-")
        .replace("'", "\\(aq")
        .replace("^", "\\(ha")
        .replace("~", "\\(ti")
    )
    return re.sub(r"^([.'])", r"\\&\1", text, flags=re.MULTILINE)


def formatted(text):
    """A sentence with its `words` in bold."""
    parts = re.split(r"`([^`]*)`", text.replace("\\|", "|").replace("**", ""))
    return "".join(
        f"\\fB{escaped(part)}\\fR" if at % 2 else escaped(part) for at, part in enumerate(parts)
    )


def literal(lines):
    """Lines as they stand, indented."""
    return ["", ".RS 4", ".EX"] + [escaped(line) for line in lines] + [".EE", ".RE"]


def tagged(tag, *texts):
    """A paragraph under a tag."""
    first, *rest = texts
    return [".TP", tag, first] + [line for text in rest for line in (".br", text)]


def option_lines(option):
    name = ", ".join(
        f"\\fB{dash}{escaped(word)}\\fR"
        for dash, word in (("\\-", option.short), ("\\-\\-", option.long))
        if word
    )
    value = f" \\fI{option.value}\\fR" if option.value else ""
    default = [f"Default: \\fB{escaped(option.default)}\\fR."] if option.default else []
    return tagged(name + value, formatted(option.text) + ".", *default)


def table_after(page, heading):
    """The rows of the first table behind a heading, without its head."""
    text = (DOCS / page).read_text(encoding="utf-8").split(heading, 1)[1]
    rows = []
    for line in text.split("\n"):
        if line.startswith("|"):
            rows.append([cell.strip() for cell in re.split(r"(?<!\\)\|", line)[1:-1]])
        elif rows:
            break
    return rows[2:]


def format_lines(command):
    """The fields of a problem file."""
    lines = [".SH PROBLEM FILE", "A TOML document in UTF\\-8. Its fields:"]
    for field, kind, missing in table_after(FORMATS[command], "## The problem file"):
        lines += tagged(
            formatted(field), formatted(kind), "If it is left out: " + formatted(missing) + "."
        )
    return lines


def refusal_lines(command):
    lines = [
        ".SH REFUSALS",
        "A refused run writes nothing and prints one of these lines to standard error.",
        "Places count from 0.",
    ]
    for row in refusals_of(command):
        lines += tagged(
            f"\\fB{escaped(row.line)}\\fR", formatted(row.meaning), formatted(row.remedy)
        )
    return lines


def status_lines():
    lines = [".SH EXIT STATUS"]
    for status, text in (
        ("0", "The answer, or help that was asked for, was written."),
        ("1", "The run was refused: standard error has one line \\fBrefused N\\fR."),
        ("2", "The command line was not understood: standard error says why."),
    ):
        lines += tagged(f"\\fB{status}\\fR", text)
    return lines


def usage_lines(usage):
    name, _, rest = usage.partition(" [")
    return [".SH SYNOPSIS", f"\\fB{escaped(name)}\\fR" + (f" [{escaped(rest)}" if rest else "")]


def header(name, about, options):
    return [
        f'.TH {name.upper()} 1 "{options.date}" "gco {options.version}" "gco"',
        ".SH NAME",
        f"{escaped(name)} \\- {formatted(about[0].lower() + about[1:])}",
    ]


def see_also(names):
    """References to other manuals; that of the PGM format is a page of section 5."""
    told = [f".BR {escaped(name)} ({5 if name == 'pgm' else 1})" for name in names]
    return [".SH SEE ALSO"] + [line + "," for line in told[:-1]] + told[-1:]


def command_page(name, page, names, options):
    """The manual of a command."""
    lines = (
        header(f"gco-{name}", page.about, options) + usage_lines(page.usage) + [".SH DESCRIPTION"]
    )
    for at, paragraph in enumerate(page.paragraphs):
        lines += ([".PP"] if at else []) + [formatted(paragraph)]
    lines += [".SH OPTIONS"] + [line for option in page.options for line in option_lines(option)]
    if name in FORMATS:
        lines += format_lines(name)
    lines += (
        status_lines()
        + refusal_lines(name)
        + [".SH EXAMPLES"]
        + literal(line.removeprefix("  ") for line in page.example)
    )
    if name in READS_PICTURES:
        lines += [".PP", READERS] + literal(FROM_FILES[name].replace(" | ", " |\n    ").split("\n"))
    others = ["gco"] + [other for other in names if other != f"gco-{name}"]
    return lines + see_also(others + (["pgm"] if name in READS_PICTURES else []))


def program_page(page, names, options):
    """The manual of the program."""
    lines = (
        header("gco", page.about, options)
        + usage_lines(page.usage)
        + [".SH DESCRIPTION", formatted(page.paragraphs[0])]
    )
    for paragraph in page.paragraphs[1:]:
        lines += [".PP", formatted(paragraph)]
    lines += [".SH COMMANDS"]
    for name, about in page.commands:
        lines += tagged(f"\\fB{name}\\fR", formatted(about) + ".")
    return (
        lines
        + status_lines()
        + [".SH EXAMPLES"]
        + literal(line.removeprefix("  ") for line in page.example)
        + see_also(names)
    )


def main():
    parser = argparse.ArgumentParser(description=__doc__.split("\n")[0])
    parser.add_argument("--gco", required=True)
    parser.add_argument("--version", required=True)
    parser.add_argument("--date", required=True)
    parser.add_argument("folder", type=Path)
    options = parser.parse_args()
    pages = read_pages(options.gco)
    names = sorted(f"gco-{name}" for name in pages if name)
    options.folder.mkdir(parents=True, exist_ok=True)
    for name, page in pages.items():
        lines = (
            command_page(name, page, names, options) if name else program_page(page, names, options)
        )
        file = options.folder / (f"gco-{name}.1" if name else "gco.1")
        file.write_text("\n".join(line for line in lines if line) + "\n", encoding="utf-8")


if __name__ == "__main__":
    main()
