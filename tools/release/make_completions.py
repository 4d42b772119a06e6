#!/usr/bin/env python3
"""Writes completions for bash, zsh and fish from what the program's help says:

    make_completions.py --gco crates/gco/out/gco FOLDER

makes FOLDER/gco.bash, FOLDER/_gco and FOLDER/gco.fish. Since no option is listed here, none can be
missed or left over.
"""
import argparse
from pathlib import Path

from help_pages import read_pages

HEADER = "# Completions of gco. Made from `gco --help` and `gco COMMAND --help`.\n"


def words_of(option):
    """The spellings of an option."""
    return ([f"-{option.short}"] if option.short else []) + [f"--{option.long}"]


def commands_of(pages):
    """The commands that have options, in the order of help."""
    return [(name, about) for name, about in pages[""].commands if name in pages]


def values_of(pages):
    """The values of each option that has a list of them; an option has one list in every
    command."""
    lists = {}
    for page in pages.values():
        for option in page.options:
            if option.names and lists.setdefault(option.long, option.names) != option.names:
                raise SystemExit(f"make_completions: --{option.long} has two lists of values")
    return lists


def numbers_of(pages):
    """The options whose value is free."""
    return sorted(
        {
            option.long
            for page in pages.values()
            for option in page.options
            if option.value and not option.names
        }
    )


def bash(pages):
    names = " ".join(name for name, _ in pages[""].commands)
    first = " ".join(word for option in pages[""].options for word in words_of(option))
    lines = [
        HEADER + "_gco() {",
        '    local word=${COMP_WORDS[COMP_CWORD]} before=${COMP_WORDS[COMP_CWORD-1]} words=""',
        "    COMPREPLY=()",
        '    case "$before" in',
    ]
    for option, values in values_of(pages).items():
        lines.append(f'        --{option}) words="{" ".join(values)}" ;;')
    lines.append(
        "        " + "|".join(f"--{option}" for option in numbers_of(pages)) + ") return ;;"
    )
    lines += [
        "        *)",
        "            if [ \"$COMP_CWORD\" -eq 1 ]; then",
        f'                words="{names} {first}"',
        "            else",
        '                case "${COMP_WORDS[1]}" in',
    ]
    for name, _ in commands_of(pages):
        options = " ".join(word for option in pages[name].options for word in words_of(option))
        lines.append(f'                    {name}) words="{options}" ;;')
    chapters = " ".join(name for name, _ in commands_of(pages))
    lines += [
        f'                    help) words="{chapters}" ;;',
        "                esac",
        "            fi ;;",
        "    esac",
        '    COMPREPLY=($(compgen -W "$words" -- "$word"))',
        "}",
        "complete -o default -F _gco gco",
        "",
    ]
    return "\n".join(lines)


def zsh_text(text):
    """Words within a description of zsh."""
    return text.replace("'", "'\\''").replace("[", "\\[").replace("]", "\\]").replace(":", "\\:")


def zsh_option(option):
    """An option as `_arguments` takes it."""
    spelling = (
        f"(-{option.short} --{option.long})'{{-{option.short},--{option.long}}}'"
        if option.short
        else f"--{option.long}"
    )
    values = (
        f":{option.value}:({' '.join(option.names)})"
        if option.names
        else f":{option.value}: "
        if option.value
        else ""
    )
    return f"        '{spelling}[{zsh_text(option.text)}]{values}'"


def zsh(pages):
    lines = ["#compdef gco", HEADER + "_gco() {", "    local -a commands", "    commands=("]
    lines += [f"        '{name}:{zsh_text(about)}'" for name, about in pages[""].commands]
    lines += [
        "    )",
        "    if (( CURRENT == 2 )); then",
        "        _describe -t commands command commands",
        "        return",
        "    fi",
        "    local name=${words[2]}",
        "    shift words",
        "    (( CURRENT-- ))",
        '    case "$name" in',
    ]
    for name, _ in commands_of(pages):
        lines += [f"        {name}) _arguments \\"] + [
            line + " \\" for line in map(zsh_option, pages[name].options[:-1])
        ]
        lines += [zsh_option(pages[name].options[-1]) + " ;;"]
    lines += [
        "        help) _describe -t commands command commands ;;",
        "    esac",
        "}",
        '_gco "$@"',
        "",
    ]
    return "\n".join(lines)


def fish_text(text):
    return "'" + text.replace("\\", "\\\\").replace("'", "\\'") + "'"


def fish_option(name, option):
    """A line for an option of a command, or of the program where the name is empty."""
    where = f"'__fish_seen_subcommand_from {name}'" if name else "__fish_use_subcommand"
    short = f" -s {option.short}" if option.short else ""
    value = (
        f" -x -a {fish_text(' '.join(option.names))}"
        if option.names
        else " -x"
        if option.value
        else ""
    )
    return f"complete -c gco -n {where}{short} -l {option.long}{value} -d {fish_text(option.text)}"


def fish(pages):
    lines = [HEADER + "complete -c gco -f"]
    lines += [
        f"complete -c gco -n __fish_use_subcommand -a {name} -d {fish_text(about)}"
        for name, about in pages[""].commands
    ]
    lines += [fish_option(name, option) for name, page in pages.items() for option in page.options]
    chapters = " ".join(name for name, _ in commands_of(pages))
    lines += [f"complete -c gco -n '__fish_seen_subcommand_from help' -a {fish_text(chapters)}", ""]
    return "\n".join(lines)


def main():
    parser = argparse.ArgumentParser(description=__doc__.split("\n")[0])
    parser.add_argument("--gco", required=True)
    parser.add_argument("folder", type=Path)
    options = parser.parse_args()
    pages = read_pages(options.gco)
    options.folder.mkdir(parents=True, exist_ok=True)
    for file, maker in (("gco.bash", bash), ("_gco", zsh), ("gco.fish", fish)):
        (options.folder / file).write_text(maker(pages), encoding="utf-8")


if __name__ == "__main__":
    main()
