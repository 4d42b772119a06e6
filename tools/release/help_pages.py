"""What `gco --help` and `gco COMMAND --help` print, taken apart: for the makers of manuals and
completions."""
import dataclasses
import re
import subprocess

OPTION = re.compile(r"^ +(?:-(\w), )?--([\w-]+)(?: <(\w+)>)? +(.*)$")
DEFAULT = re.compile(r" \[default: ([^\]]+)\]$")
NAMED = re.compile(r"\b(\w+) \(")


@dataclasses.dataclass
class Option:
    """An option: its value is "" where it takes none, and `names` are all its values where
    help lists them."""

    short: str
    long: str
    value: str
    text: str
    default: str
    names: list


@dataclasses.dataclass
class Page:
    """The help of the program or of a command; `commands` are pairs of a name and what it is."""

    about: str
    usage: str
    commands: list
    options: list
    paragraphs: list
    status: str
    example: list


def option_of(line):
    """The option of a line of help, or None."""
    match = OPTION.match(line)
    if match is None:
        return None
    short, long, value, text = match.groups()
    default = DEFAULT.search(text)
    text = DEFAULT.sub("", text)
    names = NAMED.findall(text.split(": ", 1)[-1]) if value and (": " in text) else []
    return Option(short or "", long, value or "", text, default.group(1) if default else "", names)


def chunks_of(text):
    """The paragraphs of a text, each a list of lines."""
    return [chunk.split("\n") for chunk in text.strip("\n").split("\n\n")]


def page_of(text):
    """The page that this help is."""
    chunks = chunks_of(text)
    page = Page(chunks[0][0], "", [], [], [], "", [])
    for chunk in chunks[1:]:
        head = chunk[0]
        if head.startswith("Usage: "):
            page.usage = head[len("Usage: ") :]
        elif head == "Commands:":
            page.commands = [tuple(line.split(None, 1)) for line in chunk[1:]]
        elif head == "Options:":
            page.options = [option_of(line) for line in chunk[1:]]
        elif head.startswith("Exit status:"):
            page.status = "\n".join(chunk)
        elif head == "Example:":
            page.example = chunk[1:]
        else:
            page.paragraphs.append(" ".join(line.strip() for line in chunk))
    if None in page.options or not page.usage:
        raise SystemExit("help_pages: help has a form that is not known here")
    return page


def help_text(gco, words):
    """What `gco WORDS --help` prints."""
    return subprocess.run(
        [gco, *words, "--help"], capture_output=True, text=True, check=True
    ).stdout


def read_pages(gco):
    """The page of the program under "", and the page of each command under its name."""
    pages = {"": page_of(help_text(gco, []))}
    for name, _ in pages[""].commands:
        if name != "help":
            pages[name] = page_of(help_text(gco, [name]))
    return pages
