"""The rows of docs/REFUSED.md: each line that a refused run prints, who prints it, what it says and
what to do."""
import dataclasses
import re
from pathlib import Path

PAGE = Path(__file__).resolve().parents[2] / "docs" / "REFUSED.md"
ROW = re.compile(r"^\| `(refused [^`]+)` \| ([^|]+) \| (.+) \| (.+) \|$")
COMMANDS = ("restore", "stereo", "segment", "energy", "label")


@dataclasses.dataclass
class Refusal:
    line: str
    commands: tuple
    meaning: str
    remedy: str

    @property
    def number(self):
        return int(self.line.split()[1])


def refusal_of(match):
    line, commands, meaning, remedy = match.groups()
    names = COMMANDS if commands == "all" else tuple(commands.split(", "))
    unknown = set(names) - set(COMMANDS)
    if unknown:
        raise SystemExit(
            f"docs/REFUSED.md: `{line}` is said by unknown commands: {', '.join(sorted(unknown))}"
        )
    return Refusal(line, names, meaning, remedy)


def refusals():
    """All rows, in the order of the page."""
    matches = (ROW.match(line) for line in PAGE.read_text(encoding="utf-8").split("\n"))
    return [refusal_of(match) for match in matches if match]


def refusals_of(command):
    """The rows of a command, by their number."""
    return sorted(
        (row for row in refusals() if command in row.commands), key=lambda row: row.number
    )
