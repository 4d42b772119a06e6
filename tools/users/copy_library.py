#!/usr/bin/env python3
"""Copies the library into another repository of Rattle.

    python3 tools/users/copy_library.py TO [CRATE]

TO is the top of that repository. It gets the folders of `graph_cuts` and of all crates that it stands on, or of CRATE and those,
and their lines in TO/crates.txt. What an earlier copy left is replaced, and all else is left as it is. Tests and must-fail edits
are not copied; the licences are, into the folder of the crate that is named. A library that is built here (`rt lib` in its
folder) is copied built, so that TO need not prove it again. Where TO has no file HANDLES, it gets that of this repository, since
workers start threads and wait.
"""
import re
import shutil
import sys
from pathlib import Path

HERE = Path(__file__).resolve().parents[2]
PARTS = ["src", "specs", "proofs", "out/rlib"]
LICENCES = ["LICENSE-APACHE", "LICENSE-MIT"]
BEGIN = "# gco's library: copied by its tools/users/copy_library.py"
END = "# end of gco's library"


def lines_of(text):
    """Each crate's line, by its name, in the file's order."""
    found = {}
    for line in text.splitlines():
        if line and not line.startswith("#"):
            head, _, _ = line.partition(":")
            found[head.split()[0]] = line
    return found


def below(lines, crate):
    """The crate and all of this repository that it stands on."""
    reached, left = set(), [crate]
    while left:
        name = left.pop()
        if name in lines and name not in reached:
            reached.add(name)
            left += lines[name].partition(":")[2].split()
    return reached


def copy_crate(name, to):
    """Replaces the folder of a crate. Answers whether it is built."""
    target = to / "crates" / name
    if target.exists():
        shutil.rmtree(target)
    target.mkdir(parents=True)
    for part in PARTS:
        if (HERE / "crates" / name / part).exists():
            shutil.copytree(HERE / "crates" / name / part, target / part)
    return (target / "out/rlib").exists()


def list_crates(lines, names, to):
    """Puts the lines of the crates into the other repository's crates.txt."""
    path = to / "crates.txt"
    old = path.read_text() if path.exists() else ""
    kept = re.sub(f"{re.escape(BEGIN)}\n.*?{re.escape(END)}\n", "", old, flags=re.S)
    taken = sorted(names & set(lines_of(kept)))
    if taken:
        sys.exit(f"{path} has crates of its own by these names: {' '.join(taken)}")
    block = "".join(f"{line}\n" for name, line in lines.items() if name in names)
    path.write_text(f"{BEGIN}\n{block}{END}\n{kept}")


def main(words):
    if len(words) not in (1, 2):
        sys.exit(__doc__)
    to, crate = Path(words[0]), words[1] if len(words) == 2 else "graph_cuts"
    lines = lines_of((HERE / "crates.txt").read_text())
    if crate not in lines:
        sys.exit(f"there is no crate {crate}")
    if not to.is_dir():
        sys.exit(f"there is no folder {to}")
    names = below(lines, crate)
    list_crates(lines, names, to)
    built = sum(copy_crate(name, to) for name in sorted(names))
    for licence in LICENCES:
        shutil.copy(HERE / licence, to / "crates" / crate / licence)
    if not (to / "HANDLES").exists():
        shutil.copy(HERE / "HANDLES", to / "HANDLES")
    print(f"{len(names)} crates in {to / 'crates'}, {built} of them built; name {crate} in your crate's line of crates.txt")


main(sys.argv[1:])
