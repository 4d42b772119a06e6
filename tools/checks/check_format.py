#!/usr/bin/env python3
"""Tests that each crate is laid out as `rt fmt` lays it out. It works on a copy, in a few seconds:

    python3 tools/checks/check_format.py
"""
import shutil
import subprocess
import sys
import tempfile
from pathlib import Path

TOP = Path(__file__).resolve().parents[2]


def crates():
    return sorted(it for it in (TOP / "crates").iterdir() if (it / "src").is_dir())


def copy_to(room):
    for name in ("crates.txt", "HANDLES"):
        shutil.copyfile(TOP / name, room / name)
    (room / ".git").mkdir()
    for crate in crates():
        copied = room / "crates" / crate.name
        shutil.copytree(crate, copied, ignore=shutil.ignore_patterns("out"))


def formatted(crate, room):
    """Lays out the copied crate, and lists the files that came out otherwise."""
    copied = room / "crates" / crate.name
    ran = subprocess.run(["rt", "fmt"], cwd=copied, capture_output=True, text=True)
    if ran.returncode:
        return [f"crates/{crate.name}: {ran.stdout}{ran.stderr}"]
    return [
        f"{it.relative_to(room)}: run rt fmt in the crate's folder"
        for part in ("src", "specs", "proofs")
        for it in sorted((copied / part).rglob("*"))
        if it.is_file() and it.read_bytes() != (crate / it.relative_to(copied)).read_bytes()
    ]


def main():
    with tempfile.TemporaryDirectory(prefix="format-") as folder:
        room = Path(folder)
        copy_to(room)
        wrong = [line for crate in crates() for line in formatted(crate, room)]
    print("\n".join(wrong + [f"{len(wrong)} wrong, {len(crates())} crates looked at"]))
    return 1 if wrong else 0


if __name__ == "__main__":
    sys.exit(main())
