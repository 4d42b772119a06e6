#!/usr/bin/env python3
"""Builds a crate for another target, as `rt` does for this machine:

    python3 tools/release/build_for.py crates/gco_c aarch64-unknown-linux-gnu libgco_c.a
    python3 tools/release/build_for.py crates/gco aarch64-unknown-linux-gnu gco.o

The libraries below the crate are those that `rt lib` or `rt check` left beside it. The crate itself is checked for the
target, which begins with what a check kept, and is built only if it is proved. Of a static library an archive is made,
of a program an object file, which is still to be linked.
"""
import argparse
import os
import shutil
import subprocess
import sys
from pathlib import Path

TOP = Path(__file__).resolve().parents[2]


def kit_folder():
    """The folder of the toolchain, by its command on the path."""
    rt = shutil.which("rt")
    if not rt:
        sys.exit("rt is missing: put the toolchain's bin on the PATH")
    return Path(rt).resolve().parent.parent


def run(*words, **more):
    done = subprocess.run([str(word) for word in words], **more)
    if done.returncode:
        sys.exit(f"{Path(str(words[0])).name} ended with status {done.returncode}")


def crates():
    """Of each crate of the repository what it stands on."""
    lines = (line.split("#")[0].strip() for line in (TOP / "crates.txt").read_text().splitlines())
    return {line.split(":")[0].split()[0]: line.split(":")[1].split() for line in lines if ":" in line}


def crates_below(name, known):
    """The crates of the repository that a crate stands on, near or far."""
    found, due = [], list(known[name])
    while due:
        crate = due.pop()
        if crate in known and crate not in found:
            found.append(crate)
            due += known[crate]
    return found


def library_words(kit, folder):
    """The words that name the libraries of a crate: those of the kit, and those that lie beside the crate."""
    known, name = crates(), folder.name

    def place(library):
        beside = folder.parent / library / "out/rlib" / f"{library}.rlib"
        return beside if library in known else kit / "rlibs" / f"{library}.rlib"

    for library in ("core", "std", *known[name]):
        yield from ("--extern", f"{library}={place(library)}")
    for at in [kit / "rlibs", *(place(library).parent for library in crates_below(name, known))]:
        yield from ("-L", f"dependency={at}")


def build(folder, target, out, toolchain=None):
    """Builds the crate of a folder."""
    kit, is_program = kit_folder(), (folder / "src/main.rt").exists()
    kind = [] if is_program else ["--crate-type", "staticlib"]
    run(kit / "bin/rattle", "build", "--crate-name", folder.name, "src/main.rt" if is_program else "src/lib.rt",
        *library_words(kit, folder), "--antt-project", kit / "rattle/logic/antt-project.json",
        "--logic-built", kit / "logic_built", "--incremental", "out/incremental", "--links", f"{folder.name}=",
        "--target", target, *kind, "--toolchain", toolchain or kit / "toolchain", "-o", os.path.abspath(out), cwd=folder)


def main():
    parser = argparse.ArgumentParser(description=__doc__.split("\n")[0])
    parser.add_argument("crate", type=Path)
    parser.add_argument("target")
    parser.add_argument("out", type=Path)
    options = parser.parse_args()
    build(options.crate.resolve(), options.target, options.out)


if __name__ == "__main__":
    main()
