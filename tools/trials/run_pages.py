#!/usr/bin/env python3
"""Runs the commands of pages as they are written, and compares what they print with what the page
says:

    python3 tools/trials/run_pages.py --release dist/gco-1.0.0-linux-x86_64 README.md docs/IMAGES.md

A block that is fenced as

    sh run          is run by bash, each page in a folder of its own, one block after another
    python run      is run by Python
    sh by hand      is not run: it asks for what a test should not do
    text printed    is what the block before it prints, to both outputs together
    sh              is not run either if it calls rt: that is the gate's

The folder has examples/ and tools/ of this repository. The path has the release's program, and a
Python into which the release's wheel was installed. A block of commands that says neither, and a
command that stands in no block, are faults, so that no new command goes untried.
"""
import argparse
import dataclasses
import os
import re
import shutil
import subprocess
import sys
import tempfile
import time
from pathlib import Path

TOP = Path(__file__).resolve().parents[2]
RUNNERS = {"sh run": ["bash", "-euo", "pipefail"], "python run": ["python3"]}
BY_HAND = ("sh by hand", "python by hand")
UNTOLD = ("sh", "bash", "python", "console")
LOOSE = re.compile(r"^ {4,}(?:\$ )?(?:gco|python3?|crates/gco/out/gco|cat|make|rt) ")
TOOLCHAIN = re.compile(r"^(?:\(cd crates/\w+ && )?rt ", re.M)
LIMIT_SECONDS = 600


@dataclasses.dataclass
class Block:
    page: str
    line: int
    kind: str
    text: str


def read_blocks(page, text):
    """The fenced blocks of a page, and the commands that stand in none."""
    blocks, loose, inside = [], [], None
    for number, line in enumerate(text.split("\n"), 1):
        if line.startswith("```"):
            if inside is None:
                inside = Block(page, number, line[3:].strip(), "")
            else:
                blocks.append(inside)
                inside = None
        elif inside is not None:
            inside.text += line + "\n"
        elif LOOSE.match(line):
            loose.append(f"{page}:{number}: a command stands in no block: {line.strip()}")
    return blocks, loose


def make_python(release, folder):
    """A Python that has the release's wheel, and numpy and Pillow of this one."""
    wheel = next((release / "python").glob("*.whl"))
    subprocess.run([sys.executable, "-m", "venv", "--system-site-packages", folder], check=True)
    subprocess.run(
        [folder / "bin/python", "-m", "pip", "install", "-q", "--no-index", "--no-deps", wheel],
        check=True,
    )


def environment(release, python):
    """What a command is run with: the program of the release and that Python first on the path."""
    env = dict(os.environ)
    env["PATH"] = f"{release / 'bin'}:{python / 'bin'}:{env['PATH']}"
    env["PYTHONDONTWRITEBYTECODE"] = "1"
    return env


def run_block(block, folder, env):
    """What the block prints, and its status."""
    file = folder / ".block"
    file.write_text(block.text, encoding="utf-8")
    try:
        done = subprocess.run(
            [*RUNNERS[block.kind], str(file)],
            cwd=folder,
            env=env,
            stdin=subprocess.DEVNULL,
            text=True,
            stdout=subprocess.PIPE,
            stderr=subprocess.STDOUT,
            timeout=LIMIT_SECONDS,
        )
    except subprocess.TimeoutExpired:
        return f"no end after {LIMIT_SECONDS} s\n", "none"
    return done.stdout, done.returncode


def try_page(page, env):
    """The faults of a page, and how many blocks were run and compared."""
    blocks, faults = read_blocks(page, (TOP / page).read_text(encoding="utf-8"))
    ran = compared = 0
    printed = None
    with tempfile.TemporaryDirectory() as name:
        folder = Path(name)
        shutil.copytree(TOP / "examples", folder / "examples")
        shutil.copytree(TOP / "tools", folder / "tools")
        for block in blocks:
            where = f"{page}:{block.line}"
            if block.kind in RUNNERS:
                begun = time.monotonic()
                printed, status = run_block(block, folder, env)
                ran += 1
                print(f"{where}: {time.monotonic() - begun:.1f} s", flush=True)
                if status:
                    faults.append(f"{where}: status {status}\n{printed}")
            elif block.kind == "text printed":
                compared += 1
                if printed is None:
                    faults.append(f"{where}: no block that is run stands before it")
                elif printed != block.text:
                    faults.append(
                        f"{where}: the page says\n{block.text}and this was printed\n{printed}"
                    )
            elif block.kind == "sh" and TOOLCHAIN.search(block.text):
                printed = None
            elif block.kind in UNTOLD:
                faults.append(
                    f"{where}: a block says neither `run` nor `by hand` behind {block.kind}"
                )
            elif block.kind not in BY_HAND:
                printed = None
    return faults, ran, compared


def main():
    parser = argparse.ArgumentParser(description=__doc__.split("\n")[0])
    parser.add_argument("--release", type=Path, required=True)
    parser.add_argument("pages", nargs="+")
    options = parser.parse_args()
    release = options.release.resolve()
    faults, ran, compared = [], 0, 0
    with tempfile.TemporaryDirectory() as name:
        make_python(release, Path(name))
        env = environment(release, Path(name))
        for page in options.pages:
            found, runs, comparisons = try_page(page, env)
            faults, ran, compared = faults + found, ran + runs, compared + comparisons
    for fault in faults:
        print(fault)
    print(f"{ran} blocks run, {compared} outputs compared, {len(faults)} wrong")
    sys.exit(1 if faults or not ran else 0)


if __name__ == "__main__":
    main()
