#!/usr/bin/env python3
"""Tries the package as programs for node and in TypeScript import it:

    python3 test_package.py --package gco.tgz --library PATH
"""
import argparse
import json
import shutil
import subprocess
import sys
import tarfile
import tempfile
from pathlib import Path

HERE = Path(__file__).resolve().parent
sys.path.insert(0, str(HERE))

from cases import WANTED_STATUSES, random_cases, statuses

TYPES = ["--strict", "--noEmit", "--target", "es2022", "--module", "node16", "--moduleResolution", "node16"]


def try_types(folder):
    if shutil.which("tsc") is None:
        return print("the package: tsc is missing, its types are not tried (Debian: apt-get install node-typescript)")
    shutil.copy(HERE / "package.ts", folder / "package.mts")
    subprocess.run(["tsc", *TYPES, "package.mts"], cwd=folder, check=True)
    print("the package: its types")


def main():
    parser = argparse.ArgumentParser(description=__doc__.split("\n")[0])
    parser.add_argument("--package", type=Path, required=True)
    parser.add_argument("--library", type=Path, required=True)
    parser.add_argument("--count", type=int, default=3000)
    options = parser.parse_args()
    if shutil.which("node") is None:
        print("the package: node is missing, not tried (Debian: apt-get install nodejs)")
        return
    cases = random_cases(options.library.resolve(), options.count, 2)
    if set(statuses(cases)) != WANTED_STATUSES:
        sys.exit(f"the random calls do not have each status: {statuses(cases)}")
    with tempfile.TemporaryDirectory() as room:
        folder = Path(room)
        (folder / "node_modules").mkdir()
        with tarfile.open(options.package) as archive:
            archive.extractall(folder)
        (folder / "package").rename(folder / "node_modules/gco-proved")
        for name in ("package.mjs", "compare.js"):
            shutil.copy(HERE / name, folder)
        (folder / "cases.json").write_text(json.dumps(cases))
        try_types(folder)
        sys.exit(subprocess.run(["node", "package.mjs"], cwd=folder).returncode)


if __name__ == "__main__":
    main()
