#!/usr/bin/env python3
"""Runs the checks of pages and sources that need no proof, and lists those that failed:

    python3 tools/check.py                  all
    python3 tools/check.py --quick          without `check_format`, which needs `rt` and a minute
    python3 tools/check.py words links      some

Each can be run by itself: `python3 tools/checks/check_words.py`.
"""
import subprocess
import sys
from pathlib import Path

CHECKED = Path(__file__).resolve().parent / "checks"
CHECKS = ["words", "edits", "quotes", "links", "pages", "refused", "figures", "format"]
SLOW = {"format"}


def wanted(words):
    """The names of the checks that the words ask for; nothing if one is not known."""
    if words == ["--quick"]:
        return [name for name in CHECKS if name not in SLOW]
    return words or CHECKS


def main():
    names = wanted(sys.argv[1:])
    if not set(names) <= set(CHECKS):
        sys.exit(__doc__)
    scripts = [CHECKED / f"check_{name}.py" for name in names]
    runs = [subprocess.run([sys.executable, script], cwd=CHECKED.parents[1]) for script in scripts]
    failed = [name for name, run in zip(names, runs) if run.returncode != 0]
    print(f"checks failed: {' '.join(failed)}" if failed else f"{len(names)} checks passed")
    sys.exit(1 if failed else 0)


if __name__ == "__main__":
    main()
