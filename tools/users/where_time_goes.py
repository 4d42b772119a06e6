#!/usr/bin/env python3
"""Shows where the time of a run goes, on a picture or a problem file of your own:

    python3 tools/users/where_time_goes.py --gco gco photo.pgm -- restore --weight 4
    python3 tools/users/where_time_goes.py --gco gco --by sweep photo.pgm -- restore --weight 4

By parts: the run is sampled by `perf`, or counted by `valgrind --tool=callgrind` where there is no
perf. Its functions are summed by the part of the work that they do: reading, pairs, deciding,
building, cutting, taking, writing. By sweep: the run is made again with one option changed at a
time. Each line has the processor seconds, the peak memory and the energy. This needs neither of
these tools, and is what is done where both are missing.
"""
import argparse
import collections
import os
import re
import shutil
import subprocess
import sys
import tempfile
from pathlib import Path

# Parts of the work by the first words of a function's path, as the crates are named; the first
# that fits is taken.
PARTS = [
    ("reading", ("pgm_image", "byte_streams", "problem_files", "toml", "command_line", "clap")),
    ("pairs", ("label_field", "counting_sort")),
    ("costs", ("cost_store", "vision", "run_options", "label_energies", "rayon")),
    (
        "site_bounds",
        ("site_forms", "form_lists", "site_bounds", "near_changes", "persistency", "kept_labels"),
    ),
    (
        "building",
        (
            "move_energy", "label_cost_terms", "strip_nets", "strips", "pseudo_bool", "regular",
            "compile_cut", "sums",
        ),
    ),
    ("cutting", ("plain_cut", "cut_ways", "sink_distances", "flow_network")),
    (
        "cutting by workers",
        (
            "rounds", "distance_search", "part_threads", "block_", "net_in_blocks", "cut_in_blocks", "node_buckets",
            "global_relabel", "worker", "rtrb",
        ),
    ),
    ("moves", ("one_move", "moves", "minimum")),
    ("writing", ("program_texts", "program_tasks", "gco_cli", "itoa", "arrayvec")),
]
SYSTEM = "the system, and what has no name of a crate"
SWEEPS = {
    "restore": [
        "--cycles 1",
        "--cycles 2",
        "--smooth potts",
        "--smooth linear --trunc 8",
        "--neighbours 8",
        "--weight 1",
        "--weight 20",
        "--label-cost 50",
        "--moves swap --cycles 1",
        "--threads 4",
    ],
    "stereo": [
        "--cycles 1",
        "--cycles 2",
        "--smooth potts",
        "--smooth linear --trunc 4",
        "--neighbours 8",
        "--labels 16",
        "--labels 64",
        "--moves swap --cycles 1",
        "--threads 4",
    ],
    "segment": ["--neighbours 8", "--strong 1 --weak 1", "--strong 100 --weak 3", "--threads 4"],
    "energy": ["--threads 4"],
    "label": ["--threads 4"],
}


def part_of(function):
    """The part of the work that a function does, by the crate in its name."""
    for part, crates in PARTS:
        for crate in crates:
            if re.search(rf"(?<![a-z_]){crate}", function):
                return part
    return SYSTEM


def table(shares, unit):
    """Prints how much each part takes, and its functions that take most."""
    total = sum(shares.values())
    if not total:
        sys.exit("where_time_goes: nothing was counted; try --by sweep")
    parts = collections.defaultdict(dict)
    for function, amount in shares.items():
        parts[part_of(function)][function] = amount
    print(f"{total:,.0f} {unit}")
    for part, functions in sorted(parts.items(), key=lambda item: -sum(item[1].values())):
        print(f"{100 * sum(functions.values()) / total:6.1f} %  {part}")
        for function, amount in sorted(functions.items(), key=lambda item: -item[1])[:3]:
            if amount >= total / 100:
                print(f"            {100 * amount / total:5.1f} %  {function}")


def run(words, path):
    """A run of the program whose answer is thrown away."""
    with open(path, "rb") as file:
        return subprocess.run(
            words, stdin=file, stdout=subprocess.DEVNULL, stderr=subprocess.PIPE, text=True
        )


def by_perf(words, path, folder):
    """Samples by function."""
    data = folder / "perf.data"
    done = run(["perf", "record", "-q", "-F", "999", "-o", str(data), *words], path)
    if done.returncode or not data.exists():
        return None
    told = subprocess.run(
        [
            "perf",
            "report",
            "-i",
            str(data),
            "--stdio",
            "-q",
            "-g",
            "none",
            "--sort",
            "symbol",
            "-F",
            "sample,symbol",
        ],
        capture_output=True,
        text=True,
    ).stdout
    shares = collections.Counter()
    for samples, function in re.findall(
        r"^\s*(\d+)\s+\[[.k]\]\s+(.+?)(?:\s{2,}-\s+-)?\s*$", told, re.M
    ):
        shares[function] += int(samples)
    return (shares, "samples of perf") if shares else None


def by_callgrind(words, path, folder):
    """Instructions by function. It takes some fifty times as long as the run itself."""
    data = folder / "callgrind.out"
    done = run(["valgrind", "-q", "--tool=callgrind", f"--callgrind-out-file={data}", *words], path)
    if done.returncode:
        return None
    told = subprocess.run(
        ["callgrind_annotate", "--threshold=100", "--show-percs=no", str(data)],
        capture_output=True,
        text=True,
    ).stdout
    shares = collections.Counter()
    for count, function in re.findall(r"^\s*([\d,]+)\s+\S*?:(\S.*?)(?: \[.*\])?$", told, re.M):
        shares[function] += int(count.replace(",", ""))
    return (shares, "instructions") if shares else None


def measured(words, path):
    """Processor seconds, peak memory in MB and the line of a run."""
    with open(path, "rb") as file:
        child = subprocess.Popen(words, stdin=file, stdout=subprocess.PIPE, stderr=subprocess.PIPE)
        answer, said = child.stdout.read(), child.stderr.read().decode()
        _, status, used = os.wait4(child.pid, 0)
    child.returncode = os.waitstatus_to_exitcode(status)
    line = said if said.strip() else answer.decode("ascii", "replace")
    return (
        used.ru_utime + used.ru_stime,
        used.ru_maxrss / 1024,
        (line.strip().split("\n") or [""])[0],
    )


def changed(words, change):
    """The words with these options in place of their own."""
    words, names = list(words), {word for word in change if word.startswith("--")}
    kept, at = [], 0
    while at < len(words):
        name = words[at].split("=")[0]
        if name in names:
            at += 1 if "=" in words[at] else 2
        else:
            kept.append(words[at])
            at += 1
    return kept + change


def sweep(gco, words, path):
    """One line for the run as it is, and one for each changed option."""
    print("processor s   MB   times  energy and options")
    first = None
    given = " ".join(words)
    changes = [text for text in SWEEPS[words[0]] if text not in given]
    for change in [[], *(text.split() for text in changes)]:
        seconds, memory, line = measured([gco, *changed(words, change)], path)
        first = first or max(seconds, 0.001)
        print(
            f"{seconds:11.2f} {memory:4.0f} {seconds / first:7.2f}  {line}  "
            f" {' '.join(change) or '(as given)'}",
            flush=True,
        )


def main():
    parser = argparse.ArgumentParser(
        description=__doc__.split("\n")[0],
        usage="%(prog)s [--gco GCO] [--by WAY] FILE -- COMMAND ..",
    )
    parser.add_argument("--gco", default="gco", help="the program")
    parser.add_argument("--by", choices=["perf", "callgrind", "sweep"], help="one way alone")
    parser.add_argument("file", type=Path, help="what the command reads")
    parser.add_argument("words", nargs="+", help="the command and its options")
    options = parser.parse_args()
    if options.words[0] not in SWEEPS:
        sys.exit(f"where_time_goes: {options.words[0]} is none of the commands {', '.join(SWEEPS)}")
    if (
        options.by in ("perf", None)
        and shutil.which("perf")
        or options.by in ("callgrind", None)
        and shutil.which("valgrind")
    ):
        with tempfile.TemporaryDirectory() as name:
            for way, tool, call in (
                ("perf", "perf", by_perf),
                ("callgrind", "valgrind", by_callgrind),
            ):
                found = (
                    call([options.gco, *options.words], options.file, Path(name))
                    if options.by in (way, None) and shutil.which(tool)
                    else None
                )
                if found:
                    return table(*found)
    if options.by in ("perf", "callgrind"):
        sys.exit(f"where_time_goes: {options.by} is not there, or gave nothing: try --by sweep")
    return sweep(options.gco, options.words, options.file)


if __name__ == "__main__":
    main()
