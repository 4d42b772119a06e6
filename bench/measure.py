#!/usr/bin/env python3
"""Measures gco beside the same moves over the library maxflow, and by threads.

    make bench GCO=path/of/gco                          all runs: at most 10 minutes
    make bench GCO=path/of/gco BENCH_OPTIONS=--quick    small pictures: under a minute
    make bench GCO=path/of/gco BENCH_OPTIONS=--renew    all runs, and their figures into the pages

Each program is run in turn, so that what else the machine does falls on all alike. Of each the best
of the runs counts. Seconds are those of the whole program, with reading and writing. "Times" is
gco's seconds over those of the other, by the clock and by the processor; the mean is the geometric
one. Memory is the most that was in use at once. The pictures that are written have to be the same,
byte for byte, and the energies too: else the status is 1.

The tables go to standard output and into the folder --out. `--renew` puts them into docs/MEASURED.md
too, between their marks, and the mean into the pages that tell it (tools/checks/check_figures.py). On a
machine that does other work the seconds mean nothing, and the ratios little.
"""
import argparse
import collections
import hashlib
import math
import os
import re
import signal
import subprocess
import sys
import tempfile
import textwrap
import threading
import time
from pathlib import Path

from inputs import make_inputs

HERE = Path(__file__).resolve().parent
TOP = HERE.parent
sys.path[:0] = [str(TOP / "tools/checks"), str(TOP / "tools/users")]
import check_figures  # noqa: E402
import where_time_goes  # noqa: E402

# What the pages call the run, the picture, the words, whether --quick has it.
BESIDE = [
    ("`restore` 64 x 64, 4 levels", "camera64_4", "restore", True),
    (
        "`restore` 64 x 64, 8 levels, linear, 8 neighbours",
        "camera64_8",
        "restore --smooth linear --trunc 2 --neighbours 8",
        True,
    ),
    ("`restore` 64 x 64, 8 levels, swaps", "camera64_8", "restore --moves swap", True),
    (
        "`restore` 64 x 64, 256 levels, linear",
        "camera64_256",
        "restore --smooth linear --trunc 20 --weight 2",
        True,
    ),
    ("`restore` 128 x 128, 16 levels, weight 2", "camera128_16", "restore --weight 2", True),
    ("`restore` 256 x 256, 4 levels", "camera256_4", "restore", True),
    ("`restore` 256 x 256, 8 levels", "camera256_8", "restore", True),
    (
        "the same, linear, 8 neighbours",
        "camera256_8",
        "restore --smooth linear --trunc 2 --neighbours 8",
        False,
    ),
    ("the same as the row before last, swaps", "camera256_8", "restore --moves swap", False),
    (
        "`restore` 256 x 256, 64 levels, linear",
        "camera256_64",
        "restore --smooth linear --trunc 8",
        False,
    ),
    (
        "`restore` 256 x 256, 256 levels, linear, one cycle",
        "camera256_256",
        "restore --smooth linear --trunc 20 --weight 2 --cycles 1",
        False,
    ),
    ("`restore` 512 x 512, 4 levels", "camera512_4", "restore", False),
    ("`restore` 512 x 512, 8 levels", "camera512_8", "restore", False),
    ("`restore` 1024 x 1024, 4 levels", "camera1024_4", "restore", False),
    ("the same, weight 4", "camera1024_4", "restore --weight 4", False),
    (
        "`stereo` 185 x 125, 16 labels",
        "stereo185",
        "stereo --labels 16 --cap 20 --weight 4",
        True,
    ),
    (
        "`stereo` 370 x 250, 32 labels",
        "stereo370",
        "stereo --labels 32 --cap 20 --weight 4",
        False,
    ),
    (
        "the same, linear",
        "stereo370",
        "stereo --labels 32 --cap 20 --weight 4 --smooth linear --trunc 4",
        False,
    ),
    (
        "`stereo` 741 x 500, 64 labels",
        "stereo741",
        "stereo --labels 64 --cap 20 --weight 4",
        False,
    ),
    ("`segment` 256 x 256", "segment256", "segment --low 30 --high 190", True),
    ("`segment` 512 x 512", "segment512", "segment --low 30 --high 190", False),
    ("`segment` 1024 x 1024", "segment1024", "segment --low 30 --high 190", False),
]
# The runs of that table that are measured by threads too: those of 20,000 pixels or more.
THREADED = [case for case in BESIDE if not re.search(r" 64 x 64|741|256 levels", case[0])]
THREADS = [1, 2, 4]
# Sizes whose memory is told, with 4 and with 8 neighbours.
MEMORY = ["256 x 256", "512 x 512", "1024 x 1024"]
# Runs of the first table of which is told where the time goes.
SAMPLED = [
    "`restore` 1024 x 1024, 4 levels",
    "the same, weight 4",
    "`restore` 256 x 256, 64 levels, linear",
    "`stereo` 370 x 250, 32 labels",
    "`segment` 1024 x 1024",
]
# Seconds: a run that takes longer is made once, and one that takes this long is stopped.
ONCE_FROM = 15
STOPPED_FROM = 120


def run_once(command, picture):
    """Seconds by the clock and by the processor, peak megabytes, and a checksum of the answer.

    `time` stands between: the peak of a program that Python starts is at least Python's own."""
    with tempfile.TemporaryDirectory() as folder, open(picture, "rb") as source:
        peak, answer, faults = (Path(folder) / name for name in ("peak", "answer", "faults"))
        words = ["/usr/bin/time", "--quiet", "-f", "%M", "-o", peak, *command]
        with open(answer, "wb") as sink, open(faults, "wb") as says:
            begin = time.monotonic()
            process = subprocess.Popen(
                words, stdin=source, stdout=sink, stderr=says, start_new_session=True
            )
            timer = threading.Timer(STOPPED_FROM, os.killpg, [process.pid, signal.SIGKILL])
            timer.start()
            _, status, used = os.wait4(process.pid, 0)
            clock = time.monotonic() - begin
            timer.cancel()
            process.returncode = os.waitstatus_to_exitcode(status)
        said = faults.read_bytes()
        if process.returncode != 0:
            sys.exit(f"{' '.join(map(str, command))}: status {process.returncode}: {said.decode()}")
        return {
            "clock": clock,
            "processor": used.ru_utime + used.ru_stime,
            "memory": int(peak.read_text().split()[-1]) / 1024,
            "answer": hashlib.sha256(answer.read_bytes() + said).hexdigest(),
        }


def best_of(runs):
    """The least of each figure, and the one answer; it ends the program if there are two."""
    if len({run["answer"] for run in runs}) != 1:
        sys.exit("one program answered twice, and not the same")
    return {key: min(run[key] for run in runs) for key in runs[0]}


def measure(jobs, rounds, ends):
    """The best of each job, a name and a command and a picture, in rounds of all jobs in turn.

    No round is begun that would end after the time `ends`."""
    runs = {name: [] for name, _, _ in jobs}
    longest = 0
    for turn in range(rounds):
        begin = time.monotonic()
        if turn and begin + longest > ends:
            break
        for name, command, picture in jobs:
            if not runs[name] or runs[name][-1]["clock"] < ONCE_FROM:
                runs[name].append(run_once(command, picture))
                print(".", end="", file=sys.stderr, flush=True)
        longest = max(longest, time.monotonic() - begin)
    print(file=sys.stderr)
    return {name: best_of(found) for name, found in runs.items()}


def seconds(number):
    return f"{number:.3f}" if number < 0.1 else f"{number:.2f}"


def mean(ratios):
    """The geometric mean."""
    return math.exp(sum(map(math.log, ratios)) / len(ratios))


def beside_table(cases, found):
    lines = [
        "| run | gco, s | maxflow, s | times, by the clock | times, by the processor "
        "| gco, MB | maxflow, MB | bytes |",
        "|---|---|---|---|---|---|---|---|",
    ]
    clocks, processors, memories, differ = [], [], [], 0
    for place, (title, *_) in enumerate(cases):
        ours, theirs = found["gco", place], found["maxflow", place]
        clocks.append(ours["clock"] / theirs["clock"])
        processors.append(ours["processor"] / theirs["processor"])
        memories.append(ours["memory"] / theirs["memory"])
        same = ours["answer"] == theirs["answer"]
        differ += not same
        lines.append(
            f"| {title} | {seconds(ours['clock'])} | {seconds(theirs['clock'])} "
            f"| {clocks[-1]:.2f} | {processors[-1]:.2f} "
            f"| {ours['memory']:.1f} | {theirs['memory']:.1f} "
            f"| {'same' if same else '**differ**'} |"
        )
    lines.append(
        f"| mean (most) | | | {mean(clocks):.2f} ({max(clocks):.2f}) "
        f"| {mean(processors):.2f} ({max(processors):.2f}) "
        f"| {mean(memories):.2f} times | | {'differ' if differ else 'same'} |"
    )
    return lines, differ


def threads_table(cases, found):
    head = "".join(f" `--threads {count}` |" for count in THREADS)
    columns = len(THREADS) + 3
    lines = [f"| run | one thread |{head} {THREADS[-1]} over one |", "|---" * columns + "|"]
    differ = 0
    for place, (title, *_) in enumerate(cases):
        alone = found["gco", place]
        by_threads = [found[count, place] for count in THREADS]
        differ += any(run["answer"] != alone["answer"] for run in by_threads)
        cells = "".join(
            f" {seconds(run['clock'])} ({run['memory']:.0f} MB) |" for run in [alone, *by_threads]
        )
        lines.append(f"| {title} |{cells} {by_threads[-1]['clock'] / alone['clock']:.2f} |")
    return lines, differ


def memory_table(options, pictures):
    """Peak memory of `restore` of 4 levels, by size and neighbours."""
    lines = [
        "| pixels | 4 neighbours | 8 neighbours | maxflow, 4 neighbours |",
        "|---|---|---|---|",
    ]
    for title in MEMORY:
        file = pictures / f"camera{title.split()[0]}_4.pgm"
        commands = [
            [options.gco, "restore"],
            [options.gco, "restore", "--neighbours", "8"],
            [os.path.abspath(options.peer), "restore"],
        ]
        peaks = [run_once(command, file)["memory"] for command in commands]
        lines.append(f"| {title} |" + "".join(f" {peak:.0f} MB |" for peak in peaks))
    return lines


def shares_of(options, picture, words):
    """Of each part of the work its percentage of a run's samples; None if perf gives none."""
    with tempfile.TemporaryDirectory() as folder:
        found = where_time_goes.by_perf([options.gco, *words.split()], picture, Path(folder))
    if not found:
        return None
    total = sum(found[0].values())
    parts = collections.Counter()
    for function, samples in found[0].items():
        parts[where_time_goes.part_of(function)] += 100 * samples / total
    return parts


def where_table(options, pictures):
    """Where the time of some runs goes, by samples of perf."""
    cases = {case[0]: case for case in BESIDE}
    columns = [
        shares_of(options, pictures / f"{picture}.pgm", words)
        for picture, words in (cases[title][1:3] for title in SAMPLED)
    ]
    if not all(columns):
        return ["Not measured: `perf` gave no samples on this machine."]
    parts = {part for column in columns for part in column}
    lines = ["| part |" + "".join(f" {title} |" for title in SAMPLED)]
    lines.append("|---" * (len(SAMPLED) + 1) + "|")
    for part in sorted(parts, key=lambda part: -columns[0][part]):
        if max(column[part] for column in columns) >= 1:
            cells = "".join(f" {column[part]:.0f} % |" for column in columns)
            lines.append(f"| {part} |{cells}")
    return lines


def machine_line(options, rounds):
    """What is said of the machine, its load and the program."""
    cpu = re.search(r"model name\s*: (.*)", Path("/proc/cpuinfo").read_text(encoding="utf-8"))
    digest = hashlib.sha256(Path(options.gco).read_bytes()).hexdigest()[:12]
    return textwrap.fill(
        f"{time.strftime('%d %B %Y').lstrip('0')}. {cpu.group(1) if cpu else 'A machine'}, "
        f"{os.cpu_count()} cores, load {os.getloadavg()[0]:.1f} at the start. "
        f"At most {rounds} runs of each program in turn. "
        f"The program's sha256 begins with {digest}.",
        100,
    )


def put_into(top, tables):
    """Puts each table between its marks, `<!-- bench NAME -->` and `<!-- end -->`, and the mean into
    the pages that tell it."""
    page = top / check_figures.MEASURED
    text = page.read_text(encoding="utf-8")
    for name, lines in tables.items():
        mark = re.compile(rf"(<!-- bench {name} -->\n).*?(<!-- end -->)", re.DOTALL)
        if not mark.search(text):
            sys.exit(f"{page} has no mark for the table {name}")
        made = "\n".join(["", *lines, "", ""])
        text = mark.sub(lambda found: found.group(1) + made + found.group(2), text)
    page.write_text(text, encoding="utf-8")
    check_figures.renew(top)


def parsed():
    parser = argparse.ArgumentParser(
        description=__doc__, formatter_class=argparse.RawDescriptionHelpFormatter
    )
    parser.add_argument("--gco", required=True)
    parser.add_argument("--peer", default=HERE / "out/peer", type=Path)
    parser.add_argument("--quick", action="store_true")
    parser.add_argument("--rounds", type=int, help="3, or 2 of the quick ones")
    parser.add_argument("--minutes", type=float, default=9, help="no round is begun after these")
    parser.add_argument("--only", default="", help="the runs whose name has this text")
    parser.add_argument("--out", default=HERE / "out", type=Path)
    parser.add_argument("--renew", action="store_true", help="the tables go into the pages, too")
    options = parser.parse_args()
    if options.renew and (options.quick or options.only):
        parser.error("--renew wants all runs")
    options.gco = os.path.abspath(options.gco)
    return options


def main():
    options = parsed()
    rounds = options.rounds or (2 if options.quick else 3)
    ends = time.monotonic() + 60 * options.minutes
    pictures = options.out / "inputs"
    make_inputs(pictures)
    said = machine_line(options, rounds)

    wanted = [case for case in BESIDE if options.only in case[0] and (case[3] or not options.quick)]
    jobs = []
    for place, (_, picture, words, _) in enumerate(wanted):
        file = pictures / f"{picture}.pgm"
        for name, program in (("gco", options.gco), ("maxflow", os.path.abspath(options.peer))):
            jobs.append(((name, place), [program, *words.split()], file))
        if wanted[place] in THREADED:
            for count in THREADS:
                command = [options.gco, *words.split(), "--threads", str(count)]
                jobs.append(((count, place), command, file))
    found = measure(jobs, rounds, ends)

    beside, differ = beside_table(wanted, found)
    kept = [place for place, case in enumerate(wanted) if case in THREADED]
    tables = {"machine": [said], "beside": beside}
    unlike = 0
    if kept:
        tables["threads"], unlike = threads_table(
            [wanted[place] for place in kept],
            {(name, kept.index(at)): run for (name, at), run in found.items() if at in kept},
        )
    if not options.quick and not options.only:
        tables["memory"] = memory_table(options, pictures)
        tables["where"] = where_table(options, pictures)
    tables = {name: lines for name, lines in tables.items() if lines}
    text = "\n\n".join("\n".join(lines) for lines in tables.values()) + "\n"
    print(text, end="")
    (options.out / "tables.md").write_text(text, encoding="utf-8")
    if options.renew:
        put_into(TOP, tables)
    sys.exit(1 if differ or unlike else 0)


if __name__ == "__main__":
    main()
