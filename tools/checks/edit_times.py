#!/usr/bin/env python3
"""Makes a table of the must-fail edits, by crate, with the processor seconds that each takes.

    python3 tools/checks/edit_times.py [CRATE ..]

To be run at the top of the repository, where the crates below those that are asked for are proved; with no
name it takes each crate that has edits. It runs `rt must-fail` with one lane (RT_JOBS=1), which tries the edits
of a crate one after the other, by name, each over what the checks before it proved, and at the end the crate
without an edit.

Kits from rattle-kit-13f on keep what passed, and prove the crate as it stands before its edits. They are asked
to use nothing that was kept (--anew). An older kit knows no such flag, and begins with the first edit: that one
proves the whole crate as well. So its row says `with the crate`, and neither the sum, the mean nor `dear` counts
it. Under each kit a crate's one edit is tried from nothing, and its seconds hold a proof of the whole.

The seconds of one check are those by which the finished children of that command grew. They are read from
/proc while it runs, so this works on Linux alone. `dear` stands behind an edit that takes more than 30 seconds,
and behind a crate whose edits take more than 5 minutes together. The status is 1 where an edit is not refused,
or where a refusal says little (a proof file names what the edit took away).
"""

import os
import re
import resource
import subprocess
import sys
import tempfile
import time

PAUSE = 0.05
LEAST = 1.0
# The first kit that keeps what passed, which it leaves unused under --anew.
KEEPS_WHAT_PASSED = (13, "f")
# The most processor seconds of an edit, of a crate's edits together, and of all edits.
EDIT_SECONDS = 30
CRATE_SECONDS = 5 * 60
ALL_SECONDS = 75 * 60


def keeps_what_passed():
    """Whether the kit keeps what passed. Such a kit proves a crate before it tries the crate's edits."""
    said = subprocess.run(["rt", "version"], stdout=subprocess.PIPE, encoding="utf-8", check=True).stdout
    named = re.search(r"\brattle-kit-(\d+)([a-z]*)", said)
    return not named or (int(named.group(1)), named.group(2)) >= KEEPS_WHAT_PASSED


def edits_of(crate):
    """The names of a crate's edits, in the order in which they are tried."""
    folder = os.path.join("crates", crate, "must-fail")
    found = os.listdir(folder) if os.path.isdir(folder) else []
    return sorted(name for name in found if name.endswith(".edit"))


def seconds_of(process):
    """The processor seconds of a process itself, and of all its children that have ended."""
    try:
        with open(f"/proc/{process}/stat", encoding="ascii", errors="replace") as stat:
            fields = stat.read().rpartition(")")[2].split()
    except OSError:
        return None
    ticks = os.sysconf("SC_CLK_TCK")
    return (int(fields[11]) + int(fields[12])) / ticks, (int(fields[13]) + int(fields[14])) / ticks


def seconds_of_ended():
    """The processor seconds of all commands that have ended here, and of their children."""
    usage = resource.getrusage(resource.RUSAGE_CHILDREN)
    return usage.ru_utime + usage.ru_stime


def watched(command):
    """Runs a command. Gives what it wrote, and the processor seconds of each child that took a while."""
    spent, itself, before, start = [], 0.0, 0.0, seconds_of_ended()
    with tempfile.TemporaryFile("w+", encoding="utf-8", errors="replace") as out:
        how = {"stdout": out, "stderr": subprocess.STDOUT, "stdin": subprocess.DEVNULL}
        with subprocess.Popen(command, env={**os.environ, "RT_JOBS": "1"}, **how) as run:
            while run.poll() is None:
                itself, now = seconds_of(run.pid) or (itself, before)
                if now - before >= LEAST:
                    spent.append(now - before)
                    before = now
                time.sleep(PAUSE)
        # a child that ended just before the command
        last = seconds_of_ended() - start - itself - before
        if last >= LEAST:
            spent.append(last)
        out.seek(0)
        return out.read(), spent


def outcome(text, crate, edit):
    """What the command says of an edit, in a few words: of a refusal the goal that stays open."""
    label = f"must-fail {crate}/{edit}: "
    said = next((line.partition(label)[2] for line in text.splitlines() if label in line), "")
    if not said.startswith("refused"):
        return said[:60] or "nothing is said of it"
    if "says little" in said:
        return "says little"
    goal = re.search(r"\(`([^`]*)`\)", said)
    return f"refused at {goal.group(1)}" if goal else "refused"


def dear(seconds, most):
    """What stands behind a row: whether it takes more than it may."""
    return ", dear" if seconds > most else ""


def table(crate, edits, anew):
    """Prints the rows of a crate. Gives the processor seconds of its edits, and whether all is well."""
    text, spent = watched(["rt", "must-fail", *(["--anew"] if anew else []), crate])
    said = [outcome(text, crate, edit) for edit in edits]
    after = 1 if len(edits) > 1 else 0
    before = after if anew else 0
    checks = before + len(edits) + after
    are_refused = all(it.startswith("refused") for it in said)
    if len(spent) < checks or not are_refused:
        print(text)
    # what is built below the crate comes before its checks; an edit that is not refused is tried a second time
    mine = spent[-checks:]
    own = mine[before:len(mine) - after]
    first = 0 if anew or not after else 1
    for place, (edit, seconds, words) in enumerate(zip(edits, own, said)):
        note = ", with the crate" if place < first else dear(seconds, EDIT_SECONDS)
        print(f"{seconds:8.1f}  {crate}/{edit}: {words}{note}", flush=True)
    counted = own[first:]
    mean = sum(counted) / len(counted) if counted else 0.0
    most = max(counted, default=0.0)
    ends = mine[:before] + (mine[-after:] if after else [])
    where = "before and after them" if before else "after them"
    ground = f", the crate {where} {' and '.join(f'{it:.1f}' for it in ends)}" if ends else ""
    words = f"{len(counted)} edits, mean {mean:.1f}, most {most:.1f}{ground}"
    print(f"{sum(counted):8.1f}  {crate}: {words}{dear(sum(counted), CRATE_SECONDS)}\n", flush=True)
    return sum(counted), are_refused


def main():
    asked = sys.argv[1:] or sorted(os.listdir("crates"))
    if any(re.match("-", name) for name in asked):
        sys.exit(__doc__)
    found = [(crate, edits_of(crate)) for crate in asked]
    found = [(crate, edits) for crate, edits in found if edits]
    anew = keeps_what_passed()
    ends = [table(crate, edits, anew) for crate, edits in found]
    number, total = sum(len(edits) for _, edits in found), sum(seconds for seconds, _ in ends)
    print(f"{total:8.1f}  {number} edits of {len(found)} crates{dear(total, ALL_SECONDS)}")
    sys.exit(0 if all(well for _, well in ends) else 1)


if __name__ == "__main__":
    main()
