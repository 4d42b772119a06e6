"""Random problems by the program, and the same through Python, C++ and Rust: one answer.

    against_program.py [--count 2000] C++_DRIVER [RUST_DRIVER]

The drivers are answers.cpp here and examples/answers.rs of the crate for Rust: each reads all
problems from one file. The program is GCO_PROGRAM, else the one of this checkout. The problems are
larger than those that the definitions are tried on.
"""
import argparse
import collections
import os
import pathlib
import random
import subprocess
import tempfile

import gco

TOP = pathlib.Path(__file__).resolve().parent.parent.parent
PROGRAM = os.environ.get("GCO_PROGRAM") or str(TOP / "crates" / "gco" / "out" / "gco")
# gco.h's statuses of pairs and terms, and what the program says
OF_LABELS = {10: "10 pair", 11: "11 site", 12: "12 pair", 14: "14 pair", 15: "15 data"}
OF_TERMS = {10: "16 term", 12: "17 term", 14: "18 term"}


class Labels:
    """A problem of labels: half of them large, one in seven with one fault."""

    def __init__(self, rng):
        self.fault = rng.choice(["site", "same", "start"]) if rng.random() < 0.15 else None
        k = self.k = rng.choice([1, 2, 2, 3, 4, 6])
        n = self.n = rng.choice([1, 2, 3, 5, 8, 20, 40])
        most = rng.choice([2, 9, 1000, 10_000_000])
        self.data = [rng.randint(0, most) for _ in range(n * k)]
        self.shape = rng.choice(["potts", "linear", "quadratic", "table", "symmetric"])
        self.trunc = rng.randint(1, 12)
        self.smooth = self.table(rng)
        weights = rng.choice([[1], [1, 2, 3, 5], [0, 1, 7, 1000]])
        self.pairs = [
            (*rng.sample(range(n), 2), rng.choice(weights))
            for _ in range(rng.randrange(3 * n) if n > 1 else 0)
        ]
        self.costs = (
            [rng.randint(0, most // 2 + 1) for _ in range(k)] if rng.random() < 0.25 else []
        )
        self.moves = rng.choice(["expansion", "swap"])
        self.cycles = rng.choice([0, 1, 2, 100, 100])
        self.start = [rng.randrange(k) for _ in range(n)]
        if self.fault == "site":
            self.pairs.append((rng.randrange(n), n, 1))
        if self.fault == "same":
            self.pairs.append((n - 1, n - 1, 1))
        if self.fault == "start":
            self.start[rng.randrange(n)] = k

    def table(self, rng):
        cost = {
            "potts": lambda a, b: int(a != b),
            "linear": lambda a, b: min(abs(a - b), self.trunc),
            "quadratic": lambda a, b: min((a - b) ** 2, self.trunc),
            "table": lambda a, b: rng.randint(0, 9),
            "symmetric": lambda a, b: (a != b) * rng.randint(5, 10),
        }[self.shape]
        rows = [[cost(a, b) for b in range(self.k)] for a in range(self.k)]
        if self.shape == "symmetric":
            rows = [[rows[min(a, b)][max(a, b)] for b in range(self.k)] for a in range(self.k)]
        return [cost for row in rows for cost in row]

    def document(self):
        smooth = self.smooth if self.shape in ("table", "symmetric") else f'"{self.shape}"'
        return "\n".join(
            [
                f"sites = {self.n}",
                f"labels = {self.k}",
                f"data = {self.data}",
                f"smooth = {smooth}",
                f"trunc = {self.trunc}",
                f"pairs = {[list(pair) for pair in self.pairs]}",
                f"start = {self.start}",
                f'moves = "{self.moves}"',
                f"cycles = {self.cycles}",
                *([f"label_costs = {self.costs}"] if self.costs else []),
                "",
            ]
        )

    def numbers(self):
        pairs = [number for pair in self.pairs for number in pair]
        return [
            1,
            self.k,
            self.n,
            *self.data,
            *self.smooth,
            len(self.costs),
            *self.costs,
            len(self.pairs),
            *pairs,
            int(self.moves == "swap"),
            self.cycles,
            *self.start,
        ]

    words = ["label", "--bound"]

    def by_python(self):
        rows = [self.data[s * self.k : (s + 1) * self.k] for s in range(self.n)]
        try:
            found = gco.label(
                rows,
                self.smooth,
                self.pairs,
                label_costs=self.costs or None,
                moves=self.moves,
                cycles=self.cycles,
                start=self.start,
            )
        except gco.Refused as refused:
            if refused.status == 27:
                return "refused 27"
            if refused.status == 24:
                return (
                    f"refused 24 pair {refused.place} alpha {refused.alpha}"
                    + f" beta {refused.beta}" * (self.moves == "swap")
                )
            return f"refused {OF_LABELS[refused.status]} {refused.place}"
        own = f" label {found.label}" if self.costs else ""
        bound = f"{found.bound[0]} {2 * found.bound[1]}" if found.bound else "none"
        labels = " ".join(map(str, list(found.labels)))
        parts = f"energy {found.energy} data {found.data} smooth {found.smooth}{own}"
        return f"{parts} labels {labels} bound {bound}"

    def in_words(self, line):
        """What the C++ class says where the program says this line: a part of it."""
        if not line.startswith("refused 24"):
            return "refused: "
        _, _, _, place, _, *labels = line.split()
        p, q, _ = self.pairs[int(place)]
        move = (
            f"expansion of label {labels[0]}"
            if len(labels) == 1
            else f"swap of labels {labels[0]} and {labels[2]}"
        )
        term = f"the term of sites {p} and {q} is not regular in the {move}"
        return f"refused: the smooth cost is no metric: {term}"


class Variables:
    """Terms of one, two and three variables, some not regular, one in seven with a fault."""

    words = ["energy"]

    def __init__(self, rng):
        self.fault = rng.choice(["variable", "same", "value"]) if rng.random() < 0.15 else None
        self.n = rng.choice([3, 4, 6, 12, 30])
        self.constant = rng.choice([0, 7, -1_000_000_000])
        most = rng.choice([3, 50, 10_000_000])
        counts = [rng.randrange(2 * self.n) for _ in range(3)]
        self.terms = [
            (rng.sample(range(self.n), size), self.values(rng, size, most))
            for size, count in zip((1, 2, 3), counts)
            for _ in range(count)
        ]
        if not self.fault and rng.random() < 0.2:
            place = rng.randrange(len(self.terms) + 1)
            size = len(self.terms[place][0]) if place < len(self.terms) else 3
            irregular = (
                rng.sample(range(self.n), max(size, 2)),
                [rng.randint(-9, 9) for _ in range(1 << max(size, 2))],
            )
            # terms stand by their number of variables, as the calls of the library take them
            self.terms = sorted([*self.terms, irregular], key=lambda term: len(term[0]))
        if self.fault == "variable":
            self.terms.append(([0, 1, self.n], [0] * 8))
        if self.fault == "same":
            self.terms.append(([0, 1, 0], [0] * 8))
        if self.fault == "value":
            self.terms.append(([0, 1, 2], [1_000_000_001] + [0] * 7))

    @staticmethod
    def values(rng, size, most):
        """A regular table: numbers of each variable and of each two, and less at all ones."""
        bits = [[place >> (size - 1 - x) & 1 for x in range(size)] for place in range(1 << size)]
        own = [rng.randint(-most, most) for _ in range(size)]
        both = {(x, y): rng.randint(0, most) for x in range(size) for y in range(x)}
        last = rng.randint(0, most) if size == 3 else 0
        return [
            sum(o * b for o, b in zip(own, row))
            + sum(w * (row[x] != row[y]) for (x, y), w in both.items())
            - last * all(row)
            for row in bits
        ]

    def document(self):
        terms = ", ".join(f"{{ on = {on}, values = {values} }}" for on, values in self.terms)
        return f"variables = {self.n}\nconstant = {self.constant}\nterms = [{terms}]\n"

    def numbers(self):
        return [
            2,
            self.n,
            self.constant,
            len(self.terms),
            *(number for on, values in self.terms for number in (len(on), *on, *values)),
        ]

    def by_python(self):
        kinds = [
            [(*on, values) for on, values in self.terms if len(on) == size] for size in (1, 2, 3)
        ]
        try:
            value, bits = gco.minimise(self.n, *kinds, self.constant)
        except gco.Refused as refused:
            if refused.status == 20:
                return f"refused 20 term {refused.place}" + (
                    " fixed %d at %d" % refused.fixed if refused.fixed else ""
                )
            return f"refused {OF_TERMS[refused.status]} {refused.place}"
        return f"minimum {value} assignment {''.join(map(str, bits))}"

    def in_words(self, line):
        if not line.startswith("refused 20"):
            return "refused: "
        return f"refused: term {line.split()[3]}, of variables "


def by_program(problem):
    ran = subprocess.run(
        [PROGRAM, *problem.words],
        input=problem.document().encode(),
        capture_output=True,
        timeout=60,
    )
    assert ran.returncode in (0, 1) and bool(ran.stderr) == bool(ran.returncode) != bool(
        ran.stdout
    ), (problem.document(), ran)
    return " ".join((ran.stderr or ran.stdout).decode().split())


def by_driver(driver, file, count):
    ran = subprocess.run([driver, file], capture_output=True, text=True, timeout=600)
    lines = ran.stdout.splitlines()
    assert ran.returncode == 0 and len(lines) == count, (
        driver,
        ran.returncode,
        ran.stderr,
        len(lines),
    )
    return lines


def main():
    parser = argparse.ArgumentParser()
    parser.add_argument("--count", type=int, default=2000)
    parser.add_argument("drivers", nargs="+")
    options = parser.parse_args()
    if not os.path.exists(PROGRAM):
        print("against the program: not tried, it is not built (make check GCO=path names one)")
        return
    rng, kinds = random.Random(55), collections.Counter()
    problems = [rng.choice([Labels, Variables])(rng) for _ in range(options.count)]
    wanted = [by_program(problem) for problem in problems]
    with tempfile.TemporaryDirectory() as folder:
        file = pathlib.Path(folder, "problems")
        file.write_text(
            "".join(" ".join(map(str, problem.numbers())) + "\n" for problem in problems)
        )
        drivers = [by_driver(driver, file, options.count) for driver in options.drivers]
    for place, (problem, line) in enumerate(zip(problems, wanted)):
        assert problem.by_python() == line, (place, problem.document(), line, problem.by_python())
        in_cpp = drivers[0][place]
        same = (
            in_cpp == line
            if not line.startswith("refused")
            else in_cpp.startswith(problem.in_words(line))
        )
        assert same, (place, problem.document(), line, in_cpp)
        for lines in drivers[1:]:
            assert lines[place] == line, (place, problem.document(), line, lines[place])
        kinds[" ".join(line.split()[:2]) if line.startswith("refused") else line.split()[0]] += 1
    for kind in (
        "energy",
        "minimum",
        "refused 10",
        "refused 11",
        "refused 12",
        "refused 16",
        "refused 17",
        "refused 18",
        "refused 20",
        "refused 24",
        "refused 27",
    ):
        assert kinds[kind] >= options.count // 100, (kind, kinds)
    through = ["Python", "C++", "Rust"][: 1 + len(drivers)]
    print(
        f"against the program: {options.count} problems through {', '.join(through)}:",
        dict(sorted(kinds.items())),
    )


main()
