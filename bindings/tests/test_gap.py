"""--gap, --refine and --plot of python -m gco: bounds and energies against every labelling, the words, and what is refused."""
import contextlib
import fractions
import io
import itertools
import pathlib
import random
import re
import shutil
import subprocess
import sys
import tempfile

if "--without-numpy" in sys.argv:
    sys.modules["numpy"] = None
TOP = pathlib.Path(__file__).resolve().parent.parent.parent
sys.path.insert(0, str(TOP / "tools/tables"))
import pictures_by_definition as definition
from definitions import Problem
from gco_proved.__main__ import main

EXAMPLES = TOP / "examples"
try:
    import numpy as np
    from PIL import Image
except ImportError:
    np = None
SHARE = re.compile(r"least at least (\d+): at most (\d+)(?:\.(\d{1,2}))? % above the least energy")
SHARE_SAID = re.compile(r"at most (\S+) %")
UNKNOWN = "least at least 0: no share of it is known"


def run(*words):
    """A command: its status, what it says, and what it says went wrong."""
    out, wrong = io.StringIO(), io.StringIO()
    with contextlib.redirect_stdout(out), contextlib.redirect_stderr(wrong):
        try:
            status = main([str(word) for word in words])
        except SystemExit as end:
            status = end.code
    return status, out.getvalue(), wrong.getvalue()


def energy_in(line):
    """The energy that a line tells."""
    return int(re.search(r"energy (\d+) ", line).group(1))


def bound_in(line, energy):
    """The bound that a line of --gap tells. Its share of an energy is rounded up to hundredths of a percent, and no further."""
    if line == UNKNOWN:
        assert energy > 0
        return 0
    whole = SHARE.fullmatch(line)
    assert whole, line
    low, hundredths = int(whole.group(1)), int(whole.group(2)) * 100 + int((whole.group(3) or "0").ljust(2, "0"))
    assert whole.group(3) != "0" and (whole.group(3) or "1")[-1] != "0", line
    share = fractions.Fraction(10000 * (energy - low), low) if low else fractions.Fraction(energy)
    assert hundredths - 1 < share <= hundredths, (line, energy)
    return low


def pgm(path, *pictures):
    """Writes pictures (width, maxval, samples) one after another."""
    path.write_bytes(b"".join(b"P5\n%d %d\n%d\n" % (width, len(samples) // width, maxval) + bytes(samples) for width, maxval, samples in pictures))
    return path


def picture_case(rng, folder):
    """A tiny picture and a command for it: the words, the least energy of all labellings, and the problem."""
    width, height = rng.choice([(3, 1), (2, 2), (3, 2), (2, 3), (1, 5)])
    count, maxval = width * height, rng.choice([1, 2, 3])
    first, second = ([rng.randrange(maxval + 1) for _ in range(count)] for _ in range(2))
    shape = dict(shape=rng.choice(["potts", "linear", "quadratic"]), trunc=rng.choice([1, 2, 5]), weight=rng.randrange(3))
    more = dict(eight=rng.random() < 0.5, solve=definition.least)
    moves = "swap" if shape["shape"] == "quadratic" or rng.random() < 0.3 else "expansion"
    words = ["--smooth", shape["shape"], "--trunc", shape["trunc"], "--weight", shape["weight"], "--moves", moves]
    rest = ["--neighbours", 8 if more["eight"] else 4, "--no-scale"]
    command = rng.choice(["restore", "stereo", "segment"])
    path = folder / "in.pgm"
    if command == "restore":
        pgm(path, (width, maxval, first))
        return command, path, words + rest, definition.restore(width, maxval, first, **shape, **more)
    if command == "stereo":
        labels, cap = rng.randrange(1, 4), rng.randrange(4)
        pgm(path, (width, maxval, first), (width, maxval, second))
        words += ["--labels", labels, "--cap", cap]
        return command, path, words + rest, definition.stereo(width, first, second, labels=labels, cap=cap, **shape, **more)
    seeds = [1, 2] + [rng.choice([0, 0, 0, 1, 2]) for _ in range(count - 2)]
    low, high, strong, weak, edge = (rng.randrange(4) for _ in range(5))
    pgm(path, (width, maxval, first), (width, 2, seeds))
    words = ["--low", low, "--high", high, "--strong", strong, "--weak", weak, "--edge", edge]
    return command, path, words + rest, definition.segment(width, first, seeds, low, high, strong, weak, edge, **more)


def written(path):
    """The samples of a written PGM picture of 8 bits."""
    data = path.read_bytes()
    width, height = map(int, data.split(None, 3)[1:3])
    return list(data[-width * height:])


def tiny_pictures(folder, count):
    """Each bound is at most the least energy of all labellings. The line is one more, and --refine adds none and never ends above."""
    rng, met, lower = random.Random(18), 0, 0
    out, plain = folder / "out.pgm", folder / "plain.pgm"
    for turn in range(count):
        command, path, words, (least, problem) = picture_case(rng, folder)
        passes = ["--passes", rng.choice([1, 2, 20, 1000])] if rng.random() < 0.5 else []
        refine = ["--refine"] if turn % 2 else []
        status, told, wrong = run(command, path, out, *words, "--gap", *refine, *passes)
        assert status == 0 and told == "", (command, words, wrong)
        *before, line = wrong.splitlines()
        energy = energy_in(before[-1])
        low = bound_in(line, energy)
        labels = written(out)
        assert low <= least <= energy == sum(definition.energies(problem, labels)), (command, words, wrong, least)
        met += low == least
        status, _, wrong = run(command, path, plain, *words, *refine, *passes)
        assert (status, wrong.splitlines(), written(plain)) == (0, before, labels), (command, words, wrong)
        if refine:
            status, _, wrong = run(command, path, plain, *words)
            assert status == 0 and energy <= energy_in(wrong.splitlines()[-1]), (command, words, wrong, energy)
            lower += written(plain) != labels
    assert 2 * met > count and 0 < lower, (met, lower)
    return f"{count} tiny pictures, of {met} the bound is the least energy, and {lower} end elsewhere with --refine"


def starts(folder):
    """Without a cycle the labels are those that the bound tells, of four labels after a quarter of the passes, or all are 0 if that is lower. With
    --refine alone no bound is said, and of two labels none is looked for."""
    import gco
    rng = random.Random(4)
    for _ in range(20):
        samples = [rng.randrange(4) for _ in range(12)]
        path = pgm(folder / "in.pgm", (4, 3, samples))
        words = ["restore", path, folder / "out.pgm", "--weight", 1, "--no-scale", "--cycles", 0]
        assert run(*words)[0] == 0 and written(folder / "out.pgm") == [0] * 12
        status, _, wrong = run(*words, "--refine", "--passes", 7)
        assert status == 0 and "least" not in wrong
        data = [[abs(sample - label) for label in range(4)] for sample in samples]
        pairs = [(p, q, 1) for p, q in definition.neighbours(4, 3, False)]
        start = [int(label) for label in gco.lower_bound(data, gco.potts(4), pairs, passes=2).labels]
        told, plain = (gco.label(data, gco.potts(4), pairs, cycles=0, start=labels).energy for labels in (start, [0] * 12))
        assert written(folder / "out.pgm") == (start if told <= plain else [0] * 12) and energy_in(wrong.splitlines()[-1]) == min(told, plain)
    path = pgm(folder / "two.pgm", (4, 1, [0, 1, 1, 0, 1, 0, 0, 0]))
    assert run("restore", path, folder / "out.pgm", "--weight", 1, "--no-scale", "--cycles", 0, "--refine")[0] == 0
    assert written(folder / "out.pgm") == [0] * 8


def told(command, files, words, folder, *more):
    """The energy of a run with --gap, and its last line."""
    status, _, wrong = run(command, *(TOP / name for name in files), folder / "out.png", *words, "--gap", *more)
    assert status == 0, wrong
    *before, line = wrong.splitlines()
    return energy_in(before[-1]), line


def page_rows():
    """The rows of the table in docs/IMAGES.md: the words of a command, and what it says: energy and share from 0, and with --refine."""
    number = r" ([\d,.]+) \|"
    rows = re.findall(r"^\| `(\w+ examples/[^`]+)` \|" + 4 * number, (TOP / "docs" / "IMAGES.md").read_text(), re.MULTILINE)
    assert len(rows) >= 8, rows
    for words, *cells in rows:
        command, *rest = words.split()
        yield command, [word for word in rest if "/" in word], [word for word in rest if "/" not in word], cells


def example_pictures(folder):
    """What the page says of the examples is so, and no run is below a bound."""
    lower, count = 0, 0
    for command, files, words, cells in page_rows():
        today, line = told(command, files, words, folder)
        refined, other = told(command, files, words, folder, "--refine")
        low = bound_in(line, today)
        assert bound_in(other, refined) == low <= refined <= today, (files, words, line, other)
        if all(name.endswith(".pgm") for name in files):  # what a JPEG decoder makes of a picture may differ
            seen = [f"{today:,}", SHARE_SAID.search(line).group(1), f"{refined:,}", SHARE_SAID.search(other).group(1)]
            assert seen == cells, (files, words, seen, cells)
        lower, count = lower + (refined < today), count + 1
    return f"{count} runs over examples, {lower} of them end lower with --refine"


def colours(folder):
    """Each of the three runs over a colour picture has its bound."""
    grey = np.asarray(Image.open(EXAMPLES / "noisy.pgm")).astype(np.uint8)[:24, :24]
    Image.fromarray(np.dstack([grey, grey.T, grey[::-1]])).save(folder / "colour.png")
    status, _, wrong = run("restore", folder / "colour.png", folder / "out.png", "--levels", 8, "--weight", 1, "--chroma", 1, "--gap")
    lines = wrong.splitlines()[-6:]
    assert status == 0 and [line.split()[0] for line in lines] == ["energy", "least", "Cb", "least", "Cr", "least"], wrong
    for energy, bound in zip(lines[::2], lines[1::2]):
        assert 0 < bound_in(bound, energy_in(energy)) <= energy_in(energy)


def plots(folder):
    """--plot draws the bound under the energy where --gap or --refine asks for it."""
    words = ["restore", EXAMPLES / "noisy.pgm", folder / "out.png", "--weight", 4, "--plot", folder / "plot.png"]
    try:
        from matplotlib.figure import Figure
    except ImportError:
        status, _, wrong = run(*words, "--gap")
        assert status == 1 and "--plot wants matplotlib" in wrong and not (folder / "plot.png").exists(), wrong
        return "without matplotlib"
    drawn, save = [], Figure.savefig

    def kept(figure, name):
        drawn.append({line.get_label(): [int(y) for y in line.get_ydata()] for line in figure.axes[0].get_lines()})
        save(figure, name)

    Figure.savefig = kept
    try:
        for more, bounded in (["--gap"], True), (["--refine", "--gap"], True), ([], False):
            status, _, wrong = run(*words, *more)
            assert status == 0, wrong
            lines, said = drawn.pop(), wrong.splitlines()
            assert {"energy", "data", "smooth"} <= set(lines) and ("least at least" in lines) == bounded, (more, lines.keys())
            energy = energy_in(said[-2] if bounded else said[-1])
            assert lines["energy"][-1] == energy and all(a >= b for a, b in zip(lines["energy"], lines["energy"][1:]))
            if bounded:
                assert set(lines["least at least"]) == {bound_in(said[-1], energy)}
            assert Image.open(folder / "plot.png").size[0] > 200
    finally:
        Figure.savefig = save
    return "with matplotlib"


def refused_pictures(folder):
    """Words that are wrong end with 2, a picture that goes by tiles with 1, and nothing is written."""
    out = folder / "none.png"
    for words in (["--passes", 0], ["--passes", 1001], ["--passes", "many"], ["--passes"], ["--gap", 5], ["--refine=yes"]):
        status, told, wrong = run("restore", EXAMPLES / "noisy.pgm", out, *words)
        assert status == 2 and told == "" and not out.exists(), (words, status, wrong)
    large = pgm(folder / "large.pgm", (2048, 1, [0] * (2048 * 513)))
    status, _, wrong = run("restore", large, out, "--weight", 1, "--refine")
    assert status == 1 and "at most 1,048,576 pixels" in wrong and "--fit" in wrong and not out.exists(), wrong
    status, _, wrong = run("restore", EXAMPLES / "noisy.pgm", out, "--smooth", "quadratic", "--trunc", 9, "--weight", 1, "--gap")
    assert status == 1 and "refused 24" in wrong and "least at least" not in wrong and not out.exists(), wrong
    status, told, wrong = run("restore", EXAMPLES / "noisy.pgm", out, "--gap", "--quiet")
    assert (status, told, wrong) == (0, "", "") and out.exists()


def toml_of(data, smooth, pairs, costs, start=None, moves="expansion"):
    lists = {"data": [*itertools.chain(*data)], "smooth": [*itertools.chain(*smooth)], "pairs": [list(pair) for pair in pairs]}
    if costs:
        lists["label_costs"] = costs
    if start:
        lists["start"] = start
    return "".join([f"sites = {len(data)}\nlabels = {len(smooth)}\nmoves = '{moves}'\n", *(f"{name} = {values}\n" for name, values in lists.items())])


def problem_files(folder, count):
    """`label --gap` and `--refine` against every labelling, with label costs and without."""
    try:
        import tomllib
    except ImportError:
        try:
            import tomli
        except ImportError:
            return "without tomllib"
    rng, path = random.Random(27), folder / "p.toml"
    for turn in range(count):
        sites, k = rng.randrange(1, 6), rng.randrange(1, 4)
        data = [[rng.randrange(20) for _ in range(k)] for _ in range(sites)]
        top = rng.choice([1, 4])
        smooth = [[min((a - b) ** 2, top) if turn % 3 == 0 else int(a != b) for b in range(k)] for a in range(k)]
        pairs = [(*rng.sample(range(sites), 2), rng.randrange(4)) for _ in range(rng.randrange(6) if sites > 1 else 0)]
        costs = [rng.randrange(5) for _ in range(k)] if turn % 4 == 1 else []
        problem = Problem(data, smooth, pairs, costs)
        least = min(map(problem.energy, itertools.product(range(k), repeat=sites)))
        path.write_text(toml_of(data, smooth, pairs, costs, moves="expansion" if turn % 3 else "swap" if not costs else "expansion"))
        ends = []
        for more in [], ["--refine"], ["--refine", "--gap"], ["--gap", "--bound"]:
            status, told, wrong = run("label", path, *more)
            if status == 1 and costs:  # an expansion over costs that are no metric
                assert wrong.startswith("refused 24"), wrong
                break
            assert (status, wrong) == (0, ""), wrong
            lines = told.splitlines()
            energy = energy_in(lines[0] + " ")
            assert energy == problem.energy([int(label) for label in lines[1].split()[1:]]) >= least
            assert len(lines) == 2 + ("--gap" in more) + ("--bound" in more), lines
            if "--gap" in more:
                assert bound_in(lines[-1], energy) <= least, (told, least)
            ends.append(lines[:2])
        else:
            assert ends[0] == ends[3] and ends[1] == ends[2] and energy_in(ends[1][0] + " ") <= energy_in(ends[0][0] + " ")
    assert run("label", EXAMPLES / "districts.toml", "--gap")[1].endswith("\nleast at least 27: at most 0 % above the least energy\n")
    path.write_text(toml_of([[0, 5], [5, 0]], [[0, 1], [1, 0]], [(0, 1, 2)], [], start=[1, 1]))
    assert run("label", path, "--gap")[0] == 0
    status, told, wrong = run("label", path, "--refine")
    assert (status, told) == (1, "") and "has a start" in wrong, wrong
    for words in (["--passes", 0], ["--passes", "x"], ["--plot", "e.png"]):
        status, told, wrong = run("label", path, "--gap", *words)
        assert (status, told) == (2, ""), (words, wrong)
    path.write_text("sites = 2\nlabels = 2\ndata = [0,0,0,0]\npairs = [[0, 2]]")
    status, told, wrong = run("label", path, "--gap")
    assert (status, told, wrong.splitlines()[0]) == (1, "", "refused 10 pair 0"), wrong
    piped = subprocess.run([sys.executable, "-m", "gco_proved", "label", "--gap"], input=(EXAMPLES / "districts.toml").read_bytes(), capture_output=True)
    assert piped.returncode == 0 and piped.stdout.endswith(b"\nleast at least 27: at most 0 % above the least energy\n"), piped
    return f"{count} problem files"


def all_of_it(folder):
    said_of = [problem_files(folder, 200)]
    if np is None:
        status, told, wrong = run("restore", EXAMPLES / "noisy.pgm", folder / "a.png", "--gap")
        assert (status, told) == (1, "") and "pictures want" in wrong and not (folder / "a.png").exists(), wrong
        return said_of + ["without numpy and Pillow: no picture was read"]
    said_of += [tiny_pictures(folder, 200), example_pictures(folder)]
    starts(folder)
    colours(folder)
    refused_pictures(folder)
    return said_of + [plots(folder)]


made = pathlib.Path(tempfile.mkdtemp())
try:
    print("python -m gco --gap and --refine:", ", ".join(all_of_it(made)))
finally:
    shutil.rmtree(made)
