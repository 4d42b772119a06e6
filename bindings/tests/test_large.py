"""python -m gco on pictures above the limit of one problem: by tiles, against what is known of made pictures."""
import contextlib
import io
import os
import pathlib
import re
import shutil
import signal
import subprocess
import sys
import tempfile
import unittest.mock

try:
    import numpy as np
    from PIL import Image
except ImportError:
    print("python -m gco by tiles: numpy or Pillow is missing, not tried (Debian: apt-get install python3-numpy python3-pil)")
    sys.exit(0)
from gco_proved.__main__ import main
from gco_proved.tiles import WorkerDied

SHAPE = (1000, 1100)


def said(status, *parts, of=()):
    """A command that ends with that status and says these words; answers what it said."""
    told = io.StringIO()
    with contextlib.redirect_stdout(told), contextlib.redirect_stderr(told):
        try:
            got = main([str(word) for word in of])
        except SystemExit as end:
            got = end.code
    assert got == status, (of, got, told.getvalue())
    for part in parts:
        assert part in told.getvalue(), (of, part, told.getvalue())
    return told.getvalue()


def line_of(data, smooth):
    return f"energy {data + smooth} data {data} smooth {smooth}\n"


def restored(folder):
    """Squares of four greys with noise: the energy that is told is that of the labels, from any number of processes."""
    rng = np.random.default_rng(1)
    clean = (np.add.outer(np.arange(SHAPE[0]) // 50, np.arange(SHAPE[1]) // 70) % 4).astype(np.uint8)
    noisy = np.where(rng.random(SHAPE) < 0.2, rng.integers(0, 4, SHAPE), clean).astype(np.uint8)
    (folder / "noisy.pgm").write_bytes(b"P5\n1100 1000\n3\n" + noisy.tobytes())
    options = ("--levels", 4, "--smooth", "potts", "--weight", 1, "--no-scale")
    answers = []
    for jobs, tile in ((1, 256), (2, 256), (2, 500)):
        out = folder / f"restored{jobs}-{tile}.png"
        text = said(0, "1,100 x 1,000 = 1,100,000 pixels: it goes by tiles of", f"{tile} x {tile}, by", "energy",
                    of=("restore", folder / "noisy.pgm", out, *options, "--jobs", jobs, "--tile", tile))
        labels = np.asarray(Image.open(out)).astype(int)
        data = int(abs(labels - noisy).sum())
        smooth = int((labels[:, 1:] != labels[:, :-1]).sum() + (labels[1:] != labels[:-1]).sum())
        assert text.endswith(line_of(data, smooth)), (text, data, smooth)
        wrong = (labels != clean).mean()
        assert wrong < 0.02 < 0.14 < (noisy != clean).mean(), wrong
        answers.append(out.read_bytes())
    assert answers[0] == answers[1] != answers[2]
    bounded(folder / "noisy.pgm", folder / "bounded.png", options, int(text.split()[-5]))
    said(0, of=("restore", folder / "noisy.pgm", folder / "swapped.png", "--levels", 4, "--moves", "swap", "--neighbours", 8, "--bound"))
    said(1, "--refine takes a picture of at most 1,048,576 pixels", of=("restore", folder / "noisy.pgm", folder / "no.png", "--levels", 4, "--refine"))
    said(1, "label-cost", "no sum over tiles", "--fit", of=("restore", folder / "noisy.pgm", folder / "no.png", "--levels", 4, "--label-cost", 5))
    said(1, "--plot draws moves", "--fit", of=("restore", folder / "noisy.pgm", folder / "no.png", "--levels", 4, "--plot", folder / "no.svg"))
    assert not (folder / "no.png").exists()
    said(0, of=("restore", folder / "noisy.pgm", folder / "fits.png", "--levels", 2, "--cycles", 1, "--fit"))
    assert Image.open(folder / "fits.png").size[0] * Image.open(folder / "fits.png").size[1] <= 1048576
    said(0, of=("restore", folder / "noisy.pgm", folder / "none.png", "--levels", 4, "--cycles", 0))
    assert not np.asarray(Image.open(folder / "none.png")).any()


def bounded(picture, out, options, energy):
    """The bound that --gap tells is not above an energy that was found."""
    text = said(0, "least at least", of=("restore", picture, out, *options, "--jobs", 2, "--gap", "--passes", 8, "--progress"))
    found, low = (int(word) for word in re.search(r"^energy (\d+) .*\nleast at least (\d+): at most [\d.]+ % above", text, re.M).groups())
    assert 0.9 * found < low <= min(found, energy), text
    assert "bound" in text and f"{low}" in text.split("energy")[-2], text


def matched(folder):
    """A texture, of which the upper half is 5 columns further left in the right picture, and the lower half 9."""
    rng = np.random.default_rng(2)
    left = rng.integers(0, 256, SHAPE).astype(np.uint8)
    wanted = np.full(SHAPE, 5)
    wanted[500:] = 9
    right = rng.integers(0, 256, SHAPE).astype(np.uint8)
    right[:500, :-5] = left[:500, 5:]
    right[500:, :-9] = left[500:, 9:]
    Image.fromarray(left).save(folder / "left.png")
    Image.fromarray(right).save(folder / "right.png")
    text = said(0, "by tiles", of=("stereo", folder / "left.png", folder / "right.png", folder / "disparities.png", "--labels", 12, "--jobs", 2))
    labels = np.asarray(Image.open(folder / "disparities.png")).astype(int)
    assert (labels[:, 12:] == wanted[:, 12:]).mean() > 0.999
    columns = np.arange(SHAPE[1]) - labels
    apart = np.minimum(abs(left.astype(int) - right[np.arange(SHAPE[0])[:, None], columns.clip(0)]), 30)
    data = int(np.where(columns < 0, 30, apart).sum())
    steps = [np.minimum(abs(labels[:, 1:] - labels[:, :-1]), 4), np.minimum(abs(labels[1:] - labels[:-1]), 4)]
    assert text.endswith(line_of(data, 8 * sum(int(step.sum()) for step in steps))), text


def segmented(folder):
    """A disc on a ground of another grey, by two strokes one pixel wide; in grey and in colour."""
    rng = np.random.default_rng(3)
    rows, columns = np.ogrid[:SHAPE[0], :SHAPE[1]]
    disc = (rows - 470) ** 2 + (columns - 600) ** 2 < 310 ** 2
    grey = (np.where(disc, 150, 90) + rng.integers(-2, 3, SHAPE)).astype(np.uint8)
    Image.fromarray(grey).save(folder / "disc.png")
    strokes = np.zeros((*SHAPE, 3), dtype=np.uint8)
    strokes[470, 500:700] = (255, 0, 0)
    strokes[40, 100:900] = strokes[20:980, 40] = (0, 0, 255)
    Image.fromarray(strokes).save(folder / "strokes.png")
    text = said(0, "by tiles", of=("segment", folder / "disc.png", folder / "strokes.png", folder / "segments.png", "--jobs", 2))
    labels = np.asarray(Image.open(folder / "segments.png")) // 255
    assert ((labels == 0) == disc).all(), ((labels == 0) != disc).sum()
    drawn = np.where(strokes[..., 0] > 0, 1, np.where(strokes[..., 2] > 0, 2, 0))
    data = int(np.where(drawn, 0, abs(grey.astype(int) - 128)).sum())
    smooth = 0
    for one, other in ((np.s_[:, 1:], np.s_[:, :-1]), (np.s_[1:], np.s_[:-1])):
        alike = abs(grey[one].astype(int) - grey[other]) <= 8
        smooth += int((np.where(alike, 100, 3) * (labels[one] != labels[other])).sum())
    assert text.endswith(line_of(data, smooth)), (text, data, smooth)
    colours = np.where(disc[..., None], (200, 90, 60), (60, 120, 90)) + rng.integers(-5, 6, (*SHAPE, 3))
    Image.fromarray(colours.astype(np.uint8)).save(folder / "colours.png")
    said(0, "--like colours", "by tiles", of=("segment", folder / "colours.png", folder / "strokes.png", folder / "by colours.png", "--rounds", 2))
    labels = np.asarray(Image.open(folder / "by colours.png")) // 255
    assert ((labels == 0) == disc).mean() > 0.9999
    # a colour photograph keeps its colours: its luminance alone changes
    said(0, "its colours are kept", of=("restore", folder / "colours.png", folder / "kept.png", "--levels", 8))
    kept = np.asarray(Image.open(folder / "kept.png")).astype(int)
    assert kept.shape == (*SHAPE, 3)
    moved = kept - colours
    inside = ((kept > 0) & (kept < 255)).all(axis=2)
    assert (np.ptp(moved, axis=2)[inside] <= 1).all()


def chroma_restored(folder):
    """--chroma takes the noise out of the colours too, which stay near where they were without it."""
    rng = np.random.default_rng(4)
    rows, columns = np.ogrid[:SHAPE[0], :SHAPE[1]]
    blocks = ((rows // 90 + columns // 110) % 2).astype(bool)[..., None]
    clean = np.where(blocks, (170, 110, 90), (90, 130, 160))
    noisy = clean + rng.integers(-40, 41, clean.shape)
    Image.fromarray(noisy.astype(np.uint8)).save(folder / "blocks.png")
    said(0, "Cb energy", "Cr energy", "its colours are restored by --chroma", "by tiles",
         of=("restore", folder / "blocks.png", folder / "blocks out.png", "--levels", 16, "--trunc", 4, "--weight", 2, "--chroma", 3))
    restored = np.asarray(Image.open(folder / "blocks out.png")).astype(int)
    for first, second in ((0, 1), (2, 1)):  # red less green and blue less green do not change with the luminance
        wrong, before = (abs((table[..., first] - table[..., second]) - (clean[..., first] - clean[..., second])).mean() for table in (restored, noisy))
        assert wrong < before / 2, (wrong, before)


def banded(folder):
    """Stripes so fine that the band along their borders is the whole picture, and no one problem: it goes by tiles, and Ctrl-C tells what was found."""
    rows, columns = np.ogrid[:SHAPE[0], :SHAPE[1]]
    stripes = (columns // 6 + rows * 0) % 2
    rng = np.random.default_rng(5)
    grey = (np.where(stripes, 180, 70) + rng.integers(-20, 21, SHAPE)).astype(np.uint8)
    Image.fromarray(grey).save(folder / "stripes.png")
    strokes = np.zeros((*SHAPE, 3), dtype=np.uint8)
    strokes[100:900, 3] = (255, 0, 0)
    strokes[100:900, 9] = (0, 0, 255)
    Image.fromarray(strokes).save(folder / "stripes strokes.png")
    words = ["segment", folder / "stripes.png", folder / "stripes strokes.png", folder / "stripes out.png", "--like", "greys", "--low", 70, "--high", 180, "--jobs", 2, "--progress"]
    told = said(0, "by tiles", "low 70 high 180", of=words)
    tiles = {int(count) for count in re.findall(r"sweep 1\D.*?/(\d+) \[", told)}
    assert tiles == {20}, (tiles, told)
    labels = np.asarray(Image.open(folder / "stripes out.png")) // 255
    assert (labels == stripes).all()
    drawn = np.where(strokes[..., 0] > 0, 1, np.where(strokes[..., 2] > 0, 2, 0))
    data = int(np.where(drawn, 0, abs(grey.astype(int) - np.where(labels, 180, 70))).sum())
    smooth = sum(int((np.where(abs(grey[one].astype(int) - grey[other]) <= 5, 20, 5) * (labels[one] != labels[other])).sum())
                 for one, other in ((np.s_[:, 1:], np.s_[:, :-1]), (np.s_[1:], np.s_[:-1])))
    assert told.endswith(line_of(data, smooth)), (told, data, smooth)
    told = at_word("sweep 1", lambda run: run.send_signal(signal.SIGINT), 130, *words, "--tile", 40)
    assert " tiles: " in told and "is what was found till then" in told, told
    # Ctrl-C over the first of the two bands leaves the segments of the smallest picture
    from gco_proved.pictures import large
    runs = iter([KeyboardInterrupt, large.label_tiles])

    def one_stopped(*words, **more):
        run = next(runs)
        if run is KeyboardInterrupt:
            raise run
        return run(*words, **more)

    with unittest.mock.patch.object(large, "label_tiles", one_stopped):
        said(130, "stopped after one of two runs over the picture made smaller: ", "is what was found till then", of=words)
    assert Image.open(folder / "stripes out.png").size == SHAPE[::-1]


def one_killed(folder):
    """A process that dies is replaced: the picture is that of the undisturbed run. Where each dies, a sentence says so."""
    def kill(run):
        children = pathlib.Path(f"/proc/{run.pid}/task/{run.pid}/children").read_text().split()
        assert len(children) == 2, children
        os.kill(int(children[0]), signal.SIGKILL)

    words = ["restore", folder / "noisy.pgm", folder / "killed.png", "--levels", 4, "--smooth", "potts", "--weight", 1, "--no-scale", "--jobs", 2]
    if os.path.exists("/proc/self/task"):
        at_word("sweep 1", kill, 0, *words, "--progress")
        assert (folder / "killed.png").read_bytes() == (folder / "restored1-256.png").read_bytes()
    with unittest.mock.patch("gco_proved.pictures.large.label_tiles", side_effect=WorkerDied("a worker died 3 times over the tile of place (0, 0)")):
        told = said(1, "a worker died 3 times over the tile of place (0, 0), mostly for want of memory: take fewer --jobs", of=words)
    assert "Traceback" not in told


def at_word(seen, act, status, *words):
    """A command as a process, which is acted on once it says a word, and ends in that status: what it said."""
    script = "import sys; from gco_proved.__main__ import main; sys.exit(main(sys.argv[1:]))"
    run = subprocess.Popen([sys.executable, "-c", script, *map(str, words)], stderr=subprocess.PIPE, text=True, env=os.environ)
    told = ""
    while seen not in told:
        told += run.stderr.read(1)
        assert run.poll() is None, told
    act(run)
    told += run.communicate(timeout=240)[1]
    assert run.returncode == status, (run.returncode, told)
    return told


def stopped(folder):
    """Ctrl-C while tiles are run, over the picture made smaller before them, and over the bound after them: what was found is written."""
    noisy, texture = (folder / "noisy.pgm", "--levels", "4", "--weight", "3"), (folder / "left.png", "--levels", "64", "--weight", "9")
    for (name, *options), seen, said_then in ((noisy, "sweep 1", " tiles: "), (texture, "cycle 1", " moves over the picture made smaller: "),
                                              ((*noisy, "--cycles", "1", "--gap"), "bound", " the sweeps and before the bound: ")):
        out = folder / "stopped.png"
        out.unlink(missing_ok=True)
        told = at_word(seen, lambda run: run.send_signal(signal.SIGINT), 130, "restore", name, out, *options, "--tile", "40", "--progress", "--jobs", "2")
        assert said_then in told and "is what was found till then" in told, told
        assert Image.open(out).size == SHAPE[::-1]


made = pathlib.Path(tempfile.mkdtemp())
try:
    restored(made)
    matched(made)
    segmented(made)
    chroma_restored(made)
    banded(made)
    one_killed(made)
    stopped(made)
    print("python -m gco by tiles: restored, matched, segmented, in a wide band, with a killed process, stopped")
finally:
    shutil.rmtree(made)
