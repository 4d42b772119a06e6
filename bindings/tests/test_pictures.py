"""python -m gco on files: the labels of the program on the same samples, what other readers read, and what is refused, in words.

    test_pictures.py [folder ..]

compares also the restorations and segmentations of the PGM files in these folders. The program is GCO_PROGRAM, else the one of
this checkout where it is built; small pictures are compared with the definitions (tools/tables/pictures_by_definition.py) in any case.
"""
import contextlib
import io
import math
import os
import pathlib
import random
import shutil
import signal
import struct
import subprocess
import sys
import tempfile
import time
import zlib

TOP = pathlib.Path(__file__).resolve().parent.parent.parent
sys.path[:0] = [str(TOP / "tools/pictures"), str(TOP / "tools/tables")]
import make_pictures
import pictures_by_definition as definition
from gco_proved.__main__ import main

EXAMPLES = TOP / "examples"
PROGRAM = os.environ.get("GCO_PROGRAM") or str(TOP / "crates" / "gco" / "out" / "gco")
try:
    import numpy as np
    from PIL import Image
except ImportError:
    np = None


def run(*words):
    """A command: its status, what it says, and what it says went wrong."""
    out, wrong = io.StringIO(), io.StringIO()
    with contextlib.redirect_stdout(out), contextlib.redirect_stderr(wrong):
        try:
            status = main([str(word) for word in words])
        except SystemExit as end:
            status = end.code
    return status, out.getvalue(), wrong.getvalue()


def said(status, *parts, of=()):
    """A command that ends with that status and says these words."""
    got, out, wrong = run(*of)
    assert got == status, (of, got, wrong)
    for part in parts:
        assert part in out + wrong, (of, part, out + wrong)
    return out + wrong


def pgm(path, *pictures):
    """Writes pictures (rows, maxval) one after another."""
    with open(path, "wb") as file:
        for rows, maxval in pictures:
            rows = np.asarray(rows)
            file.write(b"P5\n%d %d\n%d\n" % (rows.shape[1], rows.shape[0], maxval))
            file.write(rows.astype(">u2" if maxval > 255 else "u1").tobytes())
    return path


def samples(path):
    """The samples of a written PGM picture, and its maxval, by a reader of this test's own."""
    data = pathlib.Path(path).read_bytes()
    kind, width, height, maxval = data.split(None, 4)[:4]
    assert kind == b"P5"
    width, height, maxval = int(width), int(height), int(maxval)
    dtype = np.dtype("u1" if maxval < 256 else ">u2")
    return np.frombuffer(data[len(data) - width * height * dtype.itemsize:], dtype).reshape(height, width).astype(int), maxval


def energy_line(text):
    lines = [line for line in text.splitlines() if line.startswith(("energy", "bound"))]
    assert lines, text
    return lines


def by_definition(folder, count):
    rng, commands = random.Random(2), set()
    for turn in range(count):
        height, width = rng.choice([(1, 3), (2, 2), (2, 3), (3, 2), (1, 5), (4, 1)])
        maxval = rng.choice([1, 2, 3])
        first, second = ([rng.randrange(maxval + 1) for _ in range(width * height)] for _ in range(2))
        shape = dict(shape=rng.choice(["potts", "linear"]), trunc=rng.choice([1, 2, 5]), weight=rng.randrange(3), swaps=rng.random() < 0.3)
        more = dict(eight=rng.random() < 0.5, cycles=rng.choice([1, 2, 100]))
        words = ["--smooth", shape["shape"], "--trunc", shape["trunc"], "--weight", shape["weight"], "--moves", "swap" if shape["swaps"] else "expansion"]
        rest = ["--neighbours", 8 if more["eight"] else 4, "--cycles", more["cycles"], "--no-scale", "--progress" if turn % 2 else "--quiet"]
        rows = lambda flat: np.array(flat).reshape(height, width)
        command = rng.choice(["restore", "stereo", "segment"])
        commands.add(command)
        if command == "restore":
            pgm(folder / "in.pgm", (rows(first), maxval))
            wanted = definition.restore(width, maxval, first, **shape, **more)
        elif command == "stereo":
            pgm(folder / "in.pgm", (rows(first), maxval), (rows(second), maxval))
            labels, cap = rng.randrange(1, 4), rng.randrange(4)
            words += ["--labels", labels, "--cap", cap]
            wanted = definition.stereo(width, first, second, labels=labels, cap=cap, **shape, **more)
        else:
            seeds = [rng.choice([0, 0, 0, 1, 2]) for _ in first]
            pgm(folder / "in.pgm", (rows(first), maxval), (rows(seeds), 2))
            low, high, strong, weak, edge = rng.randrange(4), rng.randrange(4), rng.randrange(4), rng.randrange(3), rng.randrange(2)
            if low == high and not {1, 2} <= set(seeds):
                high += 1
            words = ["--low", low, "--high", high, "--strong", strong, "--weak", weak, "--edge", edge]
            wanted = definition.segment(width, first, seeds, low, high, strong, weak, edge, **more)
        status, _, wrong = run(command, folder / "in.pgm", folder / "out.pgm", *words, *rest)
        assert status == 0, (command, words, wrong)
        assert samples(folder / "out.pgm")[0].ravel().tolist() == list(wanted[0]), (turn, command, words, rest, wanted)
    assert len(commands) == 3


def same_as_program(folder, command, path, *words, levels=None):
    """The labels and lines of a command and of the program on one file."""
    got, _, wrong = run(command, path, folder / "ours.pgm", "--no-scale", *words, *(["--levels", levels] if levels else []))
    assert got == 0, wrong
    data = pathlib.Path(path).read_bytes()
    if levels:
        grey, maxval = samples(path)
        data = pgm(folder / "levels.pgm", ((grey * (levels - 1) + maxval // 2) // maxval, levels - 1)).read_bytes()
    theirs = subprocess.run([PROGRAM, command, *map(str, words)], input=data, capture_output=True)
    assert theirs.returncode == 0, theirs.stderr
    (folder / "theirs.pgm").write_bytes(theirs.stdout)
    assert (samples(folder / "ours.pgm")[0] == samples(folder / "theirs.pgm")[0]).all(), (command, path, words)
    assert energy_line(wrong) == theirs.stderr.decode().splitlines(), (wrong, theirs.stderr)


def against_program(folder, folders):
    """Ten pictures and more, each command, by the program and by Python."""
    if not os.path.exists(PROGRAM):
        return "without the program"
    pictures = {name: EXAMPLES / name for name in ("noisy.pgm", "dots.pgm", "seeded.pgm", "camera64.pgm")}
    grey = samples(pictures["camera64.pgm"])[0]
    for seed in (1, 2, 3):
        noisy = make_pictures.noisy(grey.ravel().tolist(), make_pictures.numbers(seed))
        pictures[f"noisy{seed}"] = pgm(folder / f"noisy{seed}.pgm", (np.array(noisy).reshape(64, 64), 15))
        left, right = make_pictures.stereogram(64, 48, make_pictures.numbers(seed))
        pictures[f"dots{seed}"] = pgm(folder / f"dots{seed}.pgm", (np.array(left).reshape(48, 64), 255), (np.array(right).reshape(48, 64), 255))
    wide = pgm(folder / "wide.pgm", (grey * 257, 65535), (np.array(make_pictures.seeds(64, 64)).reshape(64, 64), 2))
    runs = [("restore", pictures["noisy.pgm"], "--weight", 4), ("restore", pictures["noisy.pgm"], "--weight", 4, "--label-cost", 50, "--bound"),
            ("restore", pictures["noisy1"], "--smooth", "linear", "--trunc", 3, "--weight", 2, "--bound"),
            ("restore", pictures["noisy2"], "--weight", 3, "--neighbours", 8, "--moves", "swap", "--bound"),
            ("restore", pictures["noisy3"], "--smooth", "quadratic", "--trunc", 9, "--weight", 1, "--moves", "swap", "--cycles", 2),
            ("restore", pictures["camera64.pgm"], "--cycles", 1, "--weight", 20),
            ("stereo", pictures["dots.pgm"], "--labels", 8, "--weight", 30, "--cap", 80),
            ("stereo", pictures["dots1"], "--smooth", "linear", "--trunc", 3, "--labels", 9, "--weight", 20, "--cap", 60, "--bound"),
            ("stereo", pictures["dots2"], "--labels", 1, "--weight", 1),
            ("stereo", pictures["dots3"], "--labels", 70, "--weight", 1, "--cycles", 1),
            ("segment", pictures["seeded.pgm"], "--low", 40, "--high", 170, "--strong", 90, "--weak", 40, "--edge", 60),
            ("segment", wide, "--low", 10000, "--high", 43690, "--strong", 1000, "--weak", 100, "--edge", 3000, "--neighbours", 8)]
    for command, path, *words in runs:
        same_as_program(folder, command, path, *words)
    same_as_program(folder, "restore", pictures["camera64.pgm"], "--smooth", "linear", "--trunc", 8, levels=32)
    same_as_program(folder, "restore", pictures["camera64.pgm"], "--weight", 3, levels=7)
    count = len(runs) + 2
    for path in sorted(path for name in folders for path in pathlib.Path(name).glob("*.pgm")):
        two = len(path.read_bytes().split(b"P5")) > 2
        if two:
            same_as_program(folder, "segment", path, "--low", 60, "--high", 170, "--strong", 60, "--weak", 20, "--edge", 20)
        else:
            same_as_program(folder, "restore", path, "--weight", 2, levels=8 if b"\n255\n" in path.read_bytes()[:20] else None)
        count += 1
    return f"{count} runs as the program"


GREY_LINE = "restore --like photo: levels 32 smooth linear trunc 8 weight 1\n"


def kinds_of_files(folder):
    """What Pillow reads comes in, and 8 and 16 bits come out as other readers read them."""
    grey, _ = samples(EXAMPLES / "camera64.pgm")
    Image.fromarray(grey.astype(np.uint8)).save(folder / "grey.png")
    said(0, "restore --like photo: levels 32 smooth linear trunc 8 weight 1", of=("restore", folder / "grey.png", folder / "a.png"))
    said(0, "stereo --like scene: labels 8 smooth linear trunc 4 weight 8 cap 30",
         of=("stereo", EXAMPLES / "dots.pgm", folder / "s.pgm", "--labels", 8))
    kept = np.asarray(Image.open(folder / "a.png")).astype(int)
    assert kept.shape == (64, 64) and set(np.unique(kept)) <= {(255 * 2 * level + 31) // 62 for level in range(32)}
    pgm(folder / "levels.pgm", ((grey * 31 + 127) // 255, 31))
    said(0, of=("restore", folder / "levels.pgm", folder / "b.png", "--smooth", "linear", "--trunc", 8, "--weight", 1))
    assert (np.asarray(Image.open(folder / "b.png")) == kept).all()
    # colour, with alpha, with a palette: grey by Pillow's own rule
    colour = Image.fromarray(np.dstack([grey, grey[::-1], grey.T]).astype(np.uint8))
    colour.convert("L").save(folder / "made-grey.png")
    said(0, of=("restore", folder / "made-grey.png", folder / "wanted.png"))
    wanted = Image.open(folder / "wanted.png").tobytes()
    alpha = colour.copy()
    alpha.putalpha(255)
    colour.save(folder / "colour.tif")
    alpha.save(folder / "alpha.png")
    for name in ("colour.tif", "alpha.png"):
        text = said(0, of=("restore", folder / name, folder / "c.png", "--grey"))
        assert Image.open(folder / "c.png").tobytes() == wanted and text.startswith(GREY_LINE + "energy ") and text.count("\n") == 2, (name, text)
    colour.quantize(64).save(folder / "palette.gif")
    colour.save(folder / "photo.jpg", quality=95)
    for name in ("palette.gif", "photo.jpg"):
        said(0, of=("restore", folder / name, folder / "c.png", "--grey"))
        assert abs(np.asarray(Image.open(folder / "c.png")).astype(int) - np.asarray(Image.open(folder / "wanted.png"))).mean() < 8
    # 16 bits in and out; a picture of one bit
    Image.fromarray((grey * 257).astype(np.uint16)).save(folder / "wide.png")
    said(1, "65,536 grey levels", "--levels 32", of=("restore", folder / "wide.png", folder / "no.png", "--weight", 3))
    assert not (folder / "no.png").exists()
    for name in ("wide-out.png", "wide-out.pgm", "wide-out.tif"):
        said(0, of=("restore", folder / "wide.png", folder / name))
        out = np.asarray(Image.open(folder / name)).astype(int) if not name.endswith("pgm") else samples(folder / name)[0]
        assert (out == (65535 * 2 * ((kept * 31 + 127) // 255) + 31) // 62).all() and out.max() > 255, name
    said(0, of=("restore", folder / "wide.png", folder / "narrow.png", "--bits", 8))
    assert (np.asarray(Image.open(folder / "narrow.png")) == kept).all()
    Image.fromarray(grey > 100).save(folder / "bit.png")
    said(0, of=("restore", folder / "bit.png", folder / "d.png", "--weight", 0))
    assert (np.asarray(Image.open(folder / "d.png")) == 255 * (grey > 100)).all()


def disparities(folder):
    """Disparities are read as they are, by Pillow too; --scale makes them visible."""
    run("stereo", EXAMPLES / "dots.pgm", folder / "s.pgm", "--labels", 8, "--weight", 30, "--cap", 80)
    kept, maxval = samples(folder / "s.pgm")
    assert maxval == 255 and {0, 2, 4, 6} <= set(np.unique(kept)) <= set(range(8))
    for name in ("s.png", "s.tif"):
        run("stereo", EXAMPLES / "dots.pgm", folder / name, "--labels", 8, "--weight", 30, "--cap", 80)
        assert (np.asarray(Image.open(folder / name)) == kept).all()
    assert (np.asarray(Image.open(folder / "s.pgm")) == kept).all()
    run("stereo", EXAMPLES / "dots.pgm", folder / "w.png", "--labels", 8, "--weight", 30, "--cap", 80, "--bits", 16)
    assert (np.asarray(Image.open(folder / "w.png")) == kept).all()
    run("stereo", EXAMPLES / "dots.pgm", folder / "v.png", "--labels", 8, "--weight", 30, "--cap", 80, "--scale")
    assert (np.asarray(Image.open(folder / "v.png")) == (kept * 255 * 2 + 7) // 14).all()
    left, right = (np.array(one, dtype=np.uint8).reshape(64, 96) for one in make_pictures.stereogram(96, 64, make_pictures.numbers(1960)))
    Image.fromarray(left).save(folder / "left.png")
    Image.fromarray(right).save(folder / "right.png")
    said(0, of=("stereo", folder / "left.png", folder / "right.png", folder / "t.png", "--labels", 8, "--weight", 30, "--cap", 80))
    assert (np.asarray(Image.open(folder / "t.png")) == kept).all()
    said(1, "a JPG picture does not keep labels", of=("stereo", EXAMPLES / "dots.pgm", folder / "s.jpg", "--labels", 8))
    said(0, "--like scene: labels 16 smooth linear trunc 4 weight 8 cap 30", of=("stereo", EXAMPLES / "dots.pgm", folder / "s.png"))


def seeds(folder):
    """Strokes of red and blue, and masks of any three values."""
    words = ("--low", 40, "--high", 170, "--strong", 90, "--weak", 40, "--edge", 60)
    said(0, of=("segment", EXAMPLES / "seeded.pgm", folder / "g.png", *words))
    wanted = np.asarray(Image.open(folder / "g.png"))
    assert sorted(np.unique(wanted)) == [0, 255]
    grey, _ = samples(EXAMPLES / "camera64.pgm")
    drawn = np.array(make_pictures.seeds(64, 64)).reshape(64, 64)
    Image.fromarray(grey.astype(np.uint8)).save(folder / "in.png")
    for name, values in (("paint", (0, 128, 255)), ("odd", (17, 99, 201)), ("as they are", (0, 1, 2))):
        Image.fromarray(np.array(values, dtype=np.uint8)[drawn]).save(folder / f"{name}.png")
    over = np.dstack([grey] * 3).astype(np.uint8)
    over[drawn == 1], over[drawn == 2] = (230, 20, 20), (30, 40, 240)
    Image.fromarray(over).save(folder / "strokes.png")
    Image.fromarray(over).convert("P", palette=Image.ADAPTIVE).save(folder / "palette.png")
    for name in ("paint", "odd", "as they are", "strokes", "palette"):
        said(0, of=("segment", folder / "in.png", folder / f"{name}.png", folder / "h.png", *words))
        assert (np.asarray(Image.open(folder / "h.png")) == wanted).all(), name
    said(0, of=("segment", folder / "in.png", folder / "paint.png", folder / "i.png", *words, "--no-scale"))
    assert (np.asarray(Image.open(folder / "i.png")) * 255 == wanted).all()
    said(0, "--like edges: low 128 high 128 strong 100 weak 3 edge 8", of=("segment", folder / "in.png", folder / "paint.png", folder / "j.png"))
    median = int(np.median(grey[drawn == 1])), int(np.median(grey[drawn == 2]))
    said(0, "low %d high %d" % median, of=("segment", folder / "in.png", folder / "paint.png", folder / "k.png", "--like", "greys"))
    Image.fromarray((grey // 2).astype(np.uint8)).save(folder / "many.png")
    said(2, "greys, and seeds have three", "red", of=("segment", folder / "in.png", folder / "many.png", folder / "no.png", *words))
    said(2, "there are no seeds", of=("segment", folder / "in.png", folder / "no.png"))
    said(2, "no seed of segment 1", of=("segment", folder / "in.png", folder / "no.png", "--like", "greys"))
    Image.fromarray(drawn[:32].astype(np.uint8)).save(folder / "half.png")
    said(1, "64 x 64 pixels", "64 x 32", of=("segment", folder / "in.png", folder / "half.png", folder / "no.png", *words))
    assert not (folder / "no.png").exists()


def strokes(folder):
    """Strokes on a layer, on a sheet and on a copy of the photograph; and what is told of those that say too little."""
    words = ("--low", 40, "--high", 170, "--strong", 90, "--weak", 40, "--edge", 60)
    wanted = np.asarray(Image.open(folder / "g.png"))
    grey = np.asarray(Image.open(folder / "in.png"))
    drawn = np.array(make_pictures.seeds(64, 64)).reshape(64, 64)
    inks = np.array([(0, 0, 0), (230, 20, 20), (30, 40, 240)], dtype=np.uint8)[drawn]
    at = np.argwhere(drawn == 0)[7]

    def layer(alpha, colours=inks):
        return Image.fromarray(np.dstack([colours, np.where(drawn > 0, alpha, 0)]).astype(np.uint8), "RGBA")

    def answers(name, image, more=(), **how):
        image.save(folder / name, **how)
        said(0, of=("segment", folder / "in.png", folder / name, folder / "l.png", *words, *more))
        return np.asarray(Image.open(folder / "l.png"))

    # a stroke is there from an alpha of one half on
    for alpha in (255, 128):
        assert (answers("layer.png", layer(alpha)) == wanted).all()
    nothing = np.asarray(Image.open(folder / "in.png"))
    said(0, of=("segment", folder / "in.png", folder / "m.png", *words))
    without = np.asarray(Image.open(folder / "m.png"))
    assert (answers("erased.png", layer(127)) == without).all() and (without != wanted).any()
    two = np.where(drawn == 2, 255, 40)
    erased = Image.fromarray(np.dstack([inks, np.where(drawn > 0, two, 0)]).astype(np.uint8), "RGBA")
    only = drawn * (drawn == 2)
    Image.fromarray(only.astype(np.uint8)).save(folder / "only.png")
    said(0, of=("segment", folder / "in.png", folder / "only.png", folder / "m.png", *words))
    assert (answers("half erased.png", erased) == np.asarray(Image.open(folder / "m.png"))).all()
    # a grey layer; a palette with a transparent colour; a palette of greys
    greys = np.array([0, 90, 200], dtype=np.uint8)[drawn]
    assert (answers("grey layer.png", Image.fromarray(np.dstack([greys, np.where(drawn > 0, 255, 0)]).astype(np.uint8), "LA")) == wanted).all()
    for name, table in (("red and blue", [0, 0, 0, 220, 0, 0, 0, 0, 220]), ("three greys", [0] * 3 + [128] * 3 + [255] * 3)):
        image = Image.fromarray(drawn.astype(np.uint8), "P")
        image.putpalette(table)
        assert (answers(f"{name}.png", image) == wanted).all(), name
        assert (answers(f"{name} clear.png", image, transparency=0) == wanted).all(), name
    # on white paper; on a grey copy; on a copy in which red and blue things stand
    assert (answers("paper.png", Image.fromarray(np.where(drawn[..., None] > 0, inks, 255).astype(np.uint8))) == wanted).all()
    copy = grey.copy()
    copy[drawn == 1], copy[drawn == 2] = 0, 255
    assert len(np.unique(copy)) > 3 and (np.where(copy != grey, drawn, 0) == drawn).mean() > 0.99
    kept = np.where(copy != grey, drawn, 0)
    Image.fromarray(kept.astype(np.uint8)).save(folder / "kept.seeds.png")
    said(0, of=("segment", folder / "in.png", folder / "kept.seeds.png", folder / "m.png", *words))
    assert (answers("grey copy.png", Image.fromarray(copy)) == np.asarray(Image.open(folder / "m.png"))).all()
    photo = np.dstack([grey, 255 - grey, grey[::-1]])
    photo[:8, :8], photo[-8:, -8:] = (250, 0, 0), (0, 0, 250)
    Image.fromarray(photo).save(folder / "things.png")
    over = np.where(drawn[..., None] > 0, inks, photo)
    Image.fromarray(over).save(folder / "over.png")
    for name, seeds_of_it in (("over.png", np.where((over != photo).any(axis=2), drawn, 0)),):
        Image.fromarray(seeds_of_it.astype(np.uint8)).save(folder / "plain.png")
        said(0, "edges: low 128", "has colours, which are read as grey", of=("segment", folder / "things.png", folder / "plain.png", folder / "p.png", "--like", "edges"))
        said(0, of=("segment", folder / "things.png", folder / name, folder / "q.png", "--like", "edges"))
        assert (folder / "q.png").read_bytes() == (folder / "p.png").read_bytes()
    # soft edges of strokes are no strokes of a third colour
    soft = Image.fromarray(np.where(drawn[..., None] > 0, inks, 255).astype(np.uint8)).resize((128, 128)).resize((64, 64), Image.BILINEAR)
    soft.save(folder / "soft.png")
    said(0, of=("segment", folder / "in.png", folder / "soft.png", folder / "l.png", *words))
    # what says too little, or something else: a sentence, status 2 and no file
    green = inks.copy()
    green[drawn == 1] = (20, 200, 20)
    Image.fromarray(green).save(folder / "green.png")
    layer(255, green).save(folder / "green layer.png")
    count, first = int((drawn == 1).sum()), np.argwhere(drawn == 1)[0]
    for name in ("green.png", "green layer.png"):
        said(2, f"{count:,} pixels of a colour that is neither red (the first segment) nor blue (the second), as (20, 200, 20) in row {first[0]}, column {first[1]}",
             of=("segment", folder / "in.png", folder / name, folder / "no.png"))
    painted = photo.copy()
    painted[at[0]:at[0] + 3, at[1]:at[1] + 3] = 255
    Image.fromarray(painted).save(folder / "white.png")
    said(2, "as (255, 255, 255)", of=("segment", folder / "things.png", folder / "white.png", folder / "no.png"))
    for kind, word in ((1, "second"), (2, "first")):
        Image.fromarray((drawn * (drawn == kind)).astype(np.uint8)).save(folder / "one.png")
        said(2, f"the {word} segment has no seed, and --low and --high are one grey", "red is the first",
             of=("segment", folder / "in.png", folder / "one.png", folder / "no.png"))
        said(2, f"the {word} segment has no seed, and --like colours", of=("segment", folder / "in.png", folder / "one.png", folder / "no.png", "--like", "colours"))
        said(0, of=("segment", folder / "in.png", folder / "one.png", folder / "l.png", *words))
    layer(40).save(folder / "gone.png")
    said(2, "there are no seeds", of=("segment", folder / "in.png", folder / "gone.png", folder / "no.png"))
    assert not (folder / "no.png").exists() and nothing.shape == (64, 64)


def colour_pictures(folder):
    """restore keeps colours, to the byte; segment decides by the colours of strokes."""
    grey = np.asarray(Image.open(folder / "in.png")).astype(int)
    tint = np.dstack([grey * 3 // 4 + 20, grey // 2 + 60, 200 - grey // 2]).astype(np.uint8)
    Image.fromarray(tint).save(folder / "tint.png", icc_profile=b"what the colours are")
    # nothing changes: each byte stays
    said(0, "tint.png has colours: its luminance is restored, and its colours are kept (--grey: in grey)",
         of=("restore", folder / "tint.png", folder / "o.png", "--weight", 0))
    assert (np.asarray(Image.open(folder / "o.png")) == tint).all() and Image.open(folder / "o.png").info["icc_profile"] == b"what the colours are"
    # the luminance is that of the grey way, and red, green and blue move as it does
    said(0, "restore --like photo: levels 32", of=("restore", folder / "tint.png", folder / "o.png"))
    said(0, of=("restore", folder / "tint.png", folder / "o-grey.png", "--grey"))
    luminance, restored = (np.asarray(Image.open(folder / name).convert("L")).astype(int) for name in ("tint.png", "o-grey.png"))
    out = np.asarray(Image.open(folder / "o.png")).astype(int)
    assert (out == np.clip(tint + (restored - luminance)[..., None], 0, 255)).all() and (out != tint).any()
    # chroma by its own weight: a speck of colour goes, and the greys stay grey
    specks = np.full((9, 9, 3), 120, dtype=np.uint8)
    specks[4, 4] = (180, 93, 103)  # of the luminance 120 too
    assert Image.fromarray(specks).convert("L").getpixel((4, 4)) in (119, 120, 121)
    Image.fromarray(specks).save(folder / "specks.png")
    said(0, of=("restore", folder / "specks.png", folder / "o.png", "--levels", 256, "--weight", 0))
    assert (np.asarray(Image.open(folder / "o.png")) == specks).all()
    text = said(0, "chroma 20", "its colours are restored by --chroma", "\nCb energy ", "\nCr energy ",
                of=("restore", folder / "specks.png", folder / "o.png", "--levels", 256, "--weight", 0, "--chroma", 20))
    out = np.asarray(Image.open(folder / "o.png")).astype(int)
    assert (abs(out - 120) <= 3).all() and text.count("energy") == 3, out[4]
    # where no colour can be written it is said; a grey picture has none, whatever its file
    for name, more, part in (("o.pgm", (), "holds greys alone"), ("o.png", ("--no-scale",), "as they are"), ("o.png", ("--bits", 16), "16 bits")):
        said(0, part, "restored as grey", of=("restore", folder / "tint.png", folder / name, *more))
        assert Image.open(folder / name).mode in ("L", "I", "I;16")
    Image.fromarray(np.dstack([grey] * 3).astype(np.uint8)).save(folder / "three.png")
    text = said(0, of=("restore", folder / "three.png", folder / "o.png"))
    assert text.startswith(GREY_LINE + "energy ") and Image.open(folder / "o.png").mode == "L"
    said(0, "has no colours, so --chroma changes nothing", of=("restore", folder / "three.png", folder / "o.png", "--chroma", 3))
    # a red field and a green one of one grey: by their colours the cut is where they meet, whatever the strokes' place
    field = np.zeros((12, 20, 3), dtype=np.uint8)
    field[:, :7], field[:, 7:] = (200, 60, 60), (60, 132, 60)
    field[::3, ::4] += 6
    assert abs(np.asarray(Image.fromarray(field).convert("L")).astype(int).ptp()) <= 8
    Image.fromarray(field).save(folder / "field.png")
    marks = np.zeros((12, 20, 4), dtype=np.uint8)
    marks[2:9, 1:3], marks[3:10, 17:19] = (255, 0, 0, 255), (0, 0, 255, 255)
    Image.fromarray(marks, "RGBA").save(folder / "marks.png")
    text = said(0, "segment --like colours: strong 1000 weak 0 edge ", " rounds 1\n", of=("segment", folder / "field.png", folder / "marks.png", folder / "o.png"))
    assert (np.asarray(Image.open(folder / "o.png")) == np.where(np.arange(20) < 7, 0, 255)).all() and "read as grey" not in text
    said(0, "rounds 4", of=("segment", folder / "field.png", folder / "marks.png", folder / "o2.png", "--rounds", 4))
    assert (folder / "o2.png").read_bytes() == (folder / "o.png").read_bytes()
    # the grey ways as before: by --grey without a word more, else with a sentence
    text = said(0, of=("segment", folder / "field.png", folder / "marks.png", folder / "e.png", "--grey"))
    assert text.startswith("segment --like edges: low 128 high 128 strong 100 weak 3 edge 8\nenergy ") and text.count("\n") == 2
    Image.open(folder / "field.png").convert("L").save(folder / "field-grey.png")
    assert said(0, of=("segment", folder / "field-grey.png", folder / "marks.png", folder / "f.png")) == text
    assert (folder / "e.png").read_bytes() == (folder / "f.png").read_bytes()
    said(0, "--rounds changes nothing without --like colours", of=("segment", folder / "field.png", folder / "marks.png", folder / "e.png", "--grey", "--rounds", 3))
    said(0, "is read as grey, so --chroma changes nothing", of=("restore", folder / "field.png", folder / "e.png", "--grey", "--chroma", 3))
    said(2, "leave --low and --high away", of=("segment", folder / "field.png", folder / "marks.png", folder / "no.png", "--like", "colours", "--low", 3))
    said(2, "divides by it", of=("segment", folder / "field.png", folder / "marks.png", folder / "no.png", "--like", "colours", "--edge", 0))


def colour_costs():
    """The weights and the costs of --like colours by their formulas."""
    from gco_proved.pictures import colours
    rng = np.random.default_rng(3)
    picture = rng.integers(0, 256, (3, 2, 3)).astype(np.uint8)
    for neighbours in (4, 8):
        pairs = colours.contrast_pairs(picture, 1000, 5, 90, neighbours)
        assert len(pairs) == (7 if neighbours == 4 else 11)
        for first, second, weight in pairs.tolist():
            apart = picture[first // 2, first % 2].astype(int) - picture[second // 2, second % 2]
            distance = math.hypot(first // 2 - second // 2, first % 2 - second % 2)
            assert weight == max(5, round(1000 * math.exp(-int((apart ** 2).sum()) / (2 * 90 * 90)) / distance)), (first, second)
    assert colours.usual_edge(np.array([[[0, 0, 0], [3, 0, 4]]], dtype=np.uint8)) == 5
    # one colour only: a Gaussian of five of 255, and a hundredth over all colours
    ones = np.tile(np.array([[100, 100, 100]], dtype=np.uint8), (50, 1))
    for away in (0, 5, 200):
        likely = 0.99 / (2 * math.pi * 25) ** 1.5 * math.exp(-away ** 2 / 50) + 0.01 / 256 ** 3
        colour = np.array([[100, 100 + away if away < 100 else 255, 100]], dtype=np.uint8)
        if away >= 100:
            likely = 0.01 / 256 ** 3
        assert colours.Mixture(ones).costs(colour).tolist() == [round(-20 * math.log(likely))], away


def kinds_of_colours(folder):
    """Orientation, 16 bits of colour, alpha, animations, CMYK and HEIC: read rightly, or told in a sentence."""
    wide = np.zeros((4, 6, 3), dtype=np.uint8)
    wide[:, 2:] = 90
    wide[:, 4:] = 200
    upright = Image.fromarray(wide)
    for tag, turned in ((3, upright.transpose(Image.ROTATE_180)), (6, upright.transpose(Image.ROTATE_90)), (8, upright.transpose(Image.ROTATE_270))):
        exif = Image.Exif()
        exif[0x0112] = tag
        turned.save(folder / "turned.png", exif=exif)
        said(0, of=("restore", folder / "turned.png", folder / "o.png", "--weight", 0))
        assert (np.asarray(Image.open(folder / "o.png")) == wide[..., 0]).all(), tag
    # transparent parts have no hidden colour: as on white paper
    hidden = np.dstack([wide, np.where(np.arange(6) < 2, 0, 255) * np.ones((4, 1))]).astype(np.uint8)
    hidden[:, :2, :3] = (10, 200, 30)
    Image.fromarray(hidden, "RGBA").save(folder / "hidden.png")
    said(0, "hidden.png is transparent in parts: they are read as on white paper", of=("restore", folder / "hidden.png", folder / "o.png", "--weight", 0))
    assert (np.asarray(Image.open(folder / "o.png")) == np.where(np.arange(6) < 2, 255, wide[..., 0])).all()
    Image.fromarray(hidden[..., [0, 3]], "LA").save(folder / "hidden-grey.png")
    said(0, "transparent in parts", of=("restore", folder / "hidden-grey.png", folder / "o.png", "--weight", 0))
    assert (np.asarray(Image.open(folder / "o.png")) == np.where(np.arange(6) < 2, 255, wide[..., 0])).all()
    # frames; print colours; 16 bits a colour
    for name in ("frames.gif", "frames.tif"):
        upright.save(folder / name, save_all=True, append_images=[Image.new("RGB", (6, 4))])
        said(0, f"{name} has 2 pictures: the first is read", of=("restore", folder / name, folder / "o.png", "--weight", 0))
        assert (np.asarray(Image.open(folder / "o.png")) == wide[..., 0]).all()
    Image.merge("CMYK", [Image.new("L", (6, 4), 0)] * 3 + [Image.fromarray(255 - wide[..., 0])]).save(folder / "print.tif")
    said(0, "colours of a printer (CMYK)", of=("restore", folder / "print.tif", folder / "o.png", "--weight", 0))
    assert (np.asarray(Image.open(folder / "o.png")) == wide[..., 0]).all()
    deep = np.dstack([wide[..., 0].astype(">u2") * 257] * 3)
    (folder / "deep.png").write_bytes(png_of(deep))
    said(0, "deep.png has 16 bits for each colour: the upper 8 are read", of=("restore", folder / "deep.png", folder / "o.png", "--weight", 0))
    assert (np.asarray(Image.open(folder / "o.png")) == wide[..., 0]).all()
    (folder / "deep.ppm").write_bytes(b"P6\n6 4\n65535\n" + deep.tobytes())
    said(0, "the upper 8 are read", of=("restore", folder / "deep.ppm", folder / "o.png", "--weight", 0))
    Image.merge("LAB", [Image.new("L", (6, 4), value) for value in (255, 128, 128)]).save(folder / "lab.tif")
    said(0, of=("restore", folder / "lab.tif", folder / "o.png", "--weight", 0))
    (folder / "phone.heic").write_bytes(b"\0\0\0\x18ftypheic\0\0\0\0mif1heic" + b"\0" * 64)
    try:
        import pillow_heif
        said(1, "phone.heic", of=("restore", folder / "phone.heic", folder / "no.png"))
        assert pillow_heif
    except ImportError:
        said(1, "phone.heic is a HEIC or AVIF picture", "pip install pillow-heif", "JPEG", of=("restore", folder / "phone.heic", folder / "no.png"))
    assert not (folder / "no.png").exists()


def png_of(samples):
    """A PNG file of 16 bits for each of three colours, by its definition."""
    height, width, _ = samples.shape
    rows = b"".join(b"\0" + row.tobytes() for row in samples)

    def chunk(kind, data):
        return struct.pack(">I", len(data)) + kind + data + struct.pack(">I", zlib.crc32(kind + data))
    return b"\x89PNG\r\n\x1a\n" + chunk(b"IHDR", struct.pack(">IIBBBBB", width, height, 16, 2, 0, 0, 0)) + chunk(b"IDAT", zlib.compress(rows)) + chunk(b"IEND", b"")


def impulse(folder):
    """A cap on a pixel's cost: by the definition, on pictures of three pixels."""
    pgm(folder / "in.pgm", ([[4, 0, 4]], 4))
    # level 4 everywhere costs the middle pixel 4, and 2 with the cap; the picture itself costs its two pairs 2 * 3
    for more, wanted, energy in (((), [4, 4, 4], 4), (("--cap", 2), [4, 4, 4], 2), (("--cap", 9, "--weight", 1), [4, 0, 4], 2)):
        text = said(0, of=("restore", folder / "in.pgm", folder / "o.pgm", "--no-scale", "--weight", 3, *more))
        assert samples(folder / "o.pgm")[0].tolist() == [wanted] and f"energy {energy} " in text, (more, text)


def fits(folder):
    Image.fromarray(np.tile(np.arange(1200, dtype=np.uint8), (1000, 1))).save(folder / "large.png")
    said(0, of=("restore", folder / "large.png", folder / "fits.png", "--levels", 2, "--cycles", 1, "--fit"))
    assert Image.open(folder / "fits.png").size == (1121, 934)


def refusals(folder):
    good, no = EXAMPLES / "noisy.pgm", folder / "no.png"
    # the first cycle ends at 0 0 2, and label 1 is cheaper than the step from 0 to 2
    steps = pgm(folder / "steps.pgm", ([[0, 0, 5]], 9), ([[5, 0, 0]], 9))
    words_of_steps = ("--labels", 3, "--cap", 9, "--smooth", "quadratic", "--trunc", 4)
    for name, data in (("empty.pgm", b""), ("text.txt", b"hello, this is no picture"), ("cut.pgm", b"P5\n4 4\n255\n123"), ("zero.pgm", b"P5\n0 4\n255\n"),
                       ("max.pgm", b"P5\n1 1\n70000\n1"), ("above.pgm", b"P5\n2 1\n7\n\x03\x08"), ("header.pgm", b"P5\n1 x"), ("plain.pgm", b"P2\n2 1\n7\n3 x"),
                       ("cut.png", (folder / "in.png").read_bytes()[:200])):
        (folder / name).write_bytes(data)
    for parts, words in (
        (("there is no file", "nothing.png"), ("restore", folder / "nothing.png", no)), (("is a folder",), ("restore", folder, no)),
        (("is empty",), ("restore", folder / "empty.pgm", no)), (("is no picture that Pillow reads", "JPEG, PNG"), ("restore", folder / "text.txt", no)),
        (("ends before its last sample",), ("restore", folder / "cut.pgm", no)), (("nothing to label",), ("restore", folder / "zero.pgm", no)),
        (("maxval 70000",), ("restore", folder / "max.pgm", no)), (("sample 1 is 8, above the maxval 7",), ("restore", folder / "above.pgm", no)),
        (("header breaks off",), ("restore", folder / "header.pgm", no)), (("at byte 11 is no sample",), ("restore", folder / "plain.pgm", no)),
        (("broken picture",), ("restore", folder / "cut.png", no)), (("1 files are named", "restore IN OUT"), ("restore", good)),
        (("4 files", "stereo LEFT RIGHT OUT"), ("stereo", good, good, good, no)), (("one picture, and stereo wants two",), ("stereo", good, no)),
        (("both are to be of one size",), ("stereo", good, folder / "left.png", no)), (("which kind of picture",), ("restore", good, folder / "out.xyz")),
        (("there is no folder",), ("restore", good, folder / "none" / "out.png")), (("16 bits go into",), ("restore", good, folder / "o.jpg", "--bits", 16)),
        (("refused 24", "no metric", "--moves swap"), ("stereo", steps, no, *words_of_steps)),
        (("swaps take no label cost",), ("restore", good, no, "--moves", "swap", "--label-cost", 1)),
    ):
        text = said(1, *parts, of=words)
        assert text.startswith(f"gco {words[0]}: ") or "--like" in text.splitlines()[0], text
        assert not no.exists(), words
    for words, part in ((("restore", good, no, "--weight", 1001), "1,001 is not from 0 to 1,000"), (("restore", good, no, "--weight", "x"), "no whole number"),
                        (("restore", good, no, "--smooth", "cubic"), "potts"), (("restore",), "FILE"), ((), "COMMAND"), (("frobnicate",), "restore")):
        said(2, part, of=words)
    kept = folder / "kept.png"
    kept.write_bytes(b"kept")
    said(1, of=("stereo", steps, kept, *words_of_steps))
    assert kept.read_bytes() == b"kept" and not list(folder.glob("*.part"))
    said(0, "gco ", of=("--version",))


def plots(folder):
    try:
        import matplotlib
    except ImportError:
        said(1, "--plot wants matplotlib", of=("restore", EXAMPLES / "noisy.pgm", folder / "p.png", "--plot", folder / "e.png"))
        return "without matplotlib"
    said(0, of=("restore", EXAMPLES / "noisy.pgm", folder / "p.png", "--weight", 4, "--plot", folder / "e.png", "--label-cost", 3))
    drawn = np.asarray(Image.open(folder / "e.png").convert("RGB"))
    assert drawn.shape[0] > 200 and len(np.unique(drawn.reshape(-1, 3), axis=0)) > 3
    return f"with matplotlib {matplotlib.__version__}"


def stops(folder):
    """Ctrl-C after some moves: what was found till then is written, and the status says so."""
    side = 256
    grey = np.random.default_rng(1).integers(0, 256, (side, side))
    pgm(folder / "noise.pgm", (grey, 255))
    words = [sys.executable, "-m", "gco_proved", "restore", folder / "noise.pgm", folder / "stopped.pgm", "--smooth", "linear", "--trunc", "20",
             "--weight", "1", "--progress"]
    child = subprocess.Popen([str(word) for word in words], stderr=subprocess.PIPE)
    seen = b""
    while seen.count(b"\r") < 3 and seen.count(b"cycle 1") < 2:
        part = os.read(child.stderr.fileno(), 65536)
        assert part, seen
        seen += part
    child.send_signal(signal.SIGINT)
    began = time.time()
    rest = child.communicate(timeout=120)[1]
    said_all = (seen + rest).decode()
    assert child.returncode == 130 and "stopped after" in said_all and time.time() - began < 60, said_all
    kept, maxval = samples(folder / "stopped.pgm")
    assert kept.shape == (side, side) and maxval == 255 and kept.max() > 0
    unseen = subprocess.Popen([str(word) for word in words[:-1]], stderr=subprocess.PIPE)
    assert b"restore --like plain" in unseen.stderr.readline()
    (folder / "stopped.pgm").unlink()
    time.sleep(1)
    unseen.send_signal(signal.SIGINT)
    assert unseen.wait(timeout=60) == -signal.SIGINT and not (folder / "stopped.pgm").exists() and not list(folder.glob("*.part"))
    moves = int(said_all.split("stopped after ")[1].split()[0])
    assert 1 <= moves < 256 * 3 and kept.max() <= moves, (moves, kept.max())


REFUSED = [("label", *pair) for pair in [
    ("sites = 2\nlabels = 2\ndata = [0,0,0,0]\npairs = [[0, 2]]", "refused 10 pair 0"), ("sites = 2\nlabels = 2\ndata = [0,0,0,0]\nstart = [0, 2]", "refused 11 site 1"),
    ("sites = 2\nlabels = 2\ndata = [0,0,0,0]\npairs = [[1, 1]]", "refused 12 pair 0"), ("sites = 2\nlabels = 2\ndata = [0,0,0,0]\npairs = [[0, 1, 1001]]", "refused 14 pair 0"),
    ("sites = 2\nlabels = 2\ndata = [0,0,0,-1]", "refused 15 data 3"), ("sites = 2\nlabels = 2\ndata = [0,0,0,0]\nsmooth = [0, 10001, 1, 0]", "refused 15 smooth 1"),
    ("sites = 0\nlabels = 2\ndata = []\nlabel_costs = [0, -1]", "refused 15 label 1"),
    ("sites = 2\nlabels = 3\ndata = [0,9,9,9,9,0]\nsmooth = [0,1,4,1,0,1,4,1,0]\npairs = [[0,1]]\nstart = [0,2]", "refused 24 pair 0 alpha 1"),
    ("sites = 0\nlabels = 2\ndata = []\nlabel_costs = [0, 1]\nmoves = 'swap'", "refused 27"), ("sites = ", "refused 28"), ("sites = 99999999999999999999", "refused 28"),
    ("labels = 257", "refused 29 sites"), ("sites = 1\nlabels = 257", "refused 29 labels"), ("sites = 1\nlabels = 2\ndata = [0]", "refused 29 data"),
    ("sites = 1\nlabels = 2\ndata = [-1, 'x']", "refused 29 data 1"), ("sites = 1\nlabels = 2\ndata = [1, 2]\nsmooth = 'cubic'", "refused 29 smooth"),
    ("sites = 1\nlabels = 2\ndata = [1, 2]\npairs = [[0]]", "refused 29 pairs 0"), ("sites = 1\nlabels = 2\ndata = [1, 2]\ntrunc = 0", "refused 29 trunc"),
    ("sites = 1.0", "refused 29 sites"), ("sites = true", "refused 29 sites"), ("sites = 1\nlabels = 2\ndata = [1, 2]\ncycles = 1001", "refused 29 cycles"),
    ("sites = 1\nlabels = 2\ndata = [1, 2]\nmoves = 'both'", "refused 29 moves"), ("sites = 1\nlabels = 2\ndata = [[1, 2]]", "refused 29 data")]] + [("energy", *pair) for pair in [
    ("variables = 2\nterms = [{on = [5], values = [0, 1]}]", "refused 16 term 0"), ("variables = 2\nterms = [{on = [0, 0], values = [0, 1, 1, 0]}]", "refused 17 term 0"),
    ("variables = 1\nterms = [{on = [0], values = [1000000001, 0]}]", "refused 18 term 0"), ("variables = 1\nconstant = 1000000001", "refused 18 constant"),
    ("variables = 2\nterms = [{on = [0, 1], values = [1, 0, 0, 1]}]", "refused 20 term 0"),
    ("variables = 3\nterms = [{on = [0, 1, 2], values = [0, 0, 0, -1, 0, -1, 0, -1]}]", "refused 20 term 0 fixed 2 at 1"), ("variables = ", "refused 28"),
    ("variables = 2097153", "refused 29 variables"), ("variables = 1\nterms = 3", "refused 29 terms"), ("", "refused 29 variables"),
    ("variables = 1\nterms = [{on = [0], values = [1]}]", "refused 29 terms 0"), ("variables = 1\nconstant = 1.5", "refused 29 constant")]]


def problem_files(folder):
    """label and energy: the program's lines, by hand of the documents, and the program's own where it is there."""
    try:
        import tomllib
    except ImportError:
        try:
            import tomli
        except ImportError:
            (folder / "p.toml").write_text("variables = 0")
            said(1, "tomli", of=("energy", folder / "p.toml"))
            return "without tomllib"
    assert run("label", EXAMPLES / "districts.toml") == (0, "energy 27 data 23 smooth 4\nlabels 1 1 1 2 2\n", "")
    assert run("energy", EXAMPLES / "small.toml") == (0, "minimum 12\nassignment 100\n", "")
    assert run("label", EXAMPLES / "districts.toml", "--bound")[1].endswith("\nbound 1 2\n")
    path, programs = folder / "p.toml", []
    for command, text, line in REFUSED:
        path.write_text(text)
        status, out, wrong = run(command, path)
        assert (status, out, wrong.splitlines()[0]) == (1, "", line), (text, wrong)
        assert len(wrong.splitlines()) >= 2, wrong
        programs.append((command, text, line + "\n", 1))
    for command, text, wanted in (("energy", "variables = 0", "minimum 0\nassignment\n"), ("label", "sites = 0\nlabels = 2\ndata = []", "energy 0 data 0 smooth 0\nlabels\n"),
                                  ("label", "sites = 2\nlabels = 2\ndata = [0, 4, 5, 1]\npairs = [[0, 1]]\nlabel_costs = [0, 2]", "energy 4 data 1 smooth 1 label 2\nlabels 0 1\n")):
        path.write_text(text)
        assert run(command, path) == (0, wanted, ""), (text, run(command, path))
        programs.append((command, text, wanted, 0))
    if os.path.exists(PROGRAM):
        for command, text, wanted, status in programs:
            theirs = subprocess.run([PROGRAM, command], input=text.encode(), capture_output=True)
            assert theirs.returncode == status and (theirs.stderr if status else theirs.stdout).decode() == wanted, (text, theirs)
    said(1, "there is no file", of=("label", folder / "none.toml"))
    return f"{len(programs)} problem files"


def all_of_it(folder):
    said_of = [problem_files(folder)]
    if np is None:
        said(1, "pictures want", "pip install", of=("restore", EXAMPLES / "noisy.pgm", folder / "a.png"))
        return said_of + ["without numpy and Pillow: no picture was read"]
    by_definition(folder, 150)
    kinds_of_files(folder)
    disparities(folder)
    seeds(folder)
    strokes(folder)
    colour_pictures(folder)
    colour_costs()
    kinds_of_colours(folder)
    impulse(folder)
    fits(folder)
    refusals(folder)
    stops(folder)
    return said_of + [against_program(folder, sys.argv[1:]), plots(folder)]


made = pathlib.Path(tempfile.mkdtemp())
try:
    print("python -m gco:", ", ".join(all_of_it(made)))
finally:
    shutil.rmtree(made)
