"""segment and OpenCV's grabCut by the same strokes on four photographs of scikit-image, against outlines drawn by hand:

    measure_segments.py FOLDER

writes strokes and segments into the folder, and prints a table: wrong pixels and common ones in %, seconds of processor. It wants scikit-image, OpenCV and gco_proved
(Debian: apt-get install python3-skimage python3-opencv); `make -C bindings test` does not run it.
"""
import pathlib
import resource
import subprocess
import sys
import time

import cv2
import numpy
from PIL import Image, ImageDraw
from skimage import data

# of each photograph the strokes of the figure and of what is around it, and the figure's outline
PHOTOGRAPHS = {
    "astronaut": (
        [[(235, 40), (200, 60), (235, 95), (222, 130)], [(215, 185), (232, 230), (180, 270), (150, 330), (90, 430)], [(290, 300), (320, 310)],
         [(310, 480), (390, 440), (400, 370), (470, 430)], [(165, 190), (150, 230)], [(200, 440), (262, 500)]],
        [[(100, 40), (110, 130), (60, 180), (20, 150), (20, 330), (10, 470)], [(340, 60), (330, 220), (375, 330), (480, 330)], [(420, 60), (425, 180)],
         [(480, 60), (490, 260)]],
        [(153, 90), (160, 55), (182, 25), (205, 14), (235, 13), (268, 25), (290, 48), (302, 80), (295, 105), (284, 130), (268, 130), (258, 160), (256, 175),
         (280, 187), (296, 210), (306, 240), (300, 264), (335, 275), (351, 310), (361, 342), (385, 343), (420, 342), (450, 355), (476, 382), (492, 420),
         (502, 455), (511, 482), (511, 511), (55, 511), (28, 490), (22, 450), (26, 390), (22, 330), (45, 270), (75, 235), (115, 207), (110, 185),
         (125, 162), (155, 150), (186, 150), (182, 130), (175, 125), (160, 117)]),
    "coffee": (
        [[(300, 30), (190, 70), (240, 60), (380, 80)], [(230, 130), (330, 130)], [(240, 200), (230, 270)], [(260, 240), (340, 230)], [(400, 80), (380, 150)]],
        [[(20, 60), (60, 20), (150, 20)], [(30, 250), (100, 330), (60, 380)], [(500, 40), (560, 150), (540, 300), (480, 380)], [(110, 180), (150, 300), (280, 360), (430, 340)],
         [(440, 130), (460, 220), (390, 290), (300, 320)], [(418, 82), (414, 110)], [(365, 260), (375, 300)]],
        [(175, 80), (185, 55), (215, 30), (255, 18), (295, 18), (335, 28), (375, 48), (400, 70), (408, 95), (405, 130), (392, 165), (375, 205), (350, 235),
         (330, 262), (300, 278), (270, 282), (252, 285), (240, 300), (225, 308), (205, 304), (196, 288), (200, 262), (214, 240), (200, 220), (183, 180), (175, 130)]),
    "chelsea": (
        [[(60, 30), (150, 60), (330, 40), (340, 20)], [(330, 130), (300, 190), (260, 250)], [(140, 140), (60, 130), (50, 240), (20, 260)], [(100, 270), (220, 290)],
         [(360, 30), (366, 60)]],
        [[(10, 60), (10, 100), (8, 20)], [(400, 10), (440, 60), (400, 110), (440, 200), (400, 260), (440, 290)], [(350, 230), (390, 190)], [(345, 285), (380, 290)]],
        [(40, 0), (35, 30), (30, 70), (27, 100), (22, 130), (8, 165), (0, 180), (0, 299), (290, 299), (305, 270), (318, 240), (330, 205), (340, 170), (352, 140),
         (366, 120), (357, 95), (358, 75), (375, 50), (385, 10), (388, 0)]),
    "rocket": (
        [[(322, 140), (322, 260), (322, 400)]],
        [[(60, 60), (300, 60), (560, 100)], [(160, 250), (290, 300)], [(360, 250), (420, 300)], [(40, 380), (180, 390)], [(420, 400), (600, 390)], [(20, 100), (60, 200)],
         [(300, 415), (345, 415)], [(300, 150), (304, 300)], [(342, 150), (340, 300)]],
        [(322, 127), (329, 135), (333, 147), (333, 178), (331, 185), (331, 405), (313, 405), (313, 185), (311, 178), (311, 147), (315, 135)]),
}
COLOURS = (230, 20, 20), (30, 40, 240)


def strokes(size, parts, width=5):
    """A layer without colour but where strokes are: red the figure, blue what is around it."""
    layer = Image.new("RGBA", size, (0, 0, 0, 0))
    draw = ImageDraw.Draw(layer)
    for lines, colour in zip(parts, COLOURS):
        for line in lines:
            draw.line(line, fill=colour + (255,), width=width)
    return layer


def by_grabcut(photograph, seeds, unknown):
    """Five iterations from the strokes: yes where the figure is."""
    mask = numpy.full(seeds.shape, unknown, numpy.uint8)
    mask[seeds == 1], mask[seeds == 2] = cv2.GC_FGD, cv2.GC_BGD
    models = numpy.zeros((1, 65)), numpy.zeros((1, 65))
    cv2.setRNGSeed(1)
    cv2.grabCut(photograph[..., ::-1].copy(), mask, None, *models, 5, cv2.GC_INIT_WITH_MASK)
    return (mask == cv2.GC_FGD) | (mask == cv2.GC_PR_FGD)


def wrong(found, figure):
    """The share of wrong pixels, and how much of both figures is in both, in %."""
    return 100 * (found != figure).mean(), 100 * (found & figure).sum() / (found | figure).sum()


def runs(folder, name, photograph, seeds):
    """Each way: what it is called, the figure that it finds, and its seconds."""
    ways = {"edges": ["--like", "edges"], "colours": ["--like", "colours"], "colours 3 rounds": ["--like", "colours", "--rounds", "3"]}
    for way, words in ways.items():
        out = folder / f"{name}-{way.replace(' ', '-')}.png"
        began = sum(resource.getrusage(resource.RUSAGE_CHILDREN)[:2])
        subprocess.run([sys.executable, "-m", "gco_proved", "segment", folder / f"{name}.png", folder / f"{name}-strokes.png", out, *words], check=True,
                       capture_output=True)
        yield way, numpy.asarray(Image.open(out)) == 0, sum(resource.getrusage(resource.RUSAGE_CHILDREN)[:2]) - began
    for way, unknown in (("grabCut, the rest probably around", cv2.GC_PR_BGD), ("grabCut, the rest probably figure", cv2.GC_PR_FGD)):
        began = time.process_time()
        found = by_grabcut(photograph, seeds, unknown)
        seconds = time.process_time() - began
        Image.fromarray(numpy.where(found, 0, 255).astype(numpy.uint8)).save(folder / f"{name}-{way[:7]}-{unknown}.png")
        yield way, found, seconds


def main(folder):
    folder.mkdir(exist_ok=True)
    for name, (inside, outside, outline) in PHOTOGRAPHS.items():
        photograph = getattr(data, name)()
        size = photograph.shape[1], photograph.shape[0]
        Image.fromarray(photograph).save(folder / f"{name}.png")
        layer = strokes(size, (inside, outside))
        layer.save(folder / f"{name}-strokes.png")
        painted = numpy.asarray(layer)
        seeds = numpy.where(painted[..., 3] == 0, 0, numpy.where(painted[..., 0] > 128, 1, 2))
        drawn = Image.new("1", size)
        ImageDraw.Draw(drawn).polygon(outline, fill=1)
        figure = numpy.asarray(drawn)
        for way, found, seconds in runs(folder, name, photograph, seeds):
            print("| {} | {} | {:.1f} | {:.0f} | {:.1f} |".format(name, way, *wrong(found, figure), seconds), flush=True)
            if "edges" in way or "colours" == way or "grab" in way:
                shown = photograph.copy()
                shown[~found] = shown[~found] // 4 + 160
                Image.fromarray(shown).save(folder / f"{name}-{way.split(',')[0]}{'-' + way.split()[-1] if ',' in way else ''}-shown.png")
        shown = Image.fromarray(photograph)
        shown.paste(layer, (0, 0), layer)
        ImageDraw.Draw(shown).line([*outline, outline[0]], fill=(0, 255, 0), width=1)
        shown.save(folder / f"{name}-drawn.png")


main(pathlib.Path(sys.argv[1]))
