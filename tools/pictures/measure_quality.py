#!/usr/bin/env python3
"""Measures what the picture commands make of known pictures, beside OpenCV and scikit-image, and
prints tables:

    python3 tools/pictures/measure_quality.py --gco crates/gco/out/gco [--only restore]

Restoring is measured on scikit-image's "camera" with noise that is put on here: PSNR against the
picture without noise. Stereo is measured on scikit-image's "motorcycle" and on the made room of
tools/pictures/make_photos.py: how many pixels whose disparity is known are off by more than 1 and by more
than 2. Times are processor seconds of one thread. numpy, OpenCV and scikit-image are needed
(Debian: python3-opencv python3-skimage).
"""
import argparse
import resource
import subprocess
import time

import cv2
import numpy
from skimage import data, metrics, restoration

import make_photos

SIGMA, IMPULSES = 20, 0.2
FAR_OFF = (1, 2)


def pgm(picture, maxval):
    """A picture as the bytes of a PGM file."""
    return (
        b"P5\n%d %d\n%d\n" % (picture.shape[1], picture.shape[0], maxval)
        + picture.astype(numpy.uint8).tobytes()
    )


def samples(text):
    """The samples of the PGM file that the program writes."""
    head = text.split(b"\n", 3)
    width, height = (int(word) for word in head[1].split())
    return numpy.frombuffer(head[3], numpy.uint8).reshape(height, width)


def processor_seconds():
    used = resource.getrusage(resource.RUSAGE_CHILDREN)
    return used.ru_utime + used.ru_stime


def run_gco(gco, words, text):
    """The labels that the program writes, and its processor seconds."""
    begun = processor_seconds()
    done = subprocess.run([gco, *words.split()], input=text, capture_output=True, check=True)
    return samples(done.stdout), processor_seconds() - begun


def in_levels(picture, levels):
    """A picture of 256 levels in fewer, as `pamdepth` makes it."""
    return ((picture.astype(int) * (levels - 1) + 127) // 255).astype(numpy.uint8)


def restored(gco, picture, levels, words):
    """What `gco restore` makes of a picture, in 256 levels again."""
    answer, seconds = run_gco(gco, "restore " + words, pgm(in_levels(picture, levels), levels - 1))
    return numpy.rint(answer * 255.0 / (levels - 1)).astype(numpy.uint8), seconds


def timed(call):
    begun = time.process_time()
    return call(), time.process_time() - begun


def whole(picture):
    """A picture of floats from 0 to 1, as bytes."""
    return numpy.clip(numpy.rint(picture * 255), 0, 255).astype(numpy.uint8)


def noises():
    """The clean picture, and its two spoilt forms by name."""
    camera = data.camera()
    random = numpy.random.default_rng(7)
    spots = camera.copy()
    hit = random.random(camera.shape) < IMPULSES
    spots[hit] = random.choice([0, 255], int(hit.sum()))
    return camera, {GAUSSIAN: make_photos.noisy(camera, SIGMA, 512), IMPULSE: spots}


GAUSSIAN, IMPULSE = "Gaussian noise, sigma 20", "salt and pepper, 20 %"
RESTORE_RUNS = {
    GAUSSIAN: [
        (16, "--smooth linear --trunc 4"),
        (32, "--smooth linear --trunc 8"),
        (32, "--smooth linear --trunc 8 --neighbours 8"),
        (32, "--weight 2"),
        (64, "--smooth linear --trunc 16"),
        (256, ""),
        (256, "--weight 20"),
        (256, "--smooth linear --trunc 40 --weight 2"),
    ],
    IMPULSE: [(32, "--smooth linear --trunc 8"), (32, "--weight 2")],
}


def restore_rows(gco, clean, spoilt, runs):
    """Rows of the table of restoring: what was run, PSNR, SSIM, seconds."""

    def row(name, answer, seconds):
        psnr = metrics.peak_signal_noise_ratio(clean, answer)
        ssim = metrics.structural_similarity(clean, answer)
        return f"| {name} | {psnr:.1f} | {ssim:.2f} | {seconds:.2f} |"

    yield row("(as it came)", spoilt, 0)
    for levels, words in runs:
        call = f"restore {words}".strip()
        yield row(f"{levels} levels, `{call}`", *restored(gco, spoilt, levels, words))
    yield row("OpenCV `medianBlur` 5", *timed(lambda: cv2.medianBlur(spoilt, 5)))
    yield row(
        "OpenCV `bilateralFilter` 9, 60, 5", *timed(lambda: cv2.bilateralFilter(spoilt, 9, 60, 5))
    )
    yield row(
        "OpenCV `fastNlMeansDenoising` h 20",
        *timed(lambda: cv2.fastNlMeansDenoising(spoilt, None, 20)),
    )
    yield row(
        "scikit-image `denoise_tv_chambolle` 0.12",
        *timed(lambda: whole(restoration.denoise_tv_chambolle(spoilt / 255.0, weight=0.12))),
    )


def stereo_pairs():
    """Pairs by name: the left and the right view in grey, and the disparities, NaN where they
    are not known."""
    left, right, truth = data.stereo_motorcycle()
    grey = [cv2.cvtColor(view, cv2.COLOR_RGB2GRAY) for view in (left, right)]
    views = [make_photos.noisy(view, 2, seed) for view, seed in zip(make_photos.views(), (1, 2))]
    truth = numpy.where(numpy.isfinite(truth), truth, numpy.nan)
    return {
        "motorcycle, 741 by 500": (*grey, truth, 80),
        "made room, 512 by 384": (*views, make_photos.disparity().astype(float), 40),
    }


STEREO_RUNS = [
    "",
    "--labels {labels} --weight 20 --cap 30",
    "--labels {labels} --smooth linear --trunc 4 --weight 8 --cap 30",
    "--labels {labels} --smooth linear --trunc 4 --weight 8 --cap 30 --neighbours 8",
    "--labels {labels} --smooth linear --trunc 4 --weight 8 --cap 30 --cycles 1",
]


def stereo_rows(gco, left, right, truth, labels):
    """Rows of the table of stereo: what was run, pixels off, seconds."""
    known = numpy.isfinite(truth)

    def row(name, answer, seconds):
        off = [100 * numpy.mean(numpy.abs(answer[known] - truth[known]) > far) for far in FAR_OFF]
        return f"| {name} | " + " | ".join(f"{part:.0f} %" for part in off) + f" | {seconds:.2f} |"

    text = pgm(left, 255) + pgm(right, 255)
    for words in STEREO_RUNS:
        call = ("stereo " + words.format(labels=labels)).strip()
        answer, seconds = run_gco(gco, call, text)
        yield row(f"`{call}`", answer.astype(float), seconds)
    count = (labels + 15) // 16 * 16
    matcher = cv2.StereoSGBM_create(0, count, 5, 8 * 25, 32 * 25)
    answer, seconds = timed(lambda: matcher.compute(left, right) / 16.0)
    yield row("OpenCV `StereoSGBM`, block 5 (holes count as wrong)", answer, seconds)
    matcher = cv2.StereoBM_create(count, 15)
    answer, seconds = timed(lambda: matcher.compute(left, right) / 16.0)
    yield row("OpenCV `StereoBM`, block 15 (holes count as wrong)", answer, seconds)


def main():
    parser = argparse.ArgumentParser(description=__doc__.split("\n")[0])
    parser.add_argument("--gco", required=True)
    parser.add_argument("--only", choices=["restore", "stereo"])
    options = parser.parse_args()
    cv2.setNumThreads(1)
    if options.only != "stereo":
        clean, spoilt = noises()
        for name, picture in spoilt.items():
            print(f"\n| camera, {name} | PSNR | SSIM | seconds |\n|---|---|---|---|")
            for row in restore_rows(options.gco, clean, picture, RESTORE_RUNS[name]):
                print(row, flush=True)
    if options.only != "restore":
        for name, pair in stereo_pairs().items():
            print(f"\n| {name} | off by over 1 | over 2 | seconds |\n|---|---|---|---|")
            for row in stereo_rows(options.gco, *pair):
                print(row, flush=True)


if __name__ == "__main__":
    main()
