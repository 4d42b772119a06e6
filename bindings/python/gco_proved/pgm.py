"""The picture commands over the bytes of PGM, as the program `gco` has them: the same bytes.

They are calls of libgco_pictures, which lies beside the package, on the library path or where
GCO_PICTURES_LIBRARY says. It is looked for by the first call.
"""
import ctypes
import functools
import os
import pathlib
from typing import NamedTuple, Optional, Tuple

from .refusals import Refused

CODES = {"smooth": ["potts", "linear", "quadratic"], "neighbours": [4, 8],
         "moves": ["expansion", "swap"]}
OPTIONS = {
    "restore": ["smooth", "trunc", "weight", "neighbours", "moves", "cycles", "label_cost"],
    "stereo": ["labels", "cap", "smooth", "trunc", "weight", "neighbours", "moves", "cycles"],
    "segment": ["low", "high", "strong", "weak", "edge", "neighbours", "cycles"],
}
OPTION_RANGE = 41
WORDS = {
    30: "no picture stands there: it does not begin with P5 or P2, or a second one is missing",
    31: "the header of a picture goes wrong at byte {place}",
    32: "a picture has no columns or no rows",
    33: "a picture is too large: a side is above 4,096, or it has more than 1,048,576 pixels",
    34: "the maxval of a picture is 0 or above 65,535",
    35: "a picture ends before its last sample",
    36: "sample {place} of a picture is above its maxval",
    37: "byte {place} cannot stand among the samples of a plain picture",
    38: "the two pictures have different sizes",
    39: "seed {place} is none of 0, 1 and 2",
    40: "the picture has more than 256 grey levels",
    OPTION_RANGE: "the option {option} is out of its range",
}


class Told(ctypes.Structure):
    """gco_picture_told of gco_pictures.h."""

    _fields_ = [("energy", ctypes.c_int64), ("data", ctypes.c_int64), ("smooth", ctypes.c_int64),
                ("label", ctypes.c_int64), ("bytes", ctypes.c_uint64), ("place", ctypes.c_uint64),
                ("vmin", ctypes.c_uint64), ("vmax", ctypes.c_uint64), ("alpha", ctypes.c_uint32),
                ("beta", ctypes.c_uint32)]


class Labelled(NamedTuple):
    """A picture of labels as PGM, its energy with the three parts, and what is known of the least:
    vmin times the energy is at most twice vmax times that of any labelling; else None."""

    pgm: bytes
    energy: int
    data: int
    smooth: int
    label: int
    bound: Optional[Tuple[int, int]]


@functools.lru_cache(maxsize=None)
def _calls() -> ctypes.CDLL:
    beside = pathlib.Path(__file__).resolve().parent / "libgco_pictures.so"
    named = os.environ.get("GCO_PICTURES_LIBRARY")
    try:
        return ctypes.CDLL(named or (str(beside) if beside.exists() else "libgco_pictures.so"))
    except OSError as error:
        raise ImportError("gco_proved: libgco_pictures.so is missing: put it beside the package, on"
                          f" the library path, or in GCO_PICTURES_LIBRARY ({error})") from error


def _number(command: str, name: str, value) -> int:
    if name in CODES:
        if value not in CODES[name]:
            raise _refused(command, Told(place=OPTIONS[command].index(name)), OPTION_RANGE)
        return CODES[name].index(value)
    if not 0 <= value < 2**32:
        raise _refused(command, Told(place=OPTIONS[command].index(name)), OPTION_RANGE)
    return value


def _refused(command: str, told: Told, status: int) -> Refused:
    option = OPTIONS[command][told.place] if status == OPTION_RANGE else ""
    words = WORDS[status].format(place=told.place, option=option) if status in WORDS else None
    return Refused(status, told.place, told.alpha, told.beta, words=words)


def _run(command: str, data: bytes, options: dict) -> Labelled:
    numbers = [_number(command, name, options[name]) for name in OPTIONS[command]]
    words = (ctypes.c_uint32 * len(numbers))(*numbers)
    room = len(data) + 2  # the written picture is never longer
    out, told = ctypes.create_string_buffer(room), Told()
    call = getattr(_calls(), f"gco_{command}_pgm")
    status = call(words, bytes(data), ctypes.c_size_t(len(data)), out, ctypes.c_size_t(room),
                  ctypes.byref(told))
    if status:
        raise _refused(command, told, status)
    bound = (told.vmin, told.vmax) if told.vmin else None
    return Labelled(out.raw[:told.bytes], told.energy, told.data, told.smooth, told.label, bound)


def restore_pgm(data: bytes, *, smooth: str = "potts", trunc: int = 1, weight: int = 1,
                neighbours: int = 4, moves: str = "expansion", cycles: int = 100,
                label_cost: int = 0) -> Labelled:
    """Takes noise out of the PGM picture in `data`, of at most 256 grey levels.

    docs/IMAGES.md says what each option means and its range. What is wrong is a Refused.
    """
    return _run("restore", data, locals())


def stereo_pgm(data: bytes, *, labels: int = 16, cap: int = 20, smooth: str = "potts",
               trunc: int = 1, weight: int = 1, neighbours: int = 4, moves: str = "expansion",
               cycles: int = 100) -> Labelled:
    """The shifts of the left view's pixels: `data` has that view and behind it the right one."""
    return _run("stereo", data, locals())


def segment_pgm(data: bytes, *, low: int, high: int, strong: int = 20, weak: int = 5, edge: int = 5,
                neighbours: int = 4, cycles: int = 100) -> Labelled:
    """Parts a picture in two: `data` has it and behind it the seeds, 0 (free), 1 and 2."""
    return _run("segment", data, locals())
