"""The shared library: where it is found, its structures and its calls."""
import ctypes
import os
import pathlib

ALL_CYCLES = 2**32 - 1
ANY_SIZE = 2**64 - 1
SITE_LIMIT, LABEL_LIMIT, PAIR_LIMIT = 1048576, 256, 4194304
WEIGHT_LIMIT, DATA_LIMIT, SMOOTH_LIMIT, LABEL_COST_LIMIT = 1000, 10000000, 10000, 10000000
PAIR_COST_LIMIT = 10000000
VARIABLE_LIMIT, TERM_LIMIT, VALUE_LIMIT = 2097152, 8388608, 1000000000
UNFINISHED = 29  # the status of a stretch whose run is not at its end
MOVES = {"expansion": 0, "swap": 1}


class Outcome(ctypes.Structure):
    """gco_outcome of gco.h."""

    _fields_ = [("data", ctypes.c_int64), ("smooth", ctypes.c_int64), ("label", ctypes.c_int64),
                ("place", ctypes.c_uint64), ("vmin", ctypes.c_uint64), ("vmax", ctypes.c_uint64),
                ("cycles", ctypes.c_uint32), ("settled", ctypes.c_uint32),
                ("changed", ctypes.c_uint32), ("alpha", ctypes.c_uint32), ("beta", ctypes.c_uint32)]


class Course(ctypes.Structure):
    """gco_course of gco.h: all is 0 where a run begins."""

    _fields_ = [("cycles", ctypes.c_uint32), ("place", ctypes.c_uint32), ("last", ctypes.c_uint32),
                ("changed", ctypes.c_uint32), ("noted", ctypes.c_uint32)]


class Minimum(ctypes.Structure):
    """gco_minimum of gco.h."""

    _fields_ = [("value", ctypes.c_int64), ("place", ctypes.c_uint64),
                ("fixed", ctypes.c_uint64), ("fixed_at", ctypes.c_uint64)]


class Bound(ctypes.Structure):
    """gco_bound of gco.h."""

    _fields_ = [("low", ctypes.c_int64), ("place", ctypes.c_uint64)]


def _open() -> ctypes.CDLL:
    here = pathlib.Path(__file__).resolve().parent
    named = os.environ.get("GCO_LIBRARY")
    if named:
        return ctypes.CDLL(named)
    for path in (here / "libgco.so", here.parent.parent / "lib" / "libgco.so"):
        if path.exists():
            return ctypes.CDLL(str(path))
    try:
        return ctypes.CDLL("libgco.so")
    except OSError as error:
        raise ImportError("gco_proved: libgco.so is missing: put it beside the package, on the"
                          f" library path, or in GCO_LIBRARY ({error})") from error


calls = _open()
_SLICE, _U32, _OUT = [ctypes.c_void_p, ctypes.c_size_t], ctypes.c_uint32, ctypes.c_void_p
_TABLES = [_U32, *_SLICE, *_SLICE, *_SLICE, *_SLICE]
_PAIR_TABLES = [_U32, *_SLICE, _U32, *_SLICE, *_SLICE, *_SLICE, *_SLICE]
for _call, _types in [
    (calls.gco_label, [*_TABLES, _U32, _U32, *_SLICE, _OUT]),
    (calls.gco_label_int32, [*_TABLES, _U32, _U32, *_SLICE, _OUT]),
    (calls.gco_label_stretch, [*_TABLES, _U32, _U32, _U32, _OUT, *_SLICE, *_SLICE, *_SLICE, _OUT]),
    (calls.gco_label_stretch_int32,
     [*_TABLES, _U32, _U32, _U32, _OUT, *_SLICE, *_SLICE, *_SLICE, _OUT]),
    (calls.gco_expand, [*_TABLES, _U32, *_SLICE, _OUT]),
    (calls.gco_expand_int32, [*_TABLES, _U32, *_SLICE, _OUT]),
    (calls.gco_swap, [*_TABLES, _U32, _U32, *_SLICE, _OUT]),
    (calls.gco_swap_int32, [*_TABLES, _U32, _U32, *_SLICE, _OUT]),
    (calls.gco_label_pairs, [*_PAIR_TABLES, _U32, _U32, *_SLICE, _OUT]),
    (calls.gco_label_pairs_int32, [*_PAIR_TABLES, _U32, _U32, *_SLICE, _OUT]),
    (calls.gco_expand_pairs, [*_PAIR_TABLES, _U32, *_SLICE, _OUT]),
    (calls.gco_expand_pairs_int32, [*_PAIR_TABLES, _U32, *_SLICE, _OUT]),
    (calls.gco_swap_pairs, [*_PAIR_TABLES, _U32, _U32, *_SLICE, _OUT]),
    (calls.gco_swap_pairs_int32, [*_PAIR_TABLES, _U32, _U32, *_SLICE, _OUT]),
    (calls.gco_lower_bound, [*_TABLES, _U32, ctypes.c_uint64, *_SLICE, _OUT]),
    (calls.gco_lower_bound_pairs, [*_PAIR_TABLES, _U32, ctypes.c_uint64, *_SLICE, _OUT]),
    (calls.gco_minimise, [ctypes.c_int64, *_SLICE, *_SLICE, *_SLICE, *_SLICE, _OUT]),
]:
    _call.restype, _call.argtypes = _U32, _types
