"""Numbers of the caller as runs of memory: their shapes, their ranges, and no number that wraps."""
import array
from typing import Any, NamedTuple, Tuple

try:
    import numpy
except ImportError:
    numpy = None  # type: ignore[assignment]

LEAST = {"q": -2**63, "i": -2**31, "I": 0}
MOST = {"q": 2**63 - 1, "i": 2**31 - 1, "I": 2**32 - 1}
Shape = Tuple[int, ...]


class Run(NamedTuple):
    """Numbers in one run of memory: their owner, their address, and how many they are."""

    owner: Any
    address: int
    length: int


class Pairs(array.array):  # type: ignore[type-arg]
    """Pairs as one run of numbers, three a pair: first site, second site, weight."""


def is_array(values: Any) -> bool:
    return numpy is not None and isinstance(values, numpy.ndarray)


def taken(values: Any, what: str) -> Any:
    """The numbers as they are looked at: an array of numpy where they are one, else a sequence."""
    if isinstance(values, str):
        raise TypeError(f"{what}: whole numbers are wanted, and not a string")
    if numpy is not None:
        if isinstance(values, numpy.ma.MaskedArray):
            masked = int(numpy.ma.count_masked(values))
            if masked:
                raise ValueError(f"{what}: {masked} numbers of the masked array are masked, and"
                                 " each must be there: fill them first, as by filled(10_000_000)")
            return numpy.asarray(values.data)
        if hasattr(values, "__array__") and not isinstance(values, array.array):
            return numpy.asarray(values)
    if isinstance(values, dict) or not hasattr(values, "__iter__"):
        raise TypeError(f"{what}: whole numbers are wanted, and not {type(values).__name__}")
    return values if hasattr(values, "__len__") and hasattr(values, "__getitem__") else list(values)


def shape_of(values: Any, what: str) -> Shape:
    """The sides of a table: an array's shape, or the lengths of lists in lists."""
    if hasattr(values, "shape"):
        return tuple(values.shape)
    if isinstance(values, str):
        raise TypeError(f"{what}: whole numbers are wanted, and not a string")
    if not hasattr(values, "__len__"):
        return ()
    if isinstance(values, array.array) or not len(values) or not hasattr(values[0], "__len__"):
        return (len(values),)
    sides = {shape_of(row, what) for row in values}
    if len(sides) > 1:
        wrong = sorted(side[0] if side else 0 for side in sides)
        raise ValueError(f"{what}: the rows have {wrong[0]} to {wrong[-1]} elements:"
                         " rows of one length are wanted")
    return (len(values), *sides.pop())


def _flat(values, what):
    for value in values:
        if isinstance(value, str):
            raise TypeError(f"{what}: whole numbers are wanted, and not a string")
        if hasattr(value, "__iter__"):
            yield from _flat(value, what)
        else:
            yield value


def run_of(values: Any, code: str, what: str) -> Run:
    """The numbers as one run of 64 bits (q) or 32 (i, and I from 0), copied where they must be."""
    owner: Any
    if is_array(values):
        if values.dtype.kind not in "iu":
            raise TypeError(f"{what}: whole numbers are wanted, and not {values.dtype}:"
                            " scale and round them first")
        wanted = {"q": numpy.int64, "i": numpy.int32, "I": numpy.uint32}[code]
        if values.dtype != wanted and values.size:
            if not LEAST[code] <= int(values.min()) <= int(values.max()) <= MOST[code]:
                raise OverflowError(f"{what}: a number is not from {LEAST[code]} to {MOST[code]}")
        owner = numpy.ascontiguousarray(values, dtype=wanted)
        return Run(owner, owner.ctypes.data, owner.size)
    if isinstance(values, array.array) and values.typecode == code:
        owner = values
    else:
        try:
            owner = array.array(code, _flat(values, what))
        except TypeError as error:
            if str(error).startswith(what):
                raise
            raise TypeError(f"{what}: whole numbers are wanted: {error}") from None
        except OverflowError:
            raise OverflowError(
                f"{what}: a number is not from {LEAST[code]} to {MOST[code]}") from None
    address, count = owner.buffer_info()
    return Run(owner, address, count)


def whole(value: Any, least: int, most: int, what: str) -> int:
    """A number of the call, where it is one."""
    if not hasattr(value, "__index__"):
        raise TypeError(f"{what}: a whole number is wanted, and not {type(value).__name__}")
    number = int(value.__index__())
    if not least <= number <= most:
        raise OverflowError(f"{what}: {number} is not from {least} to {most}")
    return number


def is_narrow(values: Any) -> bool:
    """Whether the numbers lie in an array of at most 32 bits each, and so go as 32 bits."""
    if is_array(values):
        return bool(numpy.can_cast(values.dtype, numpy.int32))
    return isinstance(values, array.array) and values.typecode == "i"


def numbers(values: Any, what: str) -> Any:
    """An array of numpy of whole numbers of 64 bits, none of which wraps."""
    return run_of(numpy.asarray(taken(values, what) if hasattr(values, "__iter__") else values),
                  "q", what).owner


def zeros(count: int) -> Any:
    """So many labels 0: an array of numpy where that is there."""
    if numpy is None:
        return array.array("I", bytes(4 * count))
    return numpy.zeros(count, dtype=numpy.uint32)


def copied_labels(values: Any, what: str) -> Any:
    """A copy of labels, flat."""
    owner = run_of(values, "I", what).owner
    if isinstance(owner, array.array):
        return owner[:] if numpy is None else numpy.array(owner, dtype=numpy.uint32)
    return owner.copy().reshape(-1)


def run_of_labels(labels: Any) -> Tuple[int, int]:
    """The address of labels, and how many they are."""
    if isinstance(labels, array.array):
        return labels.buffer_info()
    return labels.ctypes.data, labels.size


def differing(before: Any, after: Any) -> int:
    """At how many places two runs of labels differ."""
    if isinstance(after, array.array):
        return sum(1 for old, new in zip(before, after) if old != new)
    return int(numpy.count_nonzero(before != after))
