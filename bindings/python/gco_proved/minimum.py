"""minimise: the least assignment of yes-no variables."""
import array
import ctypes
from typing import Any, Iterable, Tuple

from ._library import Minimum, calls
from .arrays import whole
from .refusals import Refused


def least(variables: int, constant: int, ones: Any, twos: Any, threes: Any) -> Tuple[int, Any]:
    """The least value and assignment of terms that lie as gco_one, gco_two and gco_three do."""
    bits, told = array.array("B", bytes(variables)), Minimum()
    slices = [number for terms, size in ((ones, 3), (twos, 5), (threes, 10))
              for number in (terms.buffer_info()[0], len(terms) // size)]
    status = calls.gco_minimise(constant, *slices, bits.buffer_info()[0], variables,
                                ctypes.addressof(told))
    if status:
        fixed = (told.fixed, told.fixed_at) if told.fixed < 3 else None
        raise Refused(status, told.place, fixed=fixed)
    return told.value, bits


def minimise(variables: int, ones: Iterable = (), twos: Iterable = (), threes: Iterable = (),
             constant: int = 0) -> Tuple[int, Any]:
    """The least value over all assignments of so many yes-no variables, and the least assignment
    with the fewest ones.

    ones: (x, (at0, at1)); twos: (x, y, (at00, at01, at10, at11)); threes: (x, y, z, (at000, ..,
    at111)). A number is from -1,000,000,000 to 1,000,000,000.
    """
    packed = array.array("q"), array.array("q"), array.array("q")
    tables = [list(terms) for terms in (ones, twos, threes)]
    for place, terms in enumerate(tables):
        for term in terms:
            packed[place].extend(_packed(term, place + 1))
    variables = whole(variables, 0, 2**31, "variables")
    constant = whole(constant, -2**63, 2**63 - 1, "constant")
    try:
        return least(variables, constant, *packed)
    except Refused as refused:
        raise _in_words(refused, tables) from None


def _packed(term, count):
    """A term as 64 bits: two numbers of 32 bits are the two halves of one."""
    *names, numbers = term
    names = [whole(name, 0, 2**31 - 1, "a variable") for name in names]
    if len(names) != count or len(numbers) != 1 << count:
        raise ValueError(f"a term of {count} variables has {count} names and {1 << count} numbers,"
                         f" and there is {term!r}")
    numbers = [whole(number, -2**63, 2**63 - 1, "a number of a term") for number in numbers]
    names += [0] * (4 - count)
    halves = [names[0] | names[1] << 32, names[2] | names[3] << 32][:1 if count < 3 else 2]
    return (*halves, *numbers)


def _in_words(refused, tables):
    """A refusal with the term itself, beside its place among all."""
    status, place = refused.status, refused.place
    if status not in (10, 12, 14, 20):
        return refused
    *names, numbers = [term for terms in tables for term in terms][place]
    of = "variable" if len(names) == 1 else "variables"
    where = f"term {place}, on {of} {', '.join(map(str, names))}"
    words = {
        10: f"{where}: no such variable", 12: f"{where}: one variable twice",
        14: f"{where}: its numbers are {tuple(numbers)}, and a number is from -1,000,000,000 to"
            " 1,000,000,000",
        20: f"{where}, is not regular",
    }[status]
    if refused.fixed:
        words += f", fixed {refused.fixed[0]} at {refused.fixed[1]}"
    return Refused(status, place, fixed=refused.fixed, words=words)
