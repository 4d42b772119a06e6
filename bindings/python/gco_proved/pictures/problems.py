"""`label` and `energy` on files: the TOML of docs/LABEL.md and docs/ENERGY.md, and their lines."""
import sys
from typing import Any, Dict, List, Tuple

from .. import labelling, minimum
from .._library import DATA_LIMIT, LABEL_COST_LIMIT, PAIR_LIMIT, SITE_LIMIT, SMOOTH_LIMIT
from .._library import TERM_LIMIT, VALUE_LIMIT, VARIABLE_LIMIT, WEIGHT_LIMIT
from ..refusals import Refused
from .reading import bytes_of
from .running import Wanted, bound_line, gap_line, ran
from .words import Wrong

BYTES = 268435456
TABLES: Dict[str, Any] = {"potts": lambda k, trunc: labelling.potts(k), "linear": labelling.linear,
          "quadratic": labelling.quadratic}


class Line(Exception):
    """A refusal by the program's line, and in words."""

    def __init__(self, line: str, words: str) -> None:
        super().__init__(f"refused {line}\n{words}")


def document(name: str) -> Dict[str, Any]:
    """The TOML document of a file, or of standard input where its name is -."""
    data = sys.stdin.buffer.read() if name == "-" else bytes_of(name)
    if len(data) > BYTES:
        raise Line("32", f"the file has more than {BYTES:,} bytes")
    try:
        import tomllib
    except ImportError:
        try:
            import tomli as tomllib  # type: ignore[no-redef]
        except ImportError:
            raise Wrong("problem files want Python 3.11 or tomli: pip install tomli") from None
    try:
        read = tomllib.loads(data.decode("utf-8"))
        _look_at(read, 0)
    except (tomllib.TOMLDecodeError, UnicodeDecodeError, RecursionError) as error:
        raise Line("28", f"{name} is no TOML document in UTF-8: {error}") from None
    return read


def _look_at(value: Any, depth: int) -> None:
    """Refuses integers outside 64 bits, and what nests too deep."""
    if type(value) is int:
        if not -2**63 <= value < 2**63:
            raise Line("28", f"{value} is outside 64 bits")
    elif isinstance(value, (list, dict)):
        if depth >= 80 and depth:
            raise Line("28", "the document nests deeper than 80 arrays or tables")
        for one in value.values() if isinstance(value, dict) else value:
            if type(one) is not int or not -2**63 <= one < 2**63:
                _look_at(one, depth + 1)


def is_whole(value: Any) -> bool:
    return type(value) is int


def _number(read: Dict[str, Any], name: str, least: int, most: int, other: Any) -> int:
    value = read.get(name, other)
    if not is_whole(value) or not least <= value <= most:
        raise Line(f"29 {name}", f"{name}: an integer from {least:,} to {most:,} is wanted")
    return value


def _listed(read: Dict[str, Any], name: str, length: int) -> List[int]:
    """A list of so many integers."""
    values = read.get(name)
    if not isinstance(values, list) or len(values) != length:
        raise Line(f"29 {name}", f"{name}: an array of {length:,} integers is wanted")
    for place, value in enumerate(values):
        if not is_whole(value):
            raise Line(f"29 {name} {place}", f"{name}: element {place} is no integer")
    return values


def _ranged(values: List[int], most: int, line: str, name: str) -> List[int]:
    for place, value in enumerate(values):
        if not 0 <= value <= most:
            raise Line(f"{line} {place}", f"{name}: element {place} is {value:,}, and is to be from"
                       f" 0 to {most:,}")
    return values


def _smooth(read: Dict[str, Any], labels: int) -> Any:
    smooth = read.get("smooth", "potts")
    if isinstance(smooth, list):
        costs = _listed(read, "smooth", labels * labels)
        return _ranged(costs, SMOOTH_LIMIT, "15 smooth", "smooth")
    if not isinstance(smooth, str) or smooth not in TABLES:
        raise Line("29 smooth", 'smooth: "potts", "linear", "quadratic" or an array is wanted')
    return smooth


def _pairs(read: Dict[str, Any], sites: int) -> List[Tuple[int, ...]]:
    pairs = read.get("pairs", [])
    if not isinstance(pairs, list):
        raise Line("29 pairs", "pairs: an array of [p, q] or [p, q, w] is wanted")
    if len(pairs) > PAIR_LIMIT:
        raise Line("13", f"there are {len(pairs):,} pairs, and at most {PAIR_LIMIT:,} are taken")
    for place, pair in enumerate(pairs):
        if not isinstance(pair, list) or len(pair) not in (2, 3) or not all(map(is_whole, pair)):
            raise Line(f"29 pairs {place}",
                       f"pair {place}: [p, q] or [p, q, w] of integers is wanted")
        first, second, weight = (*pair, 1)[:3]
        if not (0 <= first < sites and 0 <= second < sites):
            raise Line(f"10 pair {place}", f"pair {place} joins {first} and {second}: the sites are"
                       f" 0 to {sites - 1}")
        if first == second:
            raise Line(f"12 pair {place}", f"pair {place} joins site {first} to itself")
        if not 0 <= weight <= WEIGHT_LIMIT:
            raise Line(f"14 pair {place}", f"pair {place} of sites {first} and {second} has the"
                       f" weight {weight:,}: a weight is from 0 to {WEIGHT_LIMIT:,}")
    return pairs


def label_lines(name: str, bound: bool, wanted: Wanted) -> str:
    """What `gco label` prints of a problem file, and with --gap a line more."""
    read = document(name)
    sites = _number(read, "sites", 0, SITE_LIMIT, None)
    labels = _number(read, "labels", 1, 256, None)
    data = _ranged(_listed(read, "data", sites * labels), DATA_LIMIT, "15 data", "data")
    smooth = _smooth(read, labels)
    trunc = _number(read, "trunc", 1, SMOOTH_LIMIT, 1)
    pairs = _pairs(read, sites)
    start = None
    if "start" in read:
        start = _listed(read, "start", sites)
        for site, one in enumerate(start):
            if not 0 <= one < labels:
                raise Line(f"11 site {site}", f"start: site {site} has label {one}: the labels are"
                           f" 0 to {labels - 1}")
    moves = read.get("moves", "expansion")
    if moves not in ("expansion", "swap"):
        raise Line("29 moves", 'moves: "expansion" or "swap" is wanted')
    cycles = _number(read, "cycles", 0, 1000, 100)
    costs = None
    if "label_costs" in read:
        costs = _ranged(_listed(read, "label_costs", labels), LABEL_COST_LIMIT, "15 label",
                        "label_costs")
    if isinstance(smooth, str):
        smooth = TABLES[smooth](labels, trunc)
    if wanted.refine and start is not None:
        raise Wrong("--refine starts from labels of its own, and the file has a start: leave one of"
                    " the two away")
    try:
        ended = ran(data, smooth, pairs, costs, moves, cycles, False, False, wanted, start)
    except Refused as refused:
        raise _line_of(refused, moves) from None
    found = ended.found
    text = f"energy {found.energy} data {found.data} smooth {found.smooth}"
    text += f" label {found.label}\n" if costs is not None else "\n"
    text += " ".join(["labels", *map(str, list(found.labels))]) + "\n"
    text += bound_line(found.bound) + "\n" if bound else ""
    return text + gap_line(found.energy, ended.low) + "\n" if wanted.gap else text


def _line_of(refused: Refused, moves: str) -> Exception:
    if refused.status == 27:
        return Line("27", "swaps take no label cost above 0: take expansions")
    if refused.status == 24:
        move = f"alpha {refused.alpha}" + (f" beta {refused.beta}" if moves == "swap" else "")
        return Line(f"24 pair {refused.place} {move}", str(refused))
    if refused.status == 1:
        return Line("0", "the memory does not serve")
    return refused


def _irregular(count: int, values: List[int]) -> Any:
    """None where a term is regular; else () or the variable and value that are fixed."""
    if count == 2 and values[0] + values[3] > values[1] + values[2]:
        return ()
    for fixed in range(3 if count == 3 else 0):
        kept = [4, 2, 1][fixed]
        one, two = [step for step in (4, 2, 1) if step != kept]
        for bit in (0, 1):
            at = bit * kept
            if values[at] + values[at + one + two] > values[at + two] + values[at + one]:
                return fixed, bit
    return None


def _term(term: Any, place: int, variables: int) -> Tuple[List[int], List[int]]:
    on, values = (term.get("on"), term.get("values")) if isinstance(term, dict) else (None, None)
    if not (isinstance(on, list) and isinstance(values, list) and 1 <= len(on) <= 3
            and len(values) == 2 ** len(on) and all(map(is_whole, on + values))):
        raise Line(f"29 terms {place}", f"term {place}: a table of `on` with one to three variables"
                   " and of `values` with 2, 4 or 8 integers is wanted")
    for variable in on:
        if not 0 <= variable < variables:
            raise Line(f"16 term {place}", f"term {place} is on {variable}: the variables are 0 to"
                       f" {variables - 1}")
    if len(set(on)) < len(on):
        raise Line(f"17 term {place}", f"term {place} names one variable twice")
    if not all(-VALUE_LIMIT <= value <= VALUE_LIMIT for value in values):
        raise Line(f"18 term {place}", f"term {place}: a value is beyond {VALUE_LIMIT:,}")
    return on, values


def energy_lines(name: str) -> str:
    """What `gco energy` prints of a problem file."""
    read = document(name)
    variables = _number(read, "variables", 0, VARIABLE_LIMIT, None)
    constant = read.get("constant", 0)
    if not is_whole(constant):
        raise Line("29 constant", "constant: an integer is wanted")
    if not -VALUE_LIMIT <= constant <= VALUE_LIMIT:
        raise Line("18 constant", f"the constant is beyond {VALUE_LIMIT:,}")
    terms = read.get("terms", [])
    if not isinstance(terms, list):
        raise Line("29 terms", "terms: an array of tables is wanted")
    if len(terms) > TERM_LIMIT:
        raise Line("19", f"there are {len(terms):,} terms, and at most {TERM_LIMIT:,} are taken")
    kinds: Tuple[List, List, List] = [], [], []
    taken = [_term(term, place, variables) for place, term in enumerate(terms)]
    for place, (on, values) in enumerate(taken):
        failing = _irregular(len(on), values)
        if failing is not None:
            fixed = " fixed %d at %d" % failing if failing else ""
            raise Line(f"20 term {place}{fixed}", f"term {place} is not regular")
        kinds[len(on) - 1].append((*on, values))
    value, bits = minimum.minimise(variables, *kinds, constant)
    digits = "".join(map(str, bits))
    return f"minimum {value}\nassignment{' ' + digits if digits else ''}\n"
