"""Refused: a call that the library, or a look at the shapes before it, did not take."""
from typing import Optional, Tuple

WORDS = {
    1: "out of memory",
    2: "more than 1,048,576 sites, or 2,097,152 variables",
    3: "the number of labels is not from 1 to 256",
    4: "data: there is not one cost for each label at each site",
    5: "smooth: there is not one cost for each two labels",
    6: "no such moves",
    7: "label_costs: there is not one cost for each label",
    8: "a label of the move is not there",
    9: "the bound takes more bytes than most_bytes",
    10: "no such site in pair {place} (no such variable in term {place})",
    11: "no such label at site {place} of the start",
    12: "the same site twice in pair {place} (variable in term {place})",
    13: "more than 4,194,304 pairs, or 8,388,608 terms",
    14: "the weight of pair {place} is not from 0 to 1,000"
        " (a number of term {place} is beyond 1,000,000,000)",
    15: "data cost {place} is not from 0 to 10,000,000",
    16: "smooth cost {place} is not from 0 to 10,000",
    17: "the cost of label {place} is not from 0 to 10,000,000",
    18: "the constant is beyond 1,000,000,000",
    20: "term {place} is not regular",
    24: "the smooth costs are no metric: the term of pair {place} in the move of labels {alpha} and"
        " {beta} is not regular",
    27: "swaps, and some label costs more than 0 by itself: expansions take label costs",
    30: "there is not one number of a table for each pair",
    31: "the table of pair {place} is not there",
    32: "the weight of pair {place} times one of its smooth costs is above 10,000,000",
}


class Refused(ValueError):
    """A call was refused.

    `status` is gco.h's number of the cause. `place`, `alpha` and `beta` are what that status
    names. Of a pair, `sites` are its two sites. Of a term of three variables that is not regular,
    `fixed` is the place of a variable in it and a value. Else both are None. It can be pickled.
    """

    def __init__(self, status: int, place: int = 0, alpha: int = 0, beta: int = 0,
                 fixed: Optional[Tuple[int, int]] = None, words: Optional[str] = None,
                 sites: Optional[Tuple[int, int]] = None) -> None:
        self.status, self.place, self.alpha, self.beta = status, place, alpha, beta
        self.fixed, self.words, self.sites = fixed, words, sites
        if words is None:
            words = WORDS.get(status, f"refused {status}")
            words = words.format(place=place, alpha=alpha, beta=beta)
            words += f", fixed {fixed[0]} at {fixed[1]}" if fixed else ""
        super().__init__(words)

    def __reduce__(self):
        return (type(self), (self.status, self.place, self.alpha, self.beta, self.fixed, self.words,
                             self.sites))
