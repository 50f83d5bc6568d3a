"""The weights of a confidence: how much each difference between a reference and a place counts.

The probabilities of the places of an answer, and that none of them is the right one, are those of a conditional logit: each place has a
worth, which its differences lower, `none of these` has one too, and a probability is the share of 2 to the power of a worth in all of them.
Worths, differences and the weights of a file are whole numbers.
"""

import numpy as np
from collections.abc import Mapping
from typing import NamedTuple

from olr.arrays import Floats, Integers
from olr.confidence.terms import Terms

ORDER = 1 << 24
"""A worth that is so much greater is twice as probable: worths and weights are in parts of a binary order."""
MOST_OF_PLACE, MOST_OF_NONE = 1 << 28, 1 << 32
"""The greatest weight of a difference of places, which is at least 0, and that of none of these, which may be below 0 by as much."""
MOST_THOUSANDTHS, MOST_POINTS, MOST_LINES, MOST_LENGTH = 1000, 100, 100_000, 1_000_000
"""As many are counted at most; of a length decimetres."""
PARTS_OF_LINE = 16
"""Of whose number the root is counted."""


class Weight(NamedTuple):
    """What is known of a weight."""

    unit: str
    """What it is for."""
    usual: int
    """How large it is, more or less, in parts of a binary order: for the search."""
    least: int = 0
    greatest: int = MOST_OF_PLACE


def _of_none(unit: str, usual: int) -> Weight:
    """One of none of these."""
    return Weight(unit, usual, -MOST_OF_NONE, MOST_OF_NONE)


OF_PLACE: Mapping[str, Weight] = {
    "distance": Weight(
        "a thousandth of the route between the farthest point and its line", 800_000
    ),
    "direction": Weight(
        "a sector of 11.25 degrees between the worst direction and its line", 4_000_000
    ),
    "leg": Weight("a thousandth by which the worst leg misses what the reference says", 300_000),
    "behind": Weight("a thirtieth of a point of likely cost beyond the likeliest place", 50_000),
    "turning_back": Weight("a route that turns back", 72_000_000),
}
"""What lowers the worth of a place."""
OF_NONE: Mapping[str, Weight] = {
    "none": _of_none("none of these, of a reference of two points", 48_000_000),
    "none_points": _of_none("each further point of the reference", 12_000_000),
    "none_lines": _of_none(
        "a quarter of the root of the number of lines of the likeliest place", 8_000_000
    ),
    "none_length": _of_none("the root of a decimetre of its length", 400_000),
}
"""What raises that of none of these."""
WEIGHTS: Mapping[str, Weight] = {**OF_PLACE, **OF_NONE}


class Differences(NamedTuple):
    """What the weights count, of answers that have places."""

    sizes: Integers
    """How many places each answer has: at least one."""
    of_place: Floats
    """A row for each place, with a column for each of `OF_PLACE`."""
    of_none: Floats
    """A row for each answer, with a column for each of `OF_NONE`."""

    def starts(self) -> Integers:
        """The row of the first place of each answer."""
        result: Integers = np.cumsum(self.sizes) - self.sizes
        return result


class Probabilities(NamedTuple):
    """How probable it is that a place is the right one, or none."""

    of_place: Floats
    of_none: Floats
    """Of each answer: with those of its places they add up to 1."""


def differences_of(terms: Terms) -> Differences:
    """What the weights count of places."""
    sizes = terms.sizes[terms.sizes > 0]
    first, lengths = terms.first(), terms.lengths()
    share = 100 * terms.worst_point(terms.distance) // np.maximum(lengths, 1)
    of_place = (
        np.minimum(share, MOST_THOUSANDTHS),
        terms.worst_point(terms.sectors),
        np.minimum(terms.worst_leg(np.abs(terms.longer())), MOST_THOUSANDTHS),
        terms.costs - np.repeat(terms.costs[first], sizes),
        terms.turns_back,
    )
    of_none = (
        np.ones(len(first)),
        np.minimum(terms.counts[first], MOST_POINTS) - 2,
        np.floor(np.sqrt(PARTS_OF_LINE * np.minimum(terms.lines[first], MOST_LINES))),
        np.floor(np.sqrt(np.minimum(lengths[first], MOST_LENGTH))),
    )
    columns = (np.stack(it, axis=1).astype(np.float64) for it in (of_place, of_none))
    return Differences(sizes, *columns)


def probabilities(weights: Floats, differences: Differences) -> Probabilities:
    """The probabilities by weights, in the order of `WEIGHTS`."""
    starts, sizes = differences.starts(), differences.sizes
    if not len(sizes):
        return Probabilities(np.zeros(0), np.zeros(0))
    of_place = -differences.of_place @ weights[: len(OF_PLACE)]
    of_none = differences.of_none @ weights[len(OF_PLACE) :]
    greatest = np.maximum(np.maximum.reduceat(of_place, starts), of_none)
    place = np.exp2((of_place - np.repeat(greatest, sizes)) / ORDER)
    none = np.exp2((of_none - greatest) / ORDER)
    whole = np.add.reduceat(place, starts) + none
    return Probabilities(place / np.repeat(whole, sizes), none / whole)
