"""What the answers to a feed show of how different its sender's map is: some numbers of all of them together."""

import numpy as np
from typing import Any

from olr.arrays import Floats, Integers
from olr.confidence.terms import Terms
from olr.confidence.weights import differences_of, probabilities

LEAST_REFERENCES = 80
"""A feed of fewer references says too little."""
POINT = 30
"""In so many parts of a penalty point the likely cost is told."""
LONG_LEG = 5000
"""Decimetres: the lengths of shorter legs are too coarse to tell how much two maps differ."""
SAYING = (
    "share of references without a place",
    "share of places that turn back",
    "median share by which long legs differ from the middle of what it says",
    "standard deviation of that",
    "probability of none of these that a tenth exceed",
)
"""The numbers that say how many likeliest places are wrong. The others depend on a sender's habits at least as much."""
FAR_END = 100
"""Decimetres that a point lies from the proper end of its line, beyond which it doesn't lie at the junction."""


def statistics_of(terms: Terms, weights: Floats) -> dict[str, float]:
    """The numbers of some answers by what they are. Those of the likeliest places alone count, but for how many there are. `weights` are
    those by which it is doubted that these are right. Of answers of which none has a place most numbers are 0.
    """
    first = np.zeros(len(terms.costs), dtype=np.bool_)
    first[terms.first()] = True
    points = np.repeat(first, terms.counts)
    legs = np.repeat(first, terms.counts - 1)
    places = _or_zero(terms.sizes[terms.sizes > 0])
    distance, sectors = _or_zero(terms.distance[points] / 100), _or_zero(terms.sectors[points])
    misses = _or_zero(np.abs(terms.longer()[legs]) / 1000)
    off = _off(terms.least[legs] + terms.greatest[legs] + 1, terms.length[legs])
    costs = _or_zero(terms.costs[first] / POINT / terms.counts[first])
    doubts = _or_zero(probabilities(weights, differences_of(terms)).of_none)
    return {
        "share of references without a place": np.mean(terms.sizes == 0),
        "mean of the logarithm of one more than the places": np.mean(np.log1p(places)),
        "share with several places": np.mean(places > 1),
        "median distance of points from their lines, in metres": np.median(distance),
        "mean distance": np.mean(distance),
        "distance that a tenth of the points exceed": np.quantile(distance, 0.9),
        "share of points with another direction": np.mean(sectors > 0),
        "mean difference of directions, in sectors": np.mean(sectors),
        "difference that a twentieth of the points exceed": np.quantile(sectors, 0.95),
        "share of legs that miss what the reference says": np.mean(misses > 0),
        "mean share by which legs miss it": np.mean(misses),
        "median share by which long legs differ from the middle of what it says": np.median(
            np.abs(off)
        ),
        "standard deviation of that": np.std(off),
        "mean difference of classes": np.mean(_or_zero(terms.classes[points])),
        "share of points with another form": np.mean(_or_zero(terms.other_form[points])),
        "share of points that don't lie at the proper end of their line": np.mean(
            _or_zero(terms.end[points]) > FAR_END
        ),
        "share of places that turn back": np.mean(_or_zero(terms.turns_back[first])),
        "mean likely cost for each point": np.mean(costs),
        "mean probability of none of these": np.mean(doubts),
        "share where it is above a half": np.mean(doubts > 0.5),
        "probability of none of these that a quarter exceed": np.quantile(doubts, 0.75),
        "probability of none of these that a tenth exceed": np.quantile(doubts, 0.9),
    }


def _or_zero(values: Any) -> Any:
    """Values, or a 0 if there is none."""
    return values if len(values) else np.zeros(1)


def _off(ends: Integers, length: Integers) -> Any:
    """By what share long legs differ from the middle of what their references say, of which `ends` has the sum of both ends; a 0 if there is none."""
    middle = ends / 2
    is_long = middle >= LONG_LEG
    return _or_zero((length[is_long] - middle[is_long]) / middle[is_long])
