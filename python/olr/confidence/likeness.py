"""How many of a feed's likeliest places are wrong, and which parts of the trials it looks like.

Of each part is known how many of its likeliest places are wrong. A ridge regression says it by some numbers of its answers, as the logarithm
of odds. Parts of which it says the same as of the feed are alike, whatever they are in truth: so its errors are those of the feed too.
"""

import numpy as np

from olr.arrays import Booleans, Floats
from olr.confidence.confidence import Range

RIDGE = 3.0
"""What is added to the squares of the numbers, which are in standard deviations: so few parts don't decide much."""
GREATEST = 3.0
"""Standard deviations of a number that count at most."""
WIDTH_OF_WRONG, WIDTH_OF_MAPS = 0.5, 0.12
"""By how much parts that are alike may differ: in the logarithm of the odds that a likeliest place is wrong, and in how different maps are
where that is stated. Standard deviations of normal curves, which are wider where too few parts count."""
LEAST_PARTS = 20
"""So many parts count at least, if there are twice as many: of fewer parts half."""
INTERVAL = (0.025, 0.975)


class Likeness:
    """Says of a feed what is known of parts."""

    def __init__(self, statistics: Floats, known: Floats) -> None:
        """A row for each part: the numbers of its answers; and a number that is known of it."""
        self._mean, self._deviation = statistics.mean(axis=0), statistics.std(axis=0) + 1e-9
        scaled = self._scaled(statistics)
        self._middle = known.mean()
        square = scaled.T @ scaled + RIDGE * np.eye(scaled.shape[1])
        hat = scaled @ np.linalg.solve(square, scaled.T)
        self._slopes = np.linalg.solve(square, scaled.T @ (known - self._middle))
        # What would be said of each part if it weren't there.
        said = scaled @ self._slopes + self._middle
        self.said: Floats = known - (known - said) / (1 - np.diag(hat))

    def _scaled(self, statistics: Floats) -> Floats:
        """Numbers in standard deviations from their means."""
        result: Floats = np.clip((statistics - self._mean) / self._deviation, -GREATEST, GREATEST)
        return result

    def said_of(self, statistics: Floats) -> float:
        """What is known of a part, as the numbers of a feed say it of that."""
        return float(self._scaled(statistics) @ self._slopes + self._middle)


def alike(said: Floats, wanted: float, width: float) -> Floats:
    """How much parts count of which something is said, where something else is wanted. A part counts most that is nearest, even if none is
    near, and `LEAST_PARTS` count at least."""
    least = min(LEAST_PARTS, len(said) / 2)
    while True:
        squares = ((said - wanted) / width) ** 2
        weights: Floats = np.exp(-(squares - squares.min()) / 2)
        if counting(weights) >= least:
            return weights
        width *= 1.1


def counting(weights: Floats) -> float:
    """How many parts count, which count so much each: as many as parts that count alike and say as much together."""
    return float(weights.sum() ** 2 / (weights**2).sum())


def range_of(values: Floats, weights: Floats) -> Range:
    """The mean of weighted numbers, and within what nearly all of them lie, and the mean itself."""
    order = np.argsort(values)
    shares = np.cumsum(weights[order]) / weights.sum()
    low, high = (float(values[order][np.searchsorted(shares, at)]) for at in INTERVAL)
    mean = float(values @ weights / weights.sum())
    return Range(mean, min(low, mean), max(high, mean))


def are_outside(statistics: Floats, of_parts: Floats) -> Booleans:
    """Which numbers of a feed are less or greater than those of all parts, and far from their mean: none if there are too few parts to tell."""
    if len(of_parts) < LEAST_PARTS:
        return np.zeros(len(statistics), dtype=np.bool_)
    is_beyond = (statistics < of_parts.min(axis=0)) | (statistics > of_parts.max(axis=0))
    off = np.abs(statistics - of_parts.mean(axis=0))
    result: Booleans = is_beyond & (off > GREATEST * of_parts.std(axis=0))
    return result
