"""How many of the likeliest places of many answers are expected to be right: their probabilities, added up one after the other."""

import math

INTERVAL = 1.96
"""Standard deviations to each side of the mean, between which 95 percent of a normal curve lie."""


class Expected:
    """A sum of probabilities. By chance each place is right or wrong independently of the others, so that these variances add up; but if the
    level of all of them is off, they are off together."""

    def __init__(self) -> None:
        self.count = 0
        """How many probabilities there are."""
        self.right = 0.0
        """How many of them are expected to be right."""
        self._variance = 0.0

    def add(self, probability: float) -> None:
        """Adds that of one place."""
        self.count += 1
        self.right += probability
        self._variance += probability * (1 - probability)

    def interval(self, level: float = 0.0) -> tuple[float, float]:
        """Between which numbers it lies in 95 of 100 cases. `level` is how far the share of places that are right usually is from what is told:
        a standard deviation."""
        off = INTERVAL * math.sqrt(max(self._variance + (level * self.count) ** 2, 0.0))
        return max(self.right - off, 0.0), min(self.right + off, float(self.count))

    def text(self, level: float = 0.0) -> str:
        """How many are right, with the interval in whole places: `about 812 of 1,000 likeliest places are right (792 to 832)`."""
        low, high = self.interval(level)
        places = "place is" if self.count == 1 else "places are"
        between = f"{math.floor(low):,} to {math.ceil(high):,}"
        return f"about {self.right:,.0f} of {self.count:,} likeliest {places} right ({between})"
