"""Answers to `places`, counted one after the other."""

from bisect import bisect_right
from collections import Counter

from olr.confidence.expected import Expected
from olr.confidence.sentences import MILLION
from olr.model.answers import MapDiffers, Places
from olr.model.fault import Fault

BINS = 10
"""Of probabilities, all of the same width."""
EDGES = (0, 1, 5, 10, 20, 30, 50, 100, 200, 500, 1000)
"""Where ranges of penalty points begin. The last one has no end."""


class Histogram:
    """Numbers of penalty points, counted by ranges."""

    def __init__(self) -> None:
        self._counts: Counter[int] = Counter()

    def add(self, points: int) -> None:
        """Counts a number, of 0 or more."""
        self._counts[bisect_right(EDGES, points) - 1] += 1

    def rows(self) -> list[tuple[str, int]]:
        """The ranges with their counts, up to the last one that has any."""
        return [(_range(at), self._counts[at]) for at in range(max(self._counts, default=-1) + 1)]

    def total(self) -> int:
        """How many there are."""
        return self._counts.total()


def _range(at: int) -> str:
    """What a range is called."""
    if at + 1 == len(EDGES):
        return f"{EDGES[at]:,} or more"
    first, last = EDGES[at], EDGES[at + 1] - 1
    return f"{first:,}" if first == last else f"{first:,} to {last:,}"


class Probabilities:
    """Probabilities of likeliest places, in millionths, counted by bins and added up."""

    def __init__(self) -> None:
        self._counts = [0] * BINS
        self.expected = Expected()
        self.without = 0
        """So many likeliest places have none."""

    def add(self, probability: int | None) -> None:
        """Counts one."""
        if probability is None:
            self.without += 1
            return
        self.expected.add(probability / MILLION)
        self._counts[min(probability * BINS // MILLION, BINS - 1)] += 1

    def rows(self) -> list[tuple[str, int]]:
        """All bins with their counts, that of the greatest probabilities first."""
        return [(_bin(at), self._counts[at]) for at in reversed(range(BINS))]

    def total(self) -> int:
        """How many likeliest places there are."""
        return self.expected.count + self.without


def _bin(at: int) -> str:
    """What a bin is called."""
    if at == 0:
        return f"below {1 / BINS:g}"
    end = "1" if at + 1 == BINS else f"below {(at + 1) / BINS:g}"
    return f"{at / BINS:g} to {end}"


class PlaceCounts:
    """Counts of answers to `places` in the likely order."""

    def __init__(self) -> None:
        self.verdicts: Counter[str] = Counter()
        """A fault is `refused`."""
        self.faults: Counter[str] = Counter()
        """By their texts."""
        self.totals = Histogram()
        """Of likeliest places."""
        self.gaps = Histogram()
        """Of places that are shown, but of that which costs least."""
        self.margins = Histogram()
        self.without_margin = 0
        """So many references that fit somewhere have no margin."""
        self.probabilities = Probabilities()
        self.turning_back = 0
        """So many likeliest places turn back."""
        self.cut_off = 0
        """So many references may have more places: looking was cut off."""
        self.map_differs: MapDiffers | None = None
        """How different the sender's map is, as the answers say."""

    def add(self, answer: Places | Fault) -> None:
        """Counts an answer."""
        if isinstance(answer, Fault):
            self.verdicts["refused"] += 1
            self.faults[answer.text] += 1
            return
        self.verdicts[answer.verdict] += 1
        self.cut_off += bool(answer.cut)
        self.map_differs = answer.map_differs or self.map_differs
        if not answer.places:
            return
        likeliest = answer.places[0]
        self.totals.add(likeliest.matching.total)
        self.turning_back += bool(likeliest.matching.turns_back)
        self.probabilities.add(likeliest.probability)
        for one in answer:
            if one.rank != 1:
                self.gaps.add(one.gap)
        if answer.margin is None:
            self.without_margin += 1
        else:
            self.margins.add(answer.margin)

    def references(self) -> int:
        """How many there were."""
        return self.verdicts.total()
