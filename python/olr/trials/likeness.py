"""With which line a drawn path begins, and how long it is: as is usual, or as those of messages."""

import math
import random
from collections import Counter
from collections.abc import Iterable, Sequence
from itertools import accumulate
from typing import NamedTuple, Protocol

from olr.arrays import Integers
from olr.model.answers import Reference
from olr.trials.encoder import INTERVAL

SHORTEST, LONGEST = 3_000, 100_000
"""Of usual paths, in decimetres: between them the logarithm of a length is drawn evenly, so that there are as many of 0.3 to 1 km as of
3 to 10."""
FREQUENCIES = (20, 20, 20, 15, 10, 8, 5, 2)
"""How often a usual path begins on a road of each class, from 0 to 7, in percent: traffic messages are about main roads. It is no count
of a feed. Classes that the map hasn't are left out."""


class Beginning(NamedTuple):
    """The first line of a path that is to be drawn, and how long it is."""

    line: int
    """Its index."""
    length: float
    """In decimetres."""


class Likeness(Protocol):
    """Draws beginnings of paths."""

    def beginning(self, of_class: Sequence[Integers], draws: random.Random) -> Beginning | None:
        """One of them. `of_class` has the indices of the map's lines by their class, of which one has some. None if the map hasn't such
        a line."""


class Usual:
    """Classes and lengths by `FREQUENCIES` and `SHORTEST` to `LONGEST`."""

    def beginning(self, of_class: Sequence[Integers], draws: random.Random) -> Beginning:
        """One of them."""
        frequencies = [often if len(lines) else 0 for often, lines in zip(FREQUENCIES, of_class)]
        (lines,) = draws.choices(of_class, frequencies)
        line = int(draws.choice(lines))
        return Beginning(line, math.exp(draws.uniform(math.log(SHORTEST), math.log(LONGEST))))


class LikeMessages:
    """Classes and lengths of messages: of each line reference the class of its first point, and the length of its legs together."""

    def __init__(self, references: Iterable[Reference]) -> None:
        """Those of line references, of which there is one at least."""
        counts: Counter[tuple[int, float]] = Counter()
        for one in references:
            legs = [point.interval for point in one.points if point.interval is not None]
            counts[one.points[0].class_, (sum(legs) + len(legs) / 2) * INTERVAL] += 1
        self._kinds = list(counts)
        self._behind = list(accumulate(counts.values()))

    def beginning(self, of_class: Sequence[Integers], draws: random.Random) -> Beginning | None:
        """One of a message. None if the map hasn't a line of its class."""
        ((road_class, length),) = draws.choices(self._kinds, cum_weights=self._behind)
        lines = of_class[road_class]
        return Beginning(int(draws.choice(lines)), length) if len(lines) else None
