"""Which messages the table of references has."""

import random
from collections.abc import Mapping
from typing import NamedTuple

from olr.matching.asking import outcome_of
from olr.messages.message import Message
from olr.model.answers import Places
from olr.model.fault import Fault
from olr.reservoir import Reservoir

SEED = 1
ORDER = ("none", "refused", "ambiguous", "open", "unique")
"""Of outcomes: what may be wrong comes first."""


class Drawn(NamedTuple):
    """A message of the sample."""

    message: Message
    fault: Fault | None
    """Of the answer to `places`, if that is one."""


class Sample:
    """Messages of each outcome: all of them, or as many as there is room for, each of them as likely as another. It holds no more than
    `most` of each outcome at a time."""

    def __init__(self, most: int) -> None:
        self._most = most
        self._kept: dict[str, Reservoir[Drawn]] = {}
        self._draws = random.Random(SEED)

    def add(self, message: Message, answer: Places | Fault) -> None:
        """Adds a message, or not."""
        kept = self._kept.setdefault(outcome_of(answer), Reservoir(self._most, self._draws))
        kept.add(Drawn(message, answer if isinstance(answer, Fault) else None))

    def chosen(self) -> list[Drawn]:
        """The sample: what isn't unique first, and then as in the file. Each outcome has an equal share of its rows; one that has fewer
        leaves room to the others."""
        sizes = {outcome: len(one.kept) for outcome, one in self._kept.items()}
        chosen = [
            (ORDER.index(outcome.partition(",")[0]), drawn.message.record, drawn)
            for outcome, count in sorted(equal_shares(sizes, self._most).items())
            for drawn in self._draws.sample(self._kept[outcome].kept, count)
        ]
        return [drawn for _, _, drawn in sorted(chosen, key=lambda it: it[:2])]


def equal_shares(sizes: Mapping[str, int], most: int) -> dict[str, int]:
    """How many of each of some sets of these sizes are taken: `most` together, or all, and of none more than of a larger one, but for
    the last ones."""
    shares: dict[str, int] = {}
    for done, (name, size) in enumerate(sorted(sizes.items(), key=lambda it: (it[1], it[0]))):
        shares[name] = min(size, (most - sum(shares.values())) // (len(sizes) - done))
    return shares
