"""Some of many things, which come one after the other."""

import random
from typing import Generic, TypeVar

Item = TypeVar("Item")


class Reservoir(Generic[Item]):
    """All of some things, or `most` of them, each of them as likely as another. It holds no more at a time."""

    def __init__(self, most: int, draws: random.Random) -> None:
        self._most, self._draws = most, draws
        self.seen = 0
        """So many were added."""
        self.kept: list[Item] = []

    def add(self, item: Item) -> None:
        """Adds one, or not."""
        self.seen += 1
        if len(self.kept) < self._most:
            self.kept.append(item)
        elif (at := self._draws.randrange(self.seen)) < self._most:
            self.kept[at] = item
