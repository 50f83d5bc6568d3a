"""Whether a place is the right one."""

from collections import defaultdict
from collections.abc import Iterable, Mapping, Sequence
from typing import TYPE_CHECKING

from olr.model.pieces import Piece

if TYPE_CHECKING:
    from olr.trials.paths import Stretch

RIGHT = 0.9
"""The share of each other that the true path and a place cover at least, if the place is the right one.

Both count. A place that covers the true path may go on for as long again: who gets a message about a street wouldn't call that right.
One that lies on the true path may be a small part of it. The tenth is for the ends, since points lie some metres off.
"""


def is_right(
    lengths: Mapping[int, int],
    path: Sequence["Stretch"],
    outer: Iterable[Piece],
    share: float = RIGHT,
) -> bool:
    """Whether a true path and the outer part of a place cover so much of each other. `lengths` has the length of each line of the path
    in decimetres, on the map of the place if it is there."""
    pieces = list(outer)
    true = sum(lengths[one.line] * (one.end - one.start) for one in path)
    longer = max(true, sum(end - start for _, start, end in pieces))
    return longer > 0 and _common(lengths, path, pieces) >= share * longer


def _common(
    lengths: Mapping[int, int], path: Sequence["Stretch"], pieces: Sequence[Piece]
) -> float:
    """How much of a path lies in pieces, in decimetres. What is there twice counts once."""
    of_line: dict[int, list[tuple[int, int]]] = defaultdict(list)
    for line, start, end in pieces:
        of_line[line].append((start, end))
    common = 0.0
    for line, first, last in path:
        reached, behind = first * lengths[line], last * lengths[line]
        for start, end in sorted(of_line[line]):
            low, high = max(start, reached), min(end, behind)
            common += max(0.0, high - low)
            reached = max(reached, high)
    return common
