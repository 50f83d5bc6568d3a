"""The roads of a map: which lines are the two directions of one."""

from collections import defaultdict
from collections.abc import Mapping, Sequence

from olr.model.road_map import Line, RoadMap


class Roads:
    """The roads of a map, each with its one direction, or with both."""

    def __init__(self, road_map: RoadMap) -> None:
        self.opposite = _opposite(road_map.lines)
        """The id of the other direction of each line's road, where there is one."""
        self.directions = [
            (line.id, self.opposite[line.id]) if line.id in self.opposite else (line.id,)
            for line in road_map.lines
            if line.id <= self.opposite.get(line.id, line.id)
        ]
        """The ids of the lines of each road."""


def _opposite(lines: Sequence[Line]) -> Mapping[int, int]:
    """The other directions of lines, by their ids: with the ends exchanged and the same shape. Of roads that are drawn twice each
    direction has one of the other ones."""
    waiting: dict[object, list[int]] = defaultdict(list)
    found: dict[int, int] = {}
    for line in lines:
        others = waiting.get((line.end, line.start, line.shape[::-1]))
        if others:
            other = others.pop(0)
            found[line.id], found[other] = other, line.id
        else:
            waiting[line.start, line.end, line.shape].append(line.id)
    return found
