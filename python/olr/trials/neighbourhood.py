"""A part of a large map, around one of its nodes: so that trials cost no more on a large map than on a town."""

import numpy as np
import random

from olr.arrays import Floats, Integers
from olr.model.road_map import RoadMap
from olr.trials.differing import without_lines
from olr.trials.roads import Roads


class Neighbourhoods:
    """Draws parts of a map."""

    def __init__(self, road_map: RoadMap, roads: Roads, most: int) -> None:
        """They have `most` lines; a smaller map is its only part."""
        self._map, self._roads, self._most = road_map, roads, most
        lat = np.array([node.position.lat for node in road_map.nodes], dtype=np.float64)
        lon = np.array([node.position.lon for node in road_map.nodes], dtype=np.float64)
        middle = lat.mean() / 1e6 if len(lat) else 0
        self._places: Floats = np.stack([lon * np.cos(np.radians(middle)), lat], axis=1)
        number = {node.id: at for at, node in enumerate(road_map.nodes)}
        ends = [(number[line.start], number[line.end]) for line in road_map.lines]
        self._ends: Integers = np.array(ends, dtype=np.int64).reshape(-1, 2)

    def drawn(self, draws: random.Random) -> RoadMap:
        """The lines that lie nearest to a node."""
        if len(self._map.lines) <= self._most:
            return self._map
        from_centre = self._places - self._places[draws.randrange(len(self._places))]
        farthest = np.hypot(*from_centre.T)[self._ends].max(axis=1)
        behind = np.argsort(farthest, kind="stable")[self._most :]
        lacking = {self._map.lines[at].id for at in behind.tolist()}
        return without_lines(self._map, self._roads, lacking)
