"""The lines of a map as a graph, for bounded searches by scipy."""

import numpy as np
from collections.abc import Sequence
from itertools import pairwise
from scipy.sparse import csr_matrix
from scipy.sparse.csgraph import dijkstra
from typing import NamedTuple

from olr.arrays import Floats, Integers
from olr.geometry.turns import turns_from
from olr.model.road_map import RoadMap
from olr.trials.roads import Roads

NONE = -1
"""Stands for the index or the id of a line where there is none."""


class Reached(NamedTuple):
    """What a search reached from the start of a line."""

    distances: Floats
    """To the start of each line, in decimetres; infinite beyond the limit."""
    before: Integers
    """The line before each one on a shortest path, by its index; negative where there is none."""


class Graph:
    """The lines of a map, by their indices, and the ones that traffic goes on to from each: it obeys the bans, and turns back only
    where nothing else leads on."""

    def __init__(self, road_map: RoadMap, roads: Roads) -> None:
        """The graph of a map. Its roads may be those of a map with more lines."""
        self.ids: Integers = np.array([line.id for line in road_map.lines], dtype=np.int64)
        self.classes: Integers = np.array([line.road_class for line in road_map.lines], np.int64)
        self.lengths: Integers = np.array([line.length for line in road_map.lines], np.int64)
        """In decimetres."""
        self.opposite = self._opposite(roads)
        """The other direction of each line's road, by its index; `NONE` where there is none."""
        first, second = _following(road_map, self.ids)
        back = self.opposite[first] == second
        leads_on = np.bincount(first[~back], minlength=len(self.ids)) > 0
        kept = ~(back & leads_on[first])
        first, second = first[kept], second[kept]
        size = (len(self.ids), len(self.ids))
        weights = self.lengths[first].astype(np.float64)
        # Each line of the matrix has the lengths to the starts of the following lines: whole numbers, which floats add without error.
        self._following = csr_matrix((weights, (first, second)), shape=size)

    def _opposite(self, roads: Roads) -> Integers:
        """The index of the other direction of each line's road."""
        ids = self.ids.tolist()
        indices = {id: index for index, id in enumerate(ids)}
        return np.array([indices.get(roads.opposite.get(id, NONE), NONE) for id in ids], np.int64)

    def reached(self, first: int, limit: float) -> Reached:
        """The lines whose starts aren't farther than a limit, in decimetres, from the start of a line."""
        distances, before = dijkstra(
            self._following, indices=first, limit=limit, return_predecessors=True
        )
        return Reached(distances, before)

    def path(self, reached: Reached, last: int) -> list[int]:
        """The lines of a shortest path to a line that was reached, with it and with the first one."""
        path = [last]
        while reached.before[path[-1]] >= 0:
            path.append(int(reached.before[path[-1]]))
        return path[::-1]

    def turns_back(self, path: Sequence[int]) -> bool:
        """Whether a path, by the indices of its lines, goes from one to the other direction of its road."""
        return any(self.opposite[line] == other for line, other in pairwise(path))


def _following(road_map: RoadMap, ids: Integers) -> tuple[Integers, Integers]:
    """The pairs of lines, by their indices, of which the second starts where the first ends, and no ban is on them. `ids` are those of the
    lines."""
    ends = np.array([(line.start, line.end) for line in road_map.lines], dtype=np.int64)
    start, end = np.unique(ends, return_inverse=True)[1].reshape(-1, 2).T
    by_id = np.argsort(ids)
    bans = np.array(road_map.bans, dtype=np.int64).reshape(-1, 2)
    first, second = by_id[np.searchsorted(ids, bans, sorter=by_id)].T
    return turns_from(np.arange(len(ids)), start, end, (first, second))
