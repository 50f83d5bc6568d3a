"""True paths: shortest paths between places of a map, of wanted classes and lengths, and references to them."""

import numpy as np
import random
from collections.abc import Iterator, Sequence
from itertools import pairwise
from typing import NamedTuple

from olr.arrays import Integers
from olr.errors import ToolError
from olr.model.answers import ReferencePoint
from olr.model.road_map import RoadMap
from olr.trials.encoder import Lines, points_of_legs
from olr.trials.graph import Graph
from olr.trials.likeness import Likeness, Usual

TOLERANCE = 0.1
"""A path is longer or shorter than the length that was drawn by such a share at most."""
MOST_BETWEEN = 3
"""Points of a reference between its first and its last one: how many is drawn evenly from 0."""
WITHIN = 0.15
"""The share of ends of paths that lie within a line, anywhere on it. Senders put points at junctions; but their map has junctions
that another one lacks."""
TURNING_BACK = 0.1
"""The share of paths that turn back at a dead end that are kept of those that are drawn: messages are hardly ever about one."""
MOST_FAILURES = 300
"""After so many draws in a row without another path there are hardly any more."""


class Stretch(NamedTuple):
    """A part of a line of a true path. `start` and `end` are shares of the line's length, for maps differ in lengths."""

    line: int
    start: float
    end: float


class Drawn(NamedTuple):
    """A true path, and a reference to it."""

    path: list[Stretch]
    points: list[ReferencePoint]


class Paths:
    """Draws true paths on a map, and references to them."""

    def __init__(self, road_map: RoadMap, likeness: Likeness = Usual()) -> None:
        """The map has all lines of the senders' maps. `likeness` says which paths are wanted."""
        self._lines, self._likeness = Lines(road_map), likeness
        self._has_some = False

    def drawn(self, graph: Graph, draws: random.Random) -> Iterator[Drawn]:
        """Paths of a sender's map, none of them twice, until there are hardly any more. Raises `ToolError` if no sender's map had one."""
        of_class = [np.flatnonzero(graph.classes == road_class) for road_class in range(8)]
        seen: set[tuple[int, ...]] = set()
        failures = 0
        while failures < MOST_FAILURES:
            found = self._draw(graph, of_class, draws) if len(graph.ids) else None
            lines = () if found is None else tuple(one.line for one in found.path)
            if found is None or lines in seen:
                failures += 1
                continue
            failures, self._has_some = 0, True
            seen.add(lines)
            yield found
        if not self._has_some:
            raise ToolError("the map has no path of the wanted classes and lengths")

    def _draw(
        self, graph: Graph, of_class: Sequence[Integers], draws: random.Random
    ) -> Drawn | None:
        """One path, or None where there is none such."""
        beginning = self._likeness.beginning(of_class, draws)
        if beginning is None:
            return None
        indices = _path(graph, *beginning, draws)
        if indices is None or graph.turns_back(indices) and draws.random() >= TURNING_BACK:
            return None
        lines = graph.ids[indices].tolist()
        path = _stretches(lines, draws)
        ends = path[0].start, path[-1].end
        points = points_of_legs(self._lines, _legs(lines, draws), ends)
        return None if points is None else Drawn(path, points)


def _path(graph: Graph, first: int, length: float, draws: random.Random) -> list[int] | None:
    """The indices of the lines of a shortest path from a line on that is about so long, or None. Where another one is as short it is
    any of them. It turns back at dead ends alone, where nothing else leads on."""
    reached = graph.reached(first, length * (1 + TOLERANCE))
    lengths = reached.distances + graph.lengths
    lasts = np.flatnonzero(np.abs(lengths - length) <= TOLERANCE * length)
    return graph.path(reached, int(draws.choice(lasts))) if len(lasts) else None


def _stretches(lines: Sequence[int], draws: random.Random) -> list[Stretch]:
    """A path of lines, with ends of which some are drawn within the first and the last line."""
    start, end = (
        draws.uniform(*room) if draws.random() < WITHIN else at
        for room, at in (((0.1, 0.5), 0.0), ((0.5, 0.9), 1.0))
    )
    path = [Stretch(line, 0.0, 1.0) for line in lines]
    path[0] = path[0]._replace(start=start)
    path[-1] = path[-1]._replace(end=end)
    return path


def _legs(path: list[int], draws: random.Random) -> list[list[int]]:
    """A path cut into legs before lines that are drawn. Each leg begins with the line before which the one before ends, and has it
    too. Each part of a shortest path is one itself."""
    between = min(draws.randint(0, MOST_BETWEEN), len(path) - 1)
    starts = [0, *sorted(draws.sample(range(1, len(path)), between))]
    return [*(path[start : end + 1] for start, end in pairwise(starts)), path[starts[-1] :]]
