"""References to shortest paths of a whole map, by searches that know whether a path is the only one of its length."""

import heapq
import random
from collections import Counter, defaultdict
from collections.abc import Mapping, Sequence
from typing import NamedTuple

from olr.model.answers import ReferencePoint
from olr.model.road_map import RoadMap
from olr.trials.encoder import Lines, points_of_legs, text_of

COVERED = 0.9
"""The share of a true path that a place covers at least, if it is the right one."""


class Search(NamedTuple):
    """Shortest paths from the start of a line."""

    before: Mapping[int, int]
    """The line before each line that was reached."""
    unsure: set[int]
    """Lines that can be reached by another path of the same length, and those whose path may not be the shortest one yet."""


class LineGraph(Lines):
    """The lines of a map, with those that may follow each one."""

    def __init__(self, road_map: RoadMap, turning_back: bool = True) -> None:
        """The graph of a map. Without turning back no line is followed by the other direction of its road, unless
        nothing else follows: this needs the ids of an import, where the two are even and odd."""
        super().__init__(road_map)
        bans = {(ban.first, ban.second) for ban in road_map.bans}
        starting: dict[int, list[int]] = defaultdict(list)
        for line in road_map.lines:
            starting[line.start].append(line.id)
        self.following = {
            line.id: [other for other in starting[line.end] if (line.id, other) not in bans]
            for line in road_map.lines
        }
        if not turning_back:
            for id, others in self.following.items():
                self.following[id] = [other for other in others if other != id ^ 1] or others

    def search(self, first: int, last: int) -> Search:
        """The shortest paths from the start of a line, as far as the start of another one is."""
        lengths: dict[int, int] = {first: 0}
        before: dict[int, int] = {}
        equal: set[int] = set()
        queue = [(0, first)]
        done: set[int] = set()
        while queue and last not in done:
            length, id = heapq.heappop(queue)
            if id in done:
                continue
            done.add(id)
            reached = length + self.by_id[id].length
            for other in self.following[id]:
                known = lengths.get(other)
                if known is None or reached < known:
                    lengths[other], before[other] = reached, id
                    equal.discard(other)
                    heapq.heappush(queue, (reached, other))
                elif reached == known and before.get(other) != id:
                    equal.add(other)
        return Search(before, equal.union(lengths.keys() - done))

    def shortest(self, first: int, last: int) -> tuple[list[int], bool] | None:
        """The shortest path from the start of one line to the start of another one, as its lines with both, and whether no
        other path is as short. None if there is no path."""
        found = self.search(first, last)
        if last not in found.before:
            return None
        path = [last]
        while path[-1] != first:
            path.append(found.before[path[-1]])
        return path[::-1], not found.unsure.intersection(path)


def drawn_path(graph: LineGraph, draws: random.Random) -> list[int]:
    """The lines of a path: the shortest way through two or three lines, or an empty list."""
    ids = sorted(graph.by_id)
    stops = draws.sample(ids, draws.choice((2, 2, 3)))
    path = stops[:1]
    for stop in stops[1:]:
        found = graph.shortest(path[-1], stop)
        if found is None or not found[1]:
            return []
        path += found[0][1:]
    return path if len(set(path)) == len(path) else []


def turns_back(path: Sequence[int]) -> bool:
    """Whether a path on the map of an import goes from a line to the other direction of its road."""
    return any(other == line ^ 1 for line, other in zip(path, path[1:]))


def share_covered(
    graph: LineGraph, path: Sequence[int], pieces: Sequence[tuple[int, int, int]]
) -> float:
    """The share of a path's length that is in pieces, each of a line, from a place on it to another one."""
    within: Counter[int] = Counter()
    for line, start, end in pieces:
        within[line] += end - start
    lengths = {line: graph.by_id[line].length for line in path}
    covered = sum(min(within[line], length) for line, length in lengths.items())
    return covered / sum(lengths.values())


def drawn_references(
    graph: LineGraph, count: int, draws: random.Random, turning_back: bool = True
) -> list[tuple[list[int], list[ReferencePoint]]]:
    """The lines of so many drawn paths, each with the points of a reference to it. Without turning back none of them does so."""
    drawn: list[tuple[list[int], list[ReferencePoint]]] = []
    while len(drawn) < count:
        path = drawn_path(graph, draws)
        if path and (turning_back or not turns_back(path)):
            points = points_of(graph, path)
            if points is not None:
                drawn.append((path, points))
    return drawn


def legs_of(graph: LineGraph, path: Sequence[int]) -> list[list[int]] | None:
    """A path cut into legs, each of which is the only shortest path to the next one's first line. A leg begins with the line
    before which the one before ends, and has that line too. None if there are no such legs."""
    legs = []
    start = 0
    while start < len(path) - 1:
        found = graph.search(path[start], path[-1])
        end = start
        for line in path[start + 1 :]:
            if found.before.get(line) != path[end] or line in found.unsure:
                break
            end += 1
        if end == start:
            return None
        legs.append(list(path[start : end + 1]))
        start = end
    return legs


def points_of(graph: LineGraph, path: Sequence[int]) -> list[ReferencePoint] | None:
    """The points of a reference to the lines of a path, from the start of the first to the end of the last. None if the path
    can't be cut into legs, or a leg is too long or leads too far."""
    legs = legs_of(graph, path)
    return None if legs is None else points_of_legs(graph, legs)


def encode(graph: LineGraph, path: Sequence[int]) -> str | None:
    """The text of a reference to the lines of a path. None if there is none: see `points_of`."""
    points = points_of(graph, path)
    return None if points is None else text_of(points)
