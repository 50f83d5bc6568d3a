"""A map as another maker of maps has it: roads that it lacks, other classes, forms and lengths, nodes that lie elsewhere."""

import math
import random
from collections import defaultdict
from collections.abc import Set
from typing import NamedTuple

from olr.model.road_map import GREATEST_LENGTH, MICRODEGREE, Ban, Line, Node, Position, RoadMap
from olr.trials.changing import is_drawn, off_by_one, other_form
from olr.trials.roads import Roads


class Difference(NamedTuple):
    """By how much another map differs. Each difference is drawn by itself, evenly."""

    missing: float = 0.0
    """Percent of roads that it lacks, both directions of each."""
    classes: float = 0.0
    """Percent of roads whose class is off by one there."""
    lengths: float = 0.0
    """Percent, up to which the length of a road is off there."""
    positions: float = 0.0
    """Metres, up to which nodes lie off there to the east or west, and to the north or south."""
    forms: float = 0.0
    """Percent of roads that have another form there."""
    one_way: float = 0.0
    """Percent of two-way roads that are open in one direction alone there."""

    def times(self, factor: float) -> "Difference":
        """A map that is so many times as different."""
        return Difference(*(value * factor for value in self))


def differing(
    road_map: RoadMap, roads: Roads, difference: Difference, draws: random.Random
) -> RoadMap:
    """A map as another maker has it. Lines that are on both have the same ids."""
    lacking = _missing(roads, difference.missing, draws) | _shut(roads, difference.one_way, draws)
    there = without_lines(road_map, roads, lacking)
    changed: dict[int, Line] = {line.id: line for line in there.lines}
    for road in roads.directions:
        of_road = [changed[id] for id in road if id in changed]
        if of_road:
            alike = _changed(of_road[0], difference, draws)
            changed |= {
                line.id: alike._replace(
                    id=line.id, start=line.start, end=line.end, shape=line.shape
                )
                for line in of_road
            }
    nodes = _moved(there, difference.positions, draws)
    return RoadMap(nodes, [changed[line.id] for line in there.lines], there.bans)


def _missing(roads: Roads, percent: float, draws: random.Random) -> set[int]:
    """The lines of so many percent of roads."""
    return {id for road in roads.directions if is_drawn(percent, draws) for id in road}


def _shut(roads: Roads, percent: float, draws: random.Random) -> set[int]:
    """One line of so many percent of the two-way roads."""
    two_way = [road for road in roads.directions if len(road) == 2]
    return {draws.choice(road) for road in two_way if is_drawn(percent, draws)}


def without_lines(road_map: RoadMap, roads: Roads, lacking: Set[int]) -> RoadMap:
    """A map that lacks some lines, by their ids, with the nodes and the bans of the others.

    Where nothing but a missing line led on from a line, besides back, turning back isn't banned any more, unless the map bans it at dead
    ends too: an import does so by `--dead-ends ban` alone.
    """
    lines = [line for line in road_map.lines if line.id not in lacking]
    ends = {node for line in lines for node in (line.start, line.end)}
    nodes = [node for node in road_map.nodes if node.id in ends]
    bans = [ban for ban in road_map.bans if ban.first not in lacking and ban.second not in lacking]
    if not lacking or _are_dead_ends_shut(road_map, roads):
        return RoadMap(nodes, lines, bans)
    ended = {line.start for line in road_map.lines if line.id in lacking}
    dead_ends = _dead_ends(RoadMap(nodes, lines, bans), roads, ended)
    return RoadMap(nodes, lines, [ban for ban in bans if not dead_ends.get(ban)])


def _are_dead_ends_shut(road_map: RoadMap, roads: Roads) -> bool:
    """Whether turning back is banned at most dead ends of a map."""
    banned = _dead_ends(road_map, roads, {line.end for line in road_map.lines}).values()
    return 2 * sum(banned) > len(banned)


def _dead_ends(road_map: RoadMap, roads: Roads, at: Set[int]) -> dict[Ban, bool]:
    """The turns back at some nodes from lines that can't go on to anything else, and whether each of them is banned."""
    into = {line.id: line.end for line in road_map.lines if line.end in at}
    starting: dict[int, set[int]] = defaultdict(set)
    for line in road_map.lines:
        if line.start in at:
            starting[line.start].add(line.id)
    banned: dict[int, set[int]] = defaultdict(set)
    for ban in road_map.bans:
        if ban.first in into:
            banned[ban.first].add(ban.second)
    return {
        Ban(id, back): back in banned[id]
        for id, node in into.items()
        if (back := roads.opposite.get(id)) is not None and starting[node] <= banned[id] | {back}
    }


def _changed(line: Line, difference: Difference, draws: random.Random) -> Line:
    """A line of a road that has another class, form and length there."""
    factor = 1 + draws.uniform(-difference.lengths, difference.lengths) / 100
    return line._replace(
        road_class=off_by_one(line.road_class, difference.classes, draws),
        form=other_form(line.form, difference.forms, draws),
        length=min(max(round(line.length * factor), 1), GREATEST_LENGTH),
    )


def _moved(road_map: RoadMap, metres: float, draws: random.Random) -> list[Node]:
    """The nodes of a map, each of them moved, unless it would lie on the next point of a line then."""
    beside: dict[int, set[Position]] = defaultdict(set)
    places = {node.id: node.position for node in road_map.nodes}
    ends: dict[int, set[int]] = defaultdict(set)
    for line in road_map.lines:
        if line.shape:
            beside[line.start].add(line.shape[0])
            beside[line.end].add(line.shape[-1])
        else:
            ends[line.start].add(line.end)
            ends[line.end].add(line.start)
    for node in road_map.nodes:
        moved = _off(node.position, metres, draws)
        taken = beside[node.id].union(places[other] for other in ends[node.id])
        if moved not in taken:
            places[node.id] = moved
    return [node._replace(position=places[node.id]) for node in road_map.nodes]


def _off(position: Position, metres: float, draws: random.Random) -> Position:
    """A position that is off by up to so many metres each way."""
    north, east = (draws.uniform(-metres, metres) / MICRODEGREE for _ in range(2))
    shrink = math.cos(math.radians(position.lat / 1e6))
    return Position(position.lon + round(east / shrink), position.lat + round(north))
