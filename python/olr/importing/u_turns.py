"""Bans on turning back.

Traffic turns back where nothing else leads on, and hardly anywhere else. A path of a map without bans may turn back at any
node, and then a shorter path with such a turn is taken for the true one. At a dead end, where nothing else leads on, a path that
turns back is hardly ever the true one either, so there it can be banned too. Then nothing leads on from a line that ends there.

A line leads back along another one if it goes from its end to its start, by the same shape. Where none does, as the directions of
a road are drawn apart around an island, those lines from its end to its start lead back that turn sharply: to go on around a loop
isn't to turn back.
"""

from collections import Counter, defaultdict
from collections.abc import Iterator, Sequence
from collections.abc import Set as AbstractSet
from typing import Literal, NamedTuple

from olr.counts import Counts
from olr.model.road_map import MOST_BANS, Ban, Line, Position, RoadMap, within_limits
from olr.progress import watched

Shape = tuple[Position, ...]
UTurns = Literal["dead-ends", "plain", "allowed"]
"""Where turning back is banned: wherever another line leads on; at plain nodes alone, where just two lines start, one of which
leads back and the other one on; nowhere."""
DeadEnds = Literal["allow", "ban"]
"""Whether turning back is banned at dead ends too, where all that leads on leads back. It counts for `dead-ends` alone: the others
leave dead ends as they are."""
DEAD_ENDS: DeadEnds = "allow"
"""Where nothing is said."""

SHARP = 45.0
"""In degrees: the way from a line into another one turns sharply if they leave the node at a lesser angle."""
MOST_BACK = 8
"""Lines that may lead back along one. Records that repeat a road, such as those of bus routes, would need the square of their
number of bans, and to ban some of equal turns alone is of no use."""
TOO_MANY = f"bans on turning back from a line that more than {MOST_BACK} others may lead back along"
BEYOND = f"bans on turning back beyond {MOST_BANS:,} bans, at the least important junctions"
BEYOND_AT_DEAD_ENDS = f"bans on turning back beyond {MOST_BANS:,} bans, at dead ends"
REASONS = (TOO_MANY, BEYOND, BEYOND_AT_DEAD_ENDS)
"""What is left out."""


class _Found(NamedTuple):
    """A ban that a map lacks."""

    ban: Ban
    at_dead_end: bool
    """Whether all that leads on from its first line leads back."""


def effective_dead_ends(u_turns: UTurns, dead_ends: DeadEnds) -> DeadEnds:
    """What becomes of turning back at dead ends by both settings."""
    return dead_ends if u_turns == "dead-ends" else "allow"


def u_turn_bans(
    road_map: RoadMap, u_turns: UTurns, counts: Counts, dead_ends: DeadEnds = DEAD_ENDS
) -> list[Ban]:
    """The bans on turning back that a map lacks, in the order of its lines. Each line can go on somewhere else, by the bans that
    the map has too, unless turning back is banned at dead ends.

    A map that `olr` reads has room for `MOST_BANS` in all: those on turning back at the most important junctions are answered, then
    those at the most important dead ends, and the others are counted. A map with too many nodes or lines becomes a store, which has
    room for all. Where more than `MOST_BACK` lines may lead back along one, turning back stays allowed, and the line is counted.
    """
    if u_turns == "allowed":
        return []
    there = set(road_map.bans)
    dead_ends_too = effective_dead_ends(u_turns, dead_ends) == "ban"
    found = list(_bans(road_map, there, u_turns == "plain", dead_ends_too, counts))
    if within_limits(len(road_map.nodes), len(road_map.lines), len(road_map.bans)):
        kept = _most_important(found, road_map.lines, MOST_BANS - len(road_map.bans))
        _count_beyond(found, kept, counts)
        found = kept
    return [one.ban for one in found]


def _bans(
    road_map: RoadMap,
    there: AbstractSet[Ban],
    only_plain: bool,
    dead_ends_too: bool,
    counts: Counts,
) -> Iterator[_Found]:
    """The bans that aren't there, at all nodes or at plain ones alone, and at dead ends if they are wanted. Lines that too many others
    may lead back along are counted."""
    starting = Counter(line.start for line in road_map.lines)
    ends = {line.id: line.end for line in road_map.lines}
    starts = {line.id: line.start for line in road_map.lines}
    shut = Counter(ban.first for ban in there if ends.get(ban.first) == starts.get(ban.second))
    returns = _Returns(road_map)
    for line in watched(road_map.lines, "lines asked what leads back", len(road_map.lines)):
        if only_plain and starting[line.end] != 2:
            continue
        back = returns.along(line)
        leading_on = starting[line.end] - shut[line.id]
        if len(back) > MOST_BACK:
            counts.leave_out(TOO_MANY, int(leading_on > (0 if dead_ends_too else len(back))))
            continue
        open_back = [ban for other in back if (ban := Ban(line.id, other.id)) not in there]
        at_dead_end = leading_on == len(open_back)
        if dead_ends_too or not at_dead_end:
            yield from (_Found(ban, at_dead_end) for ban in open_back)


class _Returns:
    """Finds the lines that lead back along others."""

    def __init__(self, road_map: RoadMap) -> None:
        self._positions = {node.id: node.position for node in road_map.nodes}
        self._alike: dict[tuple[int, int, Shape], list[Line]] = defaultdict(list)
        """The lines by their ends and shape."""
        for line in road_map.lines:
            self._alike[line.start, line.end, line.shape].append(line)
        unlike = {(line.end, line.start) for line in road_map.lines if not self._same(line)}
        self._shapes: dict[tuple[int, int], list[Shape]] = defaultdict(list)
        """The shapes of the lines between two nodes, if a line from the second to the first isn't drawn like any of them."""
        for start, end, shape in self._alike:
            if (start, end) in unlike:
                self._shapes[start, end].append(shape)

    def along(self, line: Line) -> Sequence[Line]:
        """The lines that lead back along a line; or more than `MOST_BACK` of those that may, if there are so many."""
        same = self._same(line)
        if same:
            return same
        shapes = self._shapes.get((line.end, line.start), [])[: MOST_BACK + 1]
        if len(shapes) <= MOST_BACK:
            shapes = [shape for shape in shapes if self._turns_sharply(line, shape)]
        return [other for shape in shapes for other in self._others(line, shape)]

    def _same(self, line: Line) -> Sequence[Line]:
        """The lines by the same shape, but the other way."""
        return self._others(line, line.shape[::-1])

    def _others(self, line: Line, shape: Shape) -> Sequence[Line]:
        """The lines of a shape from the end of a line to its start, without that line itself."""
        alike = self._alike.get((line.end, line.start, shape), ())
        if line.start == line.end:
            return [other for other in alike if other.id != line.id]
        return alike

    def _turns_sharply(self, line: Line, shape: Shape) -> bool:
        """Whether the way on from a line to one of a shape, which goes to where it began, turns sharply."""
        if line.end not in self._positions or line.start not in self._positions:
            return False
        node, beginning = self._positions[line.end], self._positions[line.start]
        before = line.shape[-1] if line.shape else beginning
        behind = shape[0] if shape else beginning
        difference = abs(node.bearing_to(before) - node.bearing_to(behind))
        return min(difference, 360.0 - difference) < SHARP


def _most_important(found: Sequence[_Found], lines: Sequence[Line], most: int) -> list[_Found]:
    """So many of the bans at most, in their order: those at junctions before those at dead ends; of each the ones at nodes of the most
    important roads, and there from the most important roads. So bans at dead ends push no others out, and those that are added to a
    map with all others are the same ones."""
    if len(found) <= most:
        return list(found)
    by_id = {line.id: line for line in lines}
    classes: dict[int, int] = {}
    for line in lines:
        for node in (line.start, line.end):
            classes[node] = min(line.road_class, classes.get(node, line.road_class))

    def rank(one: _Found) -> tuple[bool, int, int]:
        line = by_id[one.ban.first]
        return one.at_dead_end, classes[line.end], line.road_class

    kept = set(sorted(found, key=rank)[:most])
    return [one for one in found if one in kept]


def _count_beyond(found: Sequence[_Found], kept: Sequence[_Found], counts: Counts) -> None:
    """Counts the bans that aren't kept."""
    beyond = Counter(one.at_dead_end for one in found)
    beyond.subtract(one.at_dead_end for one in kept)
    counts.leave_out(BEYOND, beyond[False])
    counts.leave_out(BEYOND_AT_DEAD_ENDS, beyond[True])
