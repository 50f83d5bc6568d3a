"""Bans on turns from turn restrictions over a node.

A restriction names a way, a node and another way. Where a way passes through the node it has two arms there: the turn is
then chosen by its angle, which has to fit the restriction's kind clearly better than that of any other turn.

Each restriction that isn't on the map as it is in the file is counted once.
"""

import math
from collections import defaultdict
from collections.abc import Iterable, Mapping, Sequence, Set
from typing import NamedTuple

from olr.counts import Counts
from olr.model.road_map import MICRODEGREE, Ban, Line, Origin, Position, RoadMap
from olr.osm.reading import ONLY, Restriction, Target

ANGLES = {"left_turn": -90.0, "right_turn": 90.0, "straight_on": 0.0, "u_turn": 180.0}
"""The angle of a turn of each kind, in degrees, to the right."""
MOST_OFF = 75.0
"""How far, in degrees, the angle of a turn may be from that of its kind."""
CLEARLY = 30.0
"""How much further, in degrees, the angle of every other turn has to be."""
MOST_OFF_TO_A_SIDE = 90.0
"""How far it may be for a turn to the left or the right where no other turn is possible: it is to that side."""
ARM = 10.0
"""An arm's direction is measured from the node to the first point this far away, in metres, or to its other end."""

NOT_ON_MAP = "turn restrictions whose turn isn't on the map"
UNDECIDED = "turn restrictions whose way passes through the node, and the angle doesn't decide"
ONLY_UNUSABLE = "turn restrictions only into a way that motor vehicles may not use"
ONLY_ELSEWHERE = (
    "turn restrictions only into a road that isn't on the map, which ban all other turns there"
)
BACK_STAYS = "lines whose turns restrictions ban all: turning back stays allowed"
ALL_STAY = "lines whose turns restrictions ban all, and nothing leads back: all turns stay allowed"
IN_PART = "turn restrictions of several turns, some of which aren't on the map"


class Turn(NamedTuple):
    """From a line that ends at a node to one that starts there."""

    first: Line
    second: Line


class _Arms:
    """The lines at the nodes of restrictions."""

    def __init__(self, road_map: RoadMap, nodes: set[int]) -> None:
        self.positions: dict[int, Position] = {node.id: node.position for node in road_map.nodes}
        self.arriving: dict[tuple[str, int], list[Line]] = defaultdict(list)
        self.leaving: dict[tuple[str, int], list[Line]] = defaultdict(list)
        self.starting: dict[int, list[Line]] = defaultdict(list)
        self.origins: dict[int, Origin] = {}
        self.ending: dict[int, Line] = {}
        """The lines that end at one of the nodes, by their ids."""
        self.parts: dict[tuple[str, int], set[int]] = defaultdict(set)
        """The parts of a way that have an end at a node."""
        for line, origin in zip(road_map.lines, road_map.origins):
            for node in nodes.intersection((line.start, line.end)):
                self.origins[line.id] = origin
                self.parts[origin.source, node].add(origin.part)
            if line.end in nodes:
                self.arriving[origin.source, line.end].append(line)
                self.ending[line.id] = line
            if line.start in nodes:
                self.leaving[origin.source, line.start].append(line)
                self.starting[line.start].append(line)

    def turns(self, source: int, node: int, target: int, manner: str) -> list[Turn]:
        """The turns at a node from one way into another, or into itself: then u_turn is back along its own part, and any other
        manner isn't."""
        turns = [
            Turn(first, second)
            for first in self.arriving.get((str(source), node), ())
            for second in self.leaving.get((str(target), node), ())
        ]
        if source == target:
            turns = [turn for turn in turns if self.leads_back(turn) == (manner == "u_turn")]
        return turns

    def meet(self, way: int, node: int) -> bool:
        """Whether a way has an arm at a node, on the map."""
        return (str(way), node) in self.parts

    def pass_through(self, node: int, *ways: int) -> bool:
        """Whether one of some ways has two arms at a node."""
        return any(len(self.parts.get((str(way), node), ())) > 1 for way in ways)

    def leads_back(self, turn: Turn) -> bool:
        """Whether a turn goes back along the same part of a road."""
        first, second = self.origins[turn.first.id], self.origins[turn.second.id]
        return (first.source, first.part) == (second.source, second.part)

    def bans_from(self, first: Line, node: int, but: Line | None = None) -> list[Ban]:
        """Bans on the turns from a line that ends at a node: on all, or on all but the one into another line."""
        return [Ban(first.id, line.id) for line in self.starting[node] if line != but]

    def angle(self, turn: Turn) -> float:
        """The angle of a turn in degrees, to the right, from -180 to 180."""
        before = [*turn.first.shape[::-1], self.positions[turn.first.start]]
        behind = [*turn.second.shape, self.positions[turn.second.end]]
        node = self.positions[turn.first.end]
        heading = _bearing(node, before) + 180.0
        return _between_180(_bearing(node, behind) - heading)


def bans_of(
    restrictions: Iterable[Restriction],
    road_map: RoadMap,
    merged: Mapping[int, int],
    targets: Mapping[int, Target],
    counts: Counts,
) -> list[Ban]:
    """The bans that turn restrictions make on a map with the origins of its lines, in rising order. `merged` has the node
    that stands for each node that was merged with another one, and `targets` the ways of the file that are the only ones into
    which a restriction allows a turn. Restrictions that make no ban are counted by reason, and so are lines that keep a turn because
    all of them are banned.
    """
    simple = [
        (restriction, merged.get(restriction.via_nodes[0], restriction.via_nodes[0]))
        for restriction in restrictions
        if _is_simple(restriction, counts)
    ]
    arms = _Arms(road_map, {node for _, node in simple})
    bans: set[Ban] = set()
    for restriction, node in simple:
        if restriction.kind.startswith("no_"):
            bans.update(_bans_of_no(restriction, node, arms, counts))
        else:
            bans.update(_bans_of_only(restriction, node, arms, targets, counts))
    return sorted(bans.difference(_closing(bans, arms, counts)))


def _is_simple(restriction: Restriction, counts: Counts) -> bool:
    """Whether a restriction is of a known kind, and about one node. If it isn't, that is counted."""
    several = len(restriction.sources) > 1 or len(restriction.targets) > 1
    if not restriction.kind.startswith(("no_", ONLY)):
        counts.leave_out("turn restrictions of an unknown kind")
    elif restriction.via_ways:
        counts.leave_out("turn restrictions over a way")
    elif len(restriction.via_nodes) != 1 or not restriction.sources or not restriction.targets:
        counts.leave_out("turn restrictions that lack a member or have two nodes")
    elif several and not restriction.kind.startswith("no_"):
        counts.leave_out("turn restrictions to one of several ways")
    else:
        return True
    return False


def _bans_of_no(restriction: Restriction, node: int, arms: _Arms, counts: Counts) -> list[Ban]:
    """The bans of a restriction that forbids turns: one for each pair of its ways. What lacks is counted."""
    manner = restriction.kind.removeprefix("no_")
    found = [
        _meant(source, node, target, manner, arms)
        for source in restriction.sources
        for target in restriction.targets
    ]
    turns = [turn for turn in found if isinstance(turn, Turn)]
    if not turns:
        counts.leave_out(UNDECIDED if UNDECIDED in found else NOT_ON_MAP)
    elif len(turns) < len(found):
        counts.change(IN_PART)
    return [Ban(turn.first.id, turn.second.id) for turn in turns]


def _bans_of_only(
    restriction: Restriction, node: int, arms: _Arms, targets: Mapping[int, Target], counts: Counts
) -> list[Ban]:
    """The bans of a restriction that allows one turn alone: on all others of the same arm. What lacks is counted.

    Where the map lacks the road that a driver has to take, all his other turns are forbidden to him as before. Where he may not
    take it either, the restriction isn't for him; where it doesn't begin at the node, the restriction is out of date.
    """
    (source,), (target,) = restriction.sources, restriction.targets
    turn = _meant(source, node, target, restriction.kind.removeprefix(ONLY), arms)
    if isinstance(turn, Turn):
        return arms.bans_from(turn.first, node, turn.second)
    arriving = arms.arriving.get((str(source), node), [])
    way = targets.get(target)
    if turn == UNDECIDED or not arriving or arms.meet(target, node):
        counts.leave_out(turn)
    elif way is not None and not way.usable:
        counts.leave_out(ONLY_UNUSABLE)
    elif way is not None and way.entrances.isdisjoint(restriction.via_nodes):
        counts.leave_out(NOT_ON_MAP)
    elif len(arriving) > 1:
        counts.leave_out(UNDECIDED)
    else:
        counts.change(ONLY_ELSEWHERE)
        return arms.bans_from(arriving[0], node)
    return []


def _closing(bans: Set[Ban], arms: _Arms, counts: Counts) -> set[Ban]:
    """Of the bans of lines whose turns are all banned those that are not to be made: on turning back, or, where nothing leads
    back, on all turns. A line keeps a way on. Such lines are counted."""
    banned: dict[int, set[Ban]] = defaultdict(set)
    for ban in bans:
        banned[ban.first].add(ban)
    closing: set[Ban] = set()
    for id, all_bans in banned.items():
        line = arms.ending[id]
        onward = arms.starting[line.end]
        if len(all_bans) == len(onward):
            back = {Ban(id, other.id) for other in onward if arms.leads_back(Turn(line, other))}
            counts.change(BACK_STAYS if back else ALL_STAY)
            closing.update(back or all_bans)
    return closing


def _meant(source: int, node: int, target: int, manner: str, arms: _Arms) -> Turn | str:
    """The turn at a node from one way into another that is meant by a manner of turning, such as left_turn; or why there is
    none."""
    turns = arms.turns(source, node, target, manner)
    if not turns:
        return NOT_ON_MAP
    alone = len(turns) == 1
    if alone and (manner not in ANGLES or not arms.pass_through(node, source, target)):
        return turns[0]
    return _by_angle(manner, turns, arms) or UNDECIDED


def _by_angle(manner: str, turns: Sequence[Turn], arms: _Arms) -> Turn | None:
    """The turn among some whose angle fits a manner of turning, such as left_turn, clearly best, or None."""
    if manner not in ANGLES:
        return None
    off = [abs(_between_180(arms.angle(turn) - ANGLES[manner])) for turn in turns]
    least, *others = sorted(off)
    to_a_side = not others and manner in ("left_turn", "right_turn")
    if least > (MOST_OFF_TO_A_SIDE if to_a_side else MOST_OFF):
        return None
    if others and others[0] - least < CLEARLY:
        return None
    return turns[off.index(least)]


def _bearing(node: Position, points: Sequence[Position]) -> float:
    """The direction from a node along the points of an arm, in degrees clockwise from north."""
    shrink = math.cos(math.radians(node.lat / 1e6))
    far = (
        point
        for point in points
        if math.hypot((point.lon - node.lon) * shrink, point.lat - node.lat) * MICRODEGREE >= ARM
    )
    return node.bearing_to(next(far, points[-1]))


def _between_180(angle: float) -> float:
    """An angle in degrees, from -180 (included) to 180 (excluded)."""
    return (angle + 180.0) % 360.0 - 180.0
