"""Pairs of maps, and senders, of stated kinds, for bench/confidence.py.

A kind makes of one map the sender's, on which true paths are drawn, and the receiver's, which is asked. Trials of `calibrate` have none of
these recipes; docs/CONFIDENCE.md says which differences they have. It needs the package `olr` alone.
"""

import math
from collections import defaultdict
from dataclasses import replace
from itertools import count, pairwise
from types import MappingProxyType
from typing import Callable, Mapping, NamedTuple

from olr.confidence.parts import ANOTHER
from olr.model.road_map import MICRODEGREE, MOST_SHAPE_POINTS, Ban, Line, Node, Position, RoadMap
from olr.trials.changing import SECTORS
from olr.trials.differing import Difference, differing
from olr.trials.roads import Roads

SHIFT = 20.0
"""Metres by which a map is shifted, in a drawn direction."""
LEAST_SPLIT = 600
"""Decimetres: shorter roads aren't split."""
CARRIAGEWAYS, APART = 30.0, 12.0
"""Percent of two-way roads that have two carriageways, which lie so many metres apart."""
ROUNDABOUTS, RADIUS = 20.0, 14.0
"""Percent of the nodes where three roads or more meet that are roundabouts, and their radius in metres."""
NEAR = (100.0, 500.0)
"""Metres between the ends of a road that is added."""
VENDOR = Difference(5, 15, 4, 4, 0, 0)
"""How the map of another vendor differs, more or less."""


class Pair(NamedTuple):
    """The two maps of a kind."""

    sender: RoadMap
    receiver: RoadMap


class Kind(NamedTuple):
    """How the two maps differ, and a sender's habits."""

    about: str
    maps: Callable = lambda road_map, draws: Pair(road_map, road_map)
    habits: Callable = lambda points, draws: points
    has_same_lines: bool = True
    """Whether lines that are on both maps have the same ids. Else places and true paths are compared by geometry."""
    without: Mapping[str, object] = MappingProxyType({})
    """Other numbers of `olr.confidence.parts`, by which trials don't have this kind of difference."""


def moved(position, east, north):
    """A position so many metres farther to the east and to the north."""
    shrink = math.cos(math.radians(position.lat / 1e6))
    return Position(
        position.lon + round(east / MICRODEGREE / shrink), position.lat + round(north / MICRODEGREE)
    )


def shifted(road_map, metres, draws):
    """All of a map, shifted in one direction."""
    angle = draws.uniform(0, 2 * math.pi)
    off = metres * math.cos(angle), metres * math.sin(angle)
    nodes = [node._replace(position=moved(node.position, *off)) for node in road_map.nodes]
    lines = [line._replace(shape=tuple(moved(it, *off) for it in line.shape)) for line in road_map.lines]
    return replace(road_map, nodes=nodes, lines=lines)


def with_more_roads(road_map, percent, draws):
    """Two-way roads are added, straight from a node to another one near it. Turning back is banned at their ends."""
    lines, bans, nodes = list(road_map.lines), list(road_map.bans), list(road_map.nodes)
    ids = count(max(line.id for line in lines) + 1)
    starting = {line.start: line for line in lines}
    joined = {(line.start, line.end) for line in lines}
    wanted = round(len(Roads(road_map).directions) * percent / 100)
    for _ in range(1000 * wanted):
        one, other = draws.sample(nodes, 2)
        metres = distance(one.position, other.position)
        if not NEAR[0] <= metres <= NEAR[1] or (one.id, other.id) in joined or one.id not in starting:
            continue
        like, ends = starting[one.id], (one.id, other.id)
        joined |= {ends, ends[::-1]}
        there, back = next(ids), next(ids)
        for id, (start, end) in ((there, ends), (back, ends[::-1])):
            lines.append(Line(id, start, end, like.road_class, like.form, round(10 * metres), ()))
        bans += [Ban(there, back), Ban(back, there)]
        wanted -= 1
        if not wanted:
            break
    return RoadMap(nodes, lines, bans)


def distance(one, other):
    """Metres between two positions."""
    shrink = math.cos(math.radians(one.lat / 1e6))
    return MICRODEGREE * math.hypot((other.lon - one.lon) * shrink, other.lat - one.lat)


class Redrawing:
    """A map whose lines are replaced by others, with the bans that these then have."""

    def __init__(self, road_map):
        self.nodes = {node.id: node for node in road_map.nodes}
        self.lines = {line.id: line for line in road_map.lines}
        self.bans = [tuple(ban) for ban in road_map.bans]
        self.opposite = dict(Roads(road_map).opposite)
        self.new_nodes = count(max(self.nodes) + 1)
        self.new_lines = count(max(self.lines) + 1)

    def points(self, line):
        """The positions of a line, with its ends."""
        return [self.nodes[line.start].position, *line.shape, self.nodes[line.end].position]

    def node(self, position):
        """A new node."""
        id = next(self.new_nodes)
        self.nodes[id] = Node(id, position)
        return id

    def replace(self, old, parts):
        """Some lines one behind the other, by their ids, are replaced by others."""
        first, last = parts[0].id, parts[-1].id
        for id in old:
            del self.lines[id]
        self.lines |= {line.id: line for line in parts}
        inner = set(pairwise(old))
        self.bans = [
            (last if one == old[-1] else one, first if other == old[0] else other)
            for one, other in self.bans
            if (one, other) not in inner
        ]

    def made(self):
        """The map."""
        bans = [Ban(*it) for it in self.bans if it[0] in self.lines and it[1] in self.lines]
        used = {node for line in self.lines.values() for node in (line.start, line.end)}
        nodes = [self.nodes[id] for id in sorted(used)]
        return RoadMap(nodes, list(self.lines.values()), list(dict.fromkeys(bans)))


def split(road_map, percent, draws):
    """Roads are cut in two at a new node, where turning back is banned."""
    made = Redrawing(road_map)
    for road in Roads(road_map).directions:
        line = made.lines[road[0]]
        if line.length < LEAST_SPLIT or draws.random() >= percent / 100:
            continue
        before, position, after = cut(made.points(line), draws.uniform(0.3, 0.7))
        if position in (before[-1], after[0]):
            continue
        node, share = made.node(position), along(before + [position]) / along(made.points(line))
        length = max(round(line.length * share), 1)
        ids = [next(made.new_lines) for _ in range(4)]
        there = (
            line._replace(id=ids[0], end=node, length=length, shape=tuple(before[1:])),
            line._replace(id=ids[1], start=node, length=line.length - length, shape=tuple(after[:-1])),
        )
        made.replace(road[:1], there)
        if len(road) == 2:
            back = [
                part._replace(id=id, start=part.end, end=part.start, shape=part.shape[::-1])
                for part, id in zip(there[::-1], ids[2:])
            ]
            made.replace(road[1:], back)
            made.bans += [(ids[0], ids[3]), (ids[2], ids[1])]
    return made.made()


def along(points):
    """The length of a polyline, in metres."""
    return sum(distance(*it) for it in pairwise(points))


def cut(points, share):
    """A polyline, cut at a share of its length: what is before, the position there, and what is behind."""
    left = share * along(points)
    for number, (one, other) in enumerate(pairwise(points), 1):
        step = distance(one, other)
        if left < step:
            part = left / step
            position = Position(*(round(a + (b - a) * part) for a, b in zip(one, other)))
            return points[:number], position, points[number:]
        left -= step
    raise ValueError("a share is below 1")


def dissolved(road_map):
    """Nodes are left out from which a line leads on to a single other one, besides back. What was two lines becomes one."""
    made = Redrawing(road_map)
    into, out_of = defaultdict(set), defaultdict(set)
    for line in road_map.lines:
        into[line.end].add(line.id)
        out_of[line.start].add(line.id)
    for node in road_map.nodes:
        arms = {made.lines[id].start for id in into[node.id]} | {made.lines[id].end for id in out_of[node.id]}
        if len(arms) != 2 or len(into[node.id]) != len(out_of[node.id]) or node.id in arms:
            continue
        pairs = [
            (one, other)
            for one in into[node.id]
            for other in out_of[node.id]
            if made.lines[one].start != made.lines[other].end
        ]
        sizes = [len(made.lines[a].shape) + len(made.lines[b].shape) for a, b in pairs]
        if len(pairs) != len(into[node.id]) or max(sizes) >= MOST_SHAPE_POINTS:
            continue
        for one, other in pairs:
            a, b = made.lines[one], made.lines[other]
            whole = a._replace(
                id=next(made.new_lines),
                end=b.end,
                length=a.length + b.length,
                shape=(*a.shape, node.position, *b.shape),
            )
            made.replace((one, other), [whole])
            out_of[a.start] = out_of[a.start] - {one} | {whole.id}
            into[b.end] = into[b.end] - {other} | {whole.id}
    return made.made()


def with_carriageways(road_map, draws):
    """Two-way roads have two carriageways, which are one road between two junctions at the receiver's, and junctions are roundabouts."""
    made = Redrawing(road_map)
    for road in Roads(road_map).directions:
        if len(road) == 2 and draws.random() < CARRIAGEWAYS / 100:
            for id in road:
                line = made.lines[id]
                points = made.points(line)
                middle = [] if line.shape else [cut(points, 0.2)[1], cut(points, 0.8)[1]]
                inner = [points[0], *(line.shape or middle), points[-1]]
                shape = tuple(beside(*inner[at - 1 : at + 2]) for at in range(1, len(inner) - 1))
                made.lines[id] = line._replace(form=2, shape=shape)
    arms = defaultdict(list)
    for line in made.lines.values():
        arms[line.start].append(line.id)
        arms[line.end].append(line.id)
    for node in road_map.nodes:
        ids = arms[node.id]
        others = {made.lines[id].start for id in ids} | {made.lines[id].end for id in ids}
        is_ring = len(others) > 3 and draws.random() < ROUNDABOUTS / 100
        if is_ring and min(made.lines[id].length for id in ids) > 40 * RADIUS:
            draw_ring(made, node, ids)
    return made.made()


def beside(before, here, after):
    """A position to the right of a line that goes through three, by half of what carriageways lie apart."""
    east, north = after.lon - before.lon, after.lat - before.lat
    east *= math.cos(math.radians(here.lat / 1e6))
    size = math.hypot(east, north) or 1.0
    return moved(here, APART / 2 * north / size, -APART / 2 * east / size)


def draw_ring(made, node, ids):
    """A node becomes a roundabout, which traffic goes round to the left. The lengths of its roads are less by its radius."""
    places = {}
    for id in ids:
        line = made.lines[id]
        other = line.end if line.start == node.id else line.start
        points = made.points(line)
        other_point = points[1] if line.start == node.id else points[-2]
        places.setdefault(other, math.radians(90 - node.position.bearing_to(other_point)))
    corners = sorted((angle, other) for other, angle in places.items())
    at = {
        other: made.node(moved(node.position, RADIUS * math.cos(angle), RADIUS * math.sin(angle)))
        for angle, other in corners
    }
    some = made.lines[ids[0]]
    for id in ids:
        line = made.lines[id]
        other = line.end if line.start == node.id else line.start
        far = [it for it in line.shape if distance(it, node.position) > RADIUS + 1]
        ends = {"start": at[other]} if line.start == node.id else {"end": at[other]}
        length = max(line.length - round(10 * RADIUS), 1)
        made.lines[id] = line._replace(length=length, shape=tuple(far), **ends)
    for (angle, other), (next_angle, following) in zip(corners, corners[1:] + corners[:1]):
        turn = (next_angle - angle) % (2 * math.pi) or 2 * math.pi
        half = angle + turn / 2
        middle = moved(node.position, RADIUS * math.cos(half), RADIUS * math.sin(half))
        length = max(round(10 * RADIUS * turn), 1)
        id = next(made.new_lines)
        made.lines[id] = Line(id, at[other], at[following], some.road_class, 4, length, (middle,))
    gone = set(ids)
    made.bans = [
        (one, other)
        for one, other in made.bans
        if not {one, other} <= gone or made.opposite.get(one) == other
    ]


def other_habits(points, draws):
    """Bearings are off by up to two sectors, mostly to one side, and lengths are rounded up by an interval."""
    return [
        replace(
            point,
            sector=(point.sector + draws.choice((-1, 0, 1, 1, 2))) % SECTORS,
            interval=None if point.interval is None else min(point.interval + 1, 255),
        )
        for point in points
    ]


def lacking(road_map, percent, draws):
    """A map that lacks so many percent of the roads."""
    return differing(road_map, Roads(road_map), Difference(missing=percent), draws)


def other_segments(road_map, draws):
    """Nodes where nothing branches off are left out, and then half of the roads are cut in two."""
    return split(dissolved(road_map), 50, draws)


def all_together(road_map, draws):
    """Half as many carriageways and cuts as of each kind alone, a tenth of the roads missing, and 5 percent added; shifted by 10 m."""
    receiver = with_more_roads(lacking(road_map, 10, draws), 5, draws)
    return Pair(split(with_carriageways(road_map, draws), 25, draws), shifted(split(receiver, 25, draws), 10, draws))


def by(difference, is_sender=False):
    """Maps that differ as those of trials do, but in stated proportions: the receiver's is another version of the sender's, or the other way
    round."""

    def maps(road_map, draws):
        other = differing(road_map, Roads(road_map), difference, draws)
        return Pair(other, road_map) if is_sender else Pair(road_map, other)

    return maps


KINDS = {
    "own": Kind("the sender's own map"),
    "half": Kind("half as different as `vendor`", by(VENDOR.times(0.5))),
    "vendor": Kind("another vendor's", by(VENDOR)),
    "older": Kind("as `vendor`, but it is the sender's that lacks roads", by(VENDOR, is_sender=True)),
    "heavy": Kind("all of that harsher", by(Difference(7, 18, 6, 6, 5, 2))),
    "other": Kind("in other proportions", by(Difference(3, 20, 2, 8, 10, 3))),
    "shifted": Kind(
        "shifted by 20 m",
        lambda it, draws: Pair(it, shifted(it, SHIFT, draws)),
        without={"SHIFT": 0.0},
    ),
    "merged": Kind(
        "a third of the sender's two-way roads has two carriageways 12 m apart, and a fifth of its junctions is a roundabout",
        lambda it, draws: Pair(with_carriageways(it, draws), it),
        has_same_lines=False,
    ),
    "segments": Kind(
        "nodes where nothing branches off are left out, and half of the roads are cut in two",
        lambda it, draws: Pair(it, other_segments(it, draws)),
        has_same_lines=False,
    ),
    "added": Kind("10 percent more roads", lambda it, draws: Pair(it, with_more_roads(it, 10, draws))),
    "missing": Kind(
        "20 percent of the roads are missing: more than 7.5 percent never are in these trials",
        lambda it, draws: Pair(it, lacking(it, 20, draws)),
        without={"ANOTHER": ANOTHER._replace(missing=2.0)},
    ),
    "habits": Kind(
        "half of the sender's points lie within lines, its bearings are off, and its lengths are rounded up",
        lambda it, draws: Pair(split(it, 100, draws), it),
        other_habits,
        has_same_lines=False,
        without={"TURNED": (0.0, 0.0), "LONGER": (0.0, 0.0)},
    ),
    "together": Kind("all of these together, each by half", all_together, other_habits, has_same_lines=False),
}
