"""Roads joined where their ends meet.

Ends that lie within the tolerance of each other, on one side of longitude 180, are one vertex. Where an end lies within the tolerance
of another road, between its ends, that road gets the vertex too. Roads that only cross aren't joined, since one may be a bridge.
"""

import numpy as np
from collections.abc import Iterator, Mapping, Sequence, Set
from dataclasses import dataclass
from scipy.sparse import coo_matrix
from scipy.sparse.csgraph import connected_components
from scipy.spatial import cKDTree
from typing import NamedTuple

from olr.arrays import Floats, Integers, numbers_within
from olr.counts import Counts
from olr.importing.roads import Road
from olr.model.measure import position_of
from olr.model.road_map import Position
from olr.progress import progress
from olr.sphere import RADIUS, on_sphere
from olr.vector.reading import VectorRoad

SAMPLE_METRES = 25.0
"""Roads are sampled at this distance to find the segments near a node."""
CUT = "places where an end of a road meets another road, which is cut there"


@dataclass(frozen=True)
class Joined:
    """Roads whose vertices have numbers, from 1, and the positions of the vertices. The first numbers are those of ends."""

    roads: Sequence[Road]
    positions: Mapping[int, Position]


class _Visit(NamedTuple):
    """A node lies near a road between its ends."""

    arc: float
    """How far along the road, in metres."""
    distance: float
    """From the road, in metres."""
    node: int
    """Its index."""
    segment: int
    """The number of the segment of the road, from 0."""
    behind: float
    """How far along the segment, in metres."""
    length: float
    """Of the segment, in metres."""


def join_roads(
    roads: Sequence[VectorRoad], tolerance: float, join_vertices: bool, counts: Counts
) -> Joined:
    """Joins roads where their ends meet within a tolerance in metres. With `join_vertices` also where they have a vertex in common
    between their ends. Counts what is changed."""
    if not roads:
        return Joined([], {})
    joined = []
    with progress("roads joined", len(roads)) as advance:
        node_of_end, nodes = _nodes_of_ends(roads, tolerance)
        places = [position_of(lon, lat) for lon, lat in nodes.tolist()]
        _count_moved(roads, node_of_end, places, counts)
        visits = _visits(roads, node_of_end, nodes, tolerance)
        inner = _InnerVertices(places, _common_vertices(roads), join_vertices)
        for index, road in enumerate(roads):
            advance(1)
            here = visits.get(index, [])
            counts.change(CUT, len(here))
            first, last = (node_of_end[index] + 1).tolist()
            between = (
                inner.number_of(position_of(*point)) if node is None else node + 1
                for node, point in _inner(road, here, tolerance)
            )
            vertices = [first, *between, last]
            if len({inner.positions[vertex] for vertex in vertices}) > 1:
                joined.append(Road(road.id, road.source, road.kind, vertices))
            else:
                counts.leave_out("roads that are shorter than the tolerance")
    reason = "vertices that roads have in common between their ends"
    if join_vertices:
        counts.change(f"{reason}, joined", len(inner.crossings))
    else:
        counts.leave_out(f"joins at {reason} (--join-vertices joins them)", len(inner.crossings))
    return Joined(joined, inner.positions)


class _InnerVertices:
    """Numbers the vertices between the ends of roads, behind those of the nodes."""

    def __init__(self, nodes: Sequence[Position], common: Set[Position], join: bool) -> None:
        self.positions = {number: place for number, place in enumerate(nodes, 1)}
        """Of all vertices by their numbers."""
        self.crossings: set[Position] = set()
        """Where roads have a vertex in common."""
        self._common, self._join = common, join
        self._numbers: dict[Position, int] = {}

    def number_of(self, place: Position) -> int:
        """The number of a further vertex: one of its own, or, where they are joined, that of the other roads there."""
        if place in self._common:
            self.crossings.add(place)
            if self._join and place in self._numbers:
                return self._numbers[place]
        number = len(self.positions) + 1
        self.positions[number] = place
        if place in self._common:
            self._numbers[place] = number
        return number


def _nodes_of_ends(roads: Sequence[VectorRoad], tolerance: float) -> tuple[Integers, Floats]:
    """The index of the node at each end of each road, and the nodes' positions in degrees: each is that of its first end."""
    ends = np.array([road.points[place] for road in roads for place in (0, -1)])
    rounded = np.round(ends * 1e6)
    places, place_of_end = np.unique(rounded, axis=0, return_inverse=True)
    pairs = np.zeros((0, 2), dtype=np.int64)
    if tolerance > 0:
        tree = cKDTree(on_sphere(places[:, 0] / 1e6, places[:, 1] / 1e6))
        pairs = tree.query_pairs(tolerance, output_type="ndarray")
        # On the two sides of longitude 180 ends are near each other, and no node is on both.
        pairs = pairs[np.abs(np.diff(places[pairs, 0])[:, 0]) <= 180e6]
    near = coo_matrix(
        (np.ones(len(pairs), dtype=np.int8), (pairs[:, 0], pairs[:, 1])),
        shape=(len(places), len(places)),
    )
    _, group = connected_components(near, directed=False)
    group_of_end = group[place_of_end.reshape(-1)]
    _, first, inverse = np.unique(group_of_end, return_index=True, return_inverse=True)
    # Nodes are numbered in the order in which the file names them.
    order = np.argsort(first)
    rank = np.empty_like(order)
    rank[order] = np.arange(len(order))
    return rank[inverse.reshape(-1)].reshape(-1, 2), ends[first[order]]


def _count_moved(
    roads: Sequence[VectorRoad], node_of_end: Integers, places: Sequence[Position], counts: Counts
) -> None:
    """Counts the ends that aren't where their node is."""
    moved = sum(
        position_of(*road.points[end].tolist()) != places[node]
        for road, nodes in zip(roads, node_of_end.tolist())
        for end, node in zip((0, -1), nodes)
    )
    counts.change("ends of roads moved to an end within the tolerance", moved)


def _visits(
    roads: Sequence[VectorRoad], node_of_end: Integers, nodes: Floats, tolerance: float
) -> dict[int, list[_Visit]]:
    """For each road, by its index, the nodes that lie near it between its ends, in order along it."""
    points = np.concatenate([road.points for road in roads])
    counts = np.array([len(road.points) for road in roads])
    road_of_point = np.repeat(np.arange(len(roads)), counts)
    starts = np.flatnonzero(road_of_point[:-1] == road_of_point[1:])
    spots = on_sphere(points[:, 0], points[:, 1])
    steps = np.zeros(len(points))
    steps[starts + 1] = np.linalg.norm(spots[starts + 1] - spots[starts], axis=1)
    segment, node = _near_pairs(points, starts, steps[starts + 1], nodes, tolerance)
    arcs = np.cumsum(steps)
    firsts = np.cumsum(counts) - counts
    share, distance = _projections(points[segment], points[segment + 1], nodes[node])
    road = road_of_point[segment]
    along = arcs[segment] - arcs[firsts[road]] + share * steps[segment + 1]
    whole = arcs[firsts + counts - 1] - arcs[firsts]
    # Near an end of a road its own node is that end.
    own_start = (node_of_end[road, 0] == node) & (along <= 2 * tolerance)
    own_end = (node_of_end[road, 1] == node) & (whole[road] - along <= 2 * tolerance)
    kept = np.flatnonzero((distance <= tolerance) & ~own_start & ~own_end)
    kept = kept[np.lexsort((along[kept], node[kept], road[kept]))]
    length = steps[segment + 1]
    columns = (along, distance, node, segment - firsts[road], share * length, length)
    visits: dict[int, list[_Visit]] = {}
    for index, *of_visit in zip(*(column[kept].tolist() for column in (road, *columns))):
        here = visits.setdefault(index, [])
        visit = _Visit(*of_visit)
        # Neighbouring segments are near the same node once.
        if here and here[-1].node == visit.node and visit.arc - here[-1].arc <= 2 * tolerance:
            here[-1] = min(here[-1], visit, key=lambda v: (v.distance, v.arc))
        else:
            here.append(visit)
    return {index: sorted(here) for index, here in visits.items()}


def _near_pairs(
    points: Floats, starts: Integers, lengths: Floats, nodes: Floats, tolerance: float
) -> tuple[Integers, Integers]:
    """Pairs of a segment, by the index of its first point, and a node that may be within the tolerance of it. `lengths` are those of the
    segments, in metres."""
    samples = np.maximum(1, np.ceil(lengths / SAMPLE_METRES)).astype(np.int64)
    segment = np.repeat(starts, samples)
    share = (numbers_within(samples) + 0.5) / np.repeat(samples, samples)
    middle = points[segment] + share[:, None] * (points[segment + 1] - points[segment])
    tree = cKDTree(on_sphere(middle[:, 0], middle[:, 1]))
    reach = SAMPLE_METRES / 2 * 1.01 + tolerance
    found = tree.query_ball_point(on_sphere(nodes[:, 0], nodes[:, 1]), reach)
    node = np.repeat(np.arange(len(nodes)), [len(hits) for hits in found])
    hits = np.concatenate([np.array(hits, dtype=np.int64) for hits in found])
    pairs = np.stack([segment[hits], node])
    near, there = np.unique(pairs, axis=1)
    return near, there


def _projections(start: Floats, end: Floats, spot: Floats) -> tuple[Floats, Floats]:
    """For each spot the nearest place of a segment, as a share of it, and the distance in metres, in a plane around the spot."""
    shrink = np.cos(np.radians(spot[:, 1]))
    scale = np.radians(RADIUS) * np.stack([shrink, np.ones(len(spot))], axis=1)
    a, b = (start - spot) * scale, (end - spot) * scale
    step = b - a
    square = np.einsum("ij,ij->i", step, step)
    share = np.clip(-np.einsum("ij,ij->i", a, step) / np.maximum(square, 1e-12), 0.0, 1.0)
    distance = np.linalg.norm(a + share[:, None] * step, axis=1)
    return share, distance


def _common_vertices(roads: Sequence[VectorRoad]) -> set[Position]:
    """The positions of vertices between the ends of roads that come more than once."""
    degrees: Floats = np.concatenate([road.points[1:-1] for road in roads])
    inner = np.round(degrees * 1e6).astype(np.int64)
    road_of = np.repeat(np.arange(len(roads)), [len(road.points) - 2 for road in roads])
    again = np.zeros(len(inner), dtype=bool)
    again[1:] = (inner[1:] == inner[:-1]).all(axis=1) & (road_of[1:] == road_of[:-1])
    places, times = np.unique(inner[~again], axis=0, return_counts=True)
    return {Position(lon, lat) for lon, lat in places[times > 1].tolist()}


def _inner(
    road: VectorRoad, visits: Sequence[_Visit], tolerance: float
) -> Iterator[tuple[int | None, tuple[float, float]]]:
    """The vertices between the ends of a road, in order: each a node by its index, or None and a point in degrees.

    A node takes the place of the vertex at which the road is nearest to it, if that is within the tolerance, and else is a vertex more.
    """
    points = road.points
    taken: dict[int, int] = {}
    between: dict[int, list[int]] = {}
    for visit in visits:
        vertex = _vertex_at(road, visit, tolerance)
        if vertex is not None and vertex not in taken:
            taken[vertex] = visit.node
        else:
            between.setdefault(visit.segment, []).append(visit.node)
    for index, (lon, lat) in enumerate(points.tolist()):
        if 0 < index < len(points) - 1:
            yield taken.get(index), (lon, lat)
        for node in between.get(index, ()):
            yield node, (lon, lat)


def _vertex_at(road: VectorRoad, visit: _Visit, tolerance: float) -> int | None:
    """The inner vertex of a road that is within the tolerance of where a node lies along it."""
    ahead = visit.length - visit.behind
    if min(visit.behind, ahead) > tolerance:
        return None
    nearest = visit.segment if visit.behind <= ahead else visit.segment + 1
    return nearest if 0 < nearest < len(road.points) - 1 else None
