"""Roads, as polylines that share vertices, cut into the lines of a map.

A road is cut where roads meet, at loops, and where it has more than 64 shape points. Vertices have numbers, and a vertex
where a road is cut becomes the node with that number as its id.
"""

from collections import Counter
from collections.abc import Iterable, Iterator, Mapping, Sequence, Set
from typing import NamedTuple

from olr.counts import Counts
from olr.model.measure import lengths
from olr.model.road_map import (
    GREATEST_ID,
    GREATEST_LENGTH,
    MOST_SHAPE_POINTS,
    Direction,
    Line,
    Node,
    Origin,
    Position,
    RoadMap,
)
from olr.progress import watched

LINE_IDS = 10_000
"""How many ids of lines a road has: its own id times this, plus twice the number of the part, plus 1 for backward."""
MOST_PARTS = LINE_IDS // 2
GREATEST_ROAD_ID = GREATEST_ID // LINE_IDS - 1
MOST_STEPS = MOST_SHAPE_POINTS + 1
"""From point to point, in one line."""


class Source(NamedTuple):
    """What a road is in the file that it comes from."""

    id: str
    """What it is called there: in OpenStreetMap the way's id."""
    name: str = ""
    kept: tuple[str, ...] = ()
    """Its values of the fields that are kept, as texts."""


class Kind(NamedTuple):
    """What a road is on the map."""

    road_class: int
    form: int
    forward: bool
    """Whether traffic may go as the road is drawn."""
    backward: bool


class Road(NamedTuple):
    """A road, or a piece of one: further roads with the same id continue the numbers of its parts."""

    id: int
    """From 1 to `GREATEST_ROAD_ID`."""
    source: Source
    kind: Kind
    vertices: Sequence[int]
    """The numbers of its vertices, at least two."""


class RoadPart(NamedTuple):
    """A part of a road between two nodes, with one line for each direction in which traffic may go."""

    road: Road
    number: int
    vertices: Sequence[int]
    """Without equal neighbours. The ends are nodes."""


class CutRoads(NamedTuple):
    """Roads cut into parts. `merged` has the node that stands for each node that is no more."""

    parts: Sequence[RoadPart]
    merged: Mapping[int, int]


def _junctions_of(roads: Iterable[Road]) -> set[int]:
    """The vertices where roads end, meet others, or meet themselves. A vertex twice in a row counts once."""
    junctions: set[int] = set()
    seen: set[int] = set()
    for road in roads:
        junctions.update((road.vertices[0], road.vertices[-1]))
        before = None
        for vertex in road.vertices:
            if vertex != before and vertex in seen:
                junctions.add(vertex)
            seen.add(vertex)
            before = vertex
    return junctions


def cut_roads(roads: Sequence[Road], positions: Mapping[int, Position], counts: Counts) -> CutRoads:
    """Cuts roads at junctions, at loops and past 64 shape points. Neighbours in one microdegree become one."""
    junctions = _junctions_of(roads)
    stretches: list[tuple[Road, list[int]]] = []
    merged: dict[int, int] = {}
    for road in watched(roads, "roads cut", len(roads)):
        for stretch in _between(road.vertices, junctions):
            kept = _without_equal_neighbours(stretch, positions)
            counts.change("equal neighbours dropped", len(stretch) - len(kept))
            if len(kept) > 2 or positions[kept[0]] != positions[kept[1]]:
                stretches.append((road, kept))
            elif kept[0] != kept[1]:
                _merge(kept[0], kept[1], merged)
            else:
                counts.change("equal neighbours dropped")
    counts.change("nodes merged with a neighbour in the same microdegree", len(merged))

    parts: list[RoadPart] = []
    numbers: Counter[int] = Counter()
    for road, stretch in stretches:
        ends = _standing_for(stretch[0], merged), _standing_for(stretch[-1], merged)
        for vertices in _short_pieces([ends[0], *stretch[1:-1], ends[1]], counts):
            number = numbers[road.id]
            numbers[road.id] += 1
            if number < MOST_PARTS:
                parts.append(RoadPart(road, number, vertices))
            else:
                counts.leave_out(f"parts of a road beyond its first {MOST_PARTS:,}")
    return CutRoads(parts, {node: _standing_for(node, merged) for node in merged})


def _between(vertices: Sequence[int], junctions: Set[int]) -> Iterator[list[int]]:
    """The stretches of a road from junction to junction. Its ends count as junctions."""
    stretch = [vertices[0]]
    for vertex in vertices[1:-1]:
        stretch.append(vertex)
        if vertex in junctions:
            yield stretch
            stretch = [vertex]
    stretch.append(vertices[-1])
    yield stretch


def _without_equal_neighbours(vertices: list[int], positions: Mapping[int, Position]) -> list[int]:
    """The vertices without those that have the position of a neighbour. Both ends stay."""
    kept = vertices[:1]
    for vertex in vertices[1:-1]:
        if positions[vertex] != positions[kept[-1]]:
            kept.append(vertex)
    while len(kept) > 1 and positions[kept[-1]] == positions[vertices[-1]]:
        kept.pop()
    kept.append(vertices[-1])
    return kept


def _merge(first: int, second: int, merged: dict[int, int]) -> None:
    """Lets the lesser of two nodes stand for both, and for all that they stand for."""
    least, greatest = sorted((_standing_for(first, merged), _standing_for(second, merged)))
    if least != greatest:
        merged[greatest] = least


def _standing_for(node: int, merged: Mapping[int, int]) -> int:
    """The node that stands for a node."""
    while node in merged:
        node = merged[node]
    return node


def _short_pieces(vertices: Sequence[int], counts: Counts) -> Iterator[Sequence[int]]:
    """A stretch in pieces that are no loops and have at most 64 points between their ends."""
    steps = len(vertices) - 1
    pieces = -(-steps // MOST_STEPS)
    if pieces > 1:
        counts.change("roads cut past 64 shape points")
    elif vertices[0] == vertices[-1]:
        counts.change("self-loops cut in two")
        pieces = 2
    for piece in range(pieces):
        yield vertices[piece * steps // pieces : (piece + 1) * steps // pieces + 1]


def map_of(
    parts: Sequence[RoadPart],
    positions: Mapping[int, Position],
    kept: Sequence[str],
    counts: Counts,
) -> RoadMap:
    """The map of the parts, without bans: nodes and lines by rising id. `kept` are the names of the fields that are kept of each road."""
    lines: list[Line] = []
    origins: list[Origin] = []
    polylines = [[positions[vertex] for vertex in part.vertices] for part in parts]
    measured = zip(parts, polylines, lengths(polylines))
    for part, polyline, length in watched(measured, "parts of roads made lines", len(parts)):
        if length > GREATEST_LENGTH:
            counts.leave_out("parts of a road that are longer than 1,000 km")
            continue
        for direction in _directions(part.road.kind):
            line = _line(part, direction, tuple(polyline[1:-1]), length)
            lines.append(line)
            source, name, values = part.road.source
            origins.append(Origin(line.id, source, direction, part.number, name, values))
    lines.sort()
    origins.sort()
    ends = sorted({node for line in lines for node in (line.start, line.end)})
    return RoadMap([Node(id, positions[id]) for id in ends], lines, (), origins, kept)


def _directions(kind: Kind) -> Iterator[Direction]:
    """The directions in which traffic may go along a road."""
    if kind.forward:
        yield "forward"
    if kind.backward:
        yield "backward"


def _line(part: RoadPart, direction: Direction, shape: tuple[Position, ...], length: int) -> Line:
    """The line of one direction of a part."""
    road = part.road
    id = road.id * LINE_IDS + 2 * part.number
    start, end = part.vertices[0], part.vertices[-1]
    if direction == "backward":
        id, start, end, shape = id + 1, end, start, shape[::-1]
    return Line(id, start, end, road.kind.road_class, road.kind.form, length, shape)
