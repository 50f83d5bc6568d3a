"""Roads cut at longitude 180, the antimeridian: a map is a plane from -180 to 180, and no line leads across its edge.

Of a step between points whose longitudes differ by more than 180 degrees the short way round the earth leads across. The road becomes
two there, which don't meet: a node has one longitude, so their ends at 180 and at -180 can't be one.
"""

from collections.abc import Callable, Iterable, Iterator, Sequence
from itertools import pairwise
from typing import TypeVar

from olr.counts import ValueCounts
from olr.importing.roads import Road
from olr.model.road_map import GREATEST_ID, GREATEST_LON, Position

CUT = "roads cut at longitude 180"
"""With the id of the road in its file as the value."""

Vertex = TypeVar("Vertex")


def cut_roads_across(
    roads: Iterable[Road], positions: dict[int, Position], cuts: ValueCounts
) -> list[Road]:
    """The roads, each of which is cut where it leads across. `positions` get the vertices there, whose numbers go down from the greatest
    id."""
    ends = _Ends(positions)
    found = []
    for road in roads:
        places = [positions[vertex] for vertex in road.vertices]
        if not leads_across(places):
            found.append(road)
            continue
        parts = list(pieces(road.vertices, places, ends.number_of))
        found += [road._replace(vertices=part) for part in parts]
        if len(parts) != 1:
            cuts.add(CUT, road.source.id)
    return found


def leads_across(places: Sequence[Position]) -> bool:
    """Whether a step of a polyline leads across."""
    return any(_is_across(here, there) for here, there in pairwise(places))


def _is_across(here: Position, there: Position) -> bool:
    """Whether a step leads across."""
    return abs(here.lon - there.lon) > GREATEST_LON


def pieces(
    vertices: Sequence[Vertex],
    places: Sequence[Position],
    end: Callable[[Vertex, Vertex, Position], Vertex],
) -> Iterator[list[Vertex]]:
    """The pieces of a polyline on either side, of two vertices or more each. `end` makes a vertex at a place where a step leads across, of
    the step's vertex on that side and of the other one."""
    piece = [vertices[0]]
    for (near, here), (far, there) in pairwise(zip(vertices, places)):
        if _is_across(here, there):
            place = _crossing(here, there)
            if place != here:
                piece.append(end(near, far, place))
            if len(piece) > 1:
                yield piece
            opposite = Position(-place.lon, place.lat)
            piece = [] if opposite == there else [end(far, near, opposite)]
        piece.append(far)
    if len(piece) > 1:
        yield piece


def _crossing(here: Position, there: Position) -> Position:
    """Where a step leads across, on the side of its first point: the latitude by proportion."""
    before, behind = (GREATEST_LON - abs(place.lon) for place in (here, there))
    share = before / (before + behind) if before else 0.0
    lat = round(here.lat + share * (there.lat - here.lat))
    return Position(GREATEST_LON if here.lon > 0 else -GREATEST_LON, lat)


class _Ends:
    """The vertices where roads are cut. Roads that share the step have the same ones, and so have those that share a vertex at 180."""

    def __init__(self, positions: dict[int, Position]) -> None:
        self._positions = positions
        self._next = GREATEST_ID
        self._numbers: dict[tuple[int, ...], int] = {}

    def number_of(self, near: int, far: int, place: Position) -> int:
        """The vertex at a place, of a step from a vertex on that side to another one."""
        at_180 = abs(self._positions[far].lon) == GREATEST_LON
        step = (far,) if at_180 else (near, far)
        if step not in self._numbers:
            while self._next in self._positions:
                self._next -= 1
            self._numbers[step] = self._next
            self._positions[self._next] = place
        return self._numbers[step]
