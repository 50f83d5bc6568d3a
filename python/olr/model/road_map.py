"""What a map is: nodes, lines, bans on turns, where each line came from, and the limits of the program.

Coordinates are whole microdegrees (WGS 84), positive to the east and to the north. Lengths are in decimetres.
"""

import math
from collections.abc import Sequence
from dataclasses import dataclass, field
from typing import Literal, NamedTuple

from olr.errors import ToolError

MOST_NODES = 100_000
MOST_LINES = 200_000
MOST_BANS = 200_000
MOST_SHAPE_POINTS = 64
GREATEST_ID = 2**53
GREATEST_LENGTH = 10_000_000
"""Of a line, in decimetres."""
GREATEST_LON = 180_000_000
GREATEST_LAT = 80_000_000
MICRODEGREE = 0.111_32
"""Metres in a microdegree of latitude."""

Direction = Literal["forward", "backward"]


class Position(NamedTuple):
    """A position on the earth, in microdegrees."""

    lon: int
    lat: int

    def bearing_to(self, other: "Position") -> float:
        """The direction to another position that isn't far, in degrees clockwise from north, from -180 to 180."""
        shrink = math.cos(math.radians(self.lat / 1e6))
        return math.degrees(math.atan2((other.lon - self.lon) * shrink, other.lat - self.lat))


class Node(NamedTuple):
    """An end of lines."""

    id: int
    position: Position


class Line(NamedTuple):
    """One direction of travel on a road, from the node `start` to the node `end`."""

    id: int
    start: int
    end: int
    road_class: int
    """Functional road class, 0 (the most important) to 7."""
    form: int
    """Form of way, 0 to 7."""
    length: int
    """In decimetres, at least 1."""
    shape: tuple[Position, ...]
    """The points between the ends, in order, at most 64."""


class Ban(NamedTuple):
    """No vehicle may go on from the end of the line `first` to the line `second`, which starts there."""

    first: int
    second: int


class Origin(NamedTuple):
    """What a line was in the file that it was made from."""

    line: int
    source: str
    """The name of the road there: in OpenStreetMap the way's id."""
    direction: Direction
    """Whether the line goes as the road is drawn, or against it."""
    part: int
    """The number of the part of that road, from 0."""
    name: str = ""
    """The road's name there; an empty text if it has none."""
    kept: tuple[str, ...] = ()
    """What the road has in the fields `kept` of the map, as texts."""


@dataclass(frozen=True)
class RoadMap:
    """A map. `origins` may be empty, and else has one for each line."""

    nodes: Sequence[Node]
    lines: Sequence[Line]
    bans: Sequence[Ban] = field(default=())
    origins: Sequence[Origin] = field(default=())
    kept: Sequence[str] = field(default=())
    """The names of the fields of the file that `origins` have besides."""


def within_limits(nodes: int, lines: int, bans: int) -> bool:
    """Whether `olr` reads a map of so many nodes, lines and bans."""
    return nodes <= MOST_NODES and lines <= MOST_LINES and bans <= MOST_BANS


def require_within_limits(nodes: int, lines: int, bans: int, remedy: str) -> None:
    """Raises `ToolError` if a map of so many nodes, lines and bans is too large for `olr`. `remedy` says what to do."""
    sizes = ((nodes, MOST_NODES, "nodes"), (lines, MOST_LINES, "lines"), (bans, MOST_BANS, "bans"))
    beyond = [f"{size:,} {what}, {most:,} at most" for size, most, what in sizes if size > most]
    if beyond:
        raise ToolError(f"the map is too large for olr ({'; '.join(beyond)}): {remedy}")
