"""A small encoder of OpenLR line references (binary format, version 3).

It is for trials and tests: references to paths that are known. It is no encoder for messages: it takes the nodes of the map as points,
expands no path to them, and has neither offsets nor points along a line.
"""

import base64
import math
from collections.abc import Sequence
from itertools import pairwise

from olr.model.answers import ReferencePoint
from olr.model.road_map import MICRODEGREE, Line, Position, RoadMap

BEARING_DISTANCE = 20.0
"""Metres from a point to where its bearing is measured to."""
INTERVAL = 586
"""Decimetres in an interval of the distance to the next point."""
FARTHEST = 250_000
"""Microdegrees from one point to the next one at most, to the north or to the east. A reference has room for 327,670: the rest is for points
that are moved."""


class Lines:
    """The lines of a map by their ids, and their points."""

    def __init__(self, road_map: RoadMap) -> None:
        self.by_id = {line.id: line for line in road_map.lines}
        self.positions = {node.id: node.position for node in road_map.nodes}

    def points(self, line: Line) -> list[Position]:
        """The points of a line, with its ends."""
        return [self.positions[line.start], *line.shape, self.positions[line.end]]


def points_of_legs(
    known: Lines, legs: Sequence[Sequence[int]], ends: tuple[float, float] = (0.0, 1.0)
) -> list[ReferencePoint] | None:
    """The points of a reference to a path that is cut into legs. Each begins with the line before which the one before ends, and has that
    line too. The path begins and ends at shares of the lengths of its first and its last line. None if the points are too many, a leg is
    too long, or it leads too far: near a pole one may lead over many degrees."""
    if len(legs) > 31:
        return None
    start, end = ends
    points = []
    for number, leg in enumerate(legs):
        lines = [known.by_id[id] for id in leg]
        walked = lines if number == len(legs) - 1 else lines[:-1]
        length = float(sum(line.length for line in walked))
        length -= start * lines[0].length if number == 0 else 0
        length -= (1 - end) * lines[-1].length if number == len(legs) - 1 else 0
        interval = int(length) // INTERVAL
        if interval > 255:
            return None
        lowest = max(line.road_class for line in walked)
        along = known.points(lines[0])
        along = _from(along, start) if number == 0 else along
        points.append(_point(lines[0], along, interval, lowest))
    last = known.by_id[legs[-1][-1]]
    points.append(_point(last, _from(known.points(last)[::-1], 1 - end)))
    steps = [max(abs(b.lon - a.lon), abs(b.lat - a.lat)) for a, b in pairwise(points)]
    return points if max(steps) <= FARTHEST else None


def _point(
    line: Line, points: Sequence[Position], interval: int | None = None, lowest: int | None = None
) -> ReferencePoint:
    """A point of a reference, from which a line leads away along some points."""
    lon, lat = points[0]
    return ReferencePoint(
        line.road_class, line.form, lat, lon, _sector(points), interval=interval, lowest=lowest
    )


def _from(points: Sequence[Position], share: float) -> list[Position]:
    """A polyline from a share of its length on."""
    if share <= 0:
        return list(points)
    shrink = math.cos(math.radians(points[0].lat / 1e6))
    steps = [math.hypot((b.lon - a.lon) * shrink, b.lat - a.lat) for a, b in pairwise(points)]
    left = share * sum(steps)
    for number, step in enumerate(steps):
        if left < step:
            one, other = points[number : number + 2]
            part = left / step
            lon, lat = (round(a + (b - a) * part) for a, b in zip(one, other))
            return [Position(lon, lat), *points[number + 1 :]]
        left -= step
    return list(points[-2:])


def text_of(points: Sequence[ReferencePoint]) -> str:
    """The text of a line reference."""
    content = bytearray([0x0B])
    place: tuple[int, int] | None = None
    for point in points:
        place = _put_position(content, Position(point.lon, point.lat), place)
        content.append(point.class_ << 3 | point.form)
        content.append((point.lowest or 0) << 5 | point.sector)
        if point.interval is not None:
            content.append(point.interval)
    return base64.b64encode(content).decode()


def _put_position(
    content: bytearray, position: Position, before: tuple[int, int] | None
) -> tuple[int, int]:
    """Appends a position, relative to the one before if there is one. Answers it as a decoder will read it, in microdegrees."""
    read = []
    for axis, value in enumerate(position):
        if before is None:
            number = math.trunc(value / 360e6 * 2**24 + math.copysign(0.5, value))
            sign = (number > 0) - (number < 0)
            content += number.to_bytes(3, "big", signed=True)
            read.append(round((number - sign / 2) * 360e6 / 2**24))
        else:
            number = round((value - before[axis]) / 10)
            content += number.to_bytes(2, "big", signed=True)
            read.append(before[axis] + 10 * number)
    return read[0], read[1]


def _sector(points: Sequence[Position]) -> int:
    """The sector of the direction from the first point to where the polyline is 20 m further on, or to its end."""
    origin = points[0]
    shrink = math.cos(math.radians(origin.lat / 1e6))
    plane = [
        ((lon - origin.lon) * MICRODEGREE * shrink, (lat - origin.lat) * MICRODEGREE)
        for lon, lat in points
    ]
    left = BEARING_DISTANCE
    east, north = plane[-1]
    for (x, y), (next_x, next_y) in zip(plane, plane[1:]):
        step = math.hypot(next_x - x, next_y - y)
        if step >= left:
            east, north = x + (next_x - x) * left / step, y + (next_y - y) * left / step
            break
        left -= step
    return int(math.degrees(math.atan2(east, north)) % 360 / 11.25)
