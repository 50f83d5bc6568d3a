"""What a reference says, read here: a run of `olr show` for each of millions would take hours.

The rules are those of docs/specification/reference.md. The program alone says which fault a text has.
"""

import binascii
import math
import struct
from functools import cache

from olr.model.answers import Reference, ReferencePoint
from olr.model.questions import BLANKS, MOST_BYTES
from olr.model.road_map import GREATEST_LAT, GREATEST_LON, MICRODEGREE, Position

MOST_POINTS = 32
LINE, POINT_ALONG_LINE = 0x0B, 0x2B
"""The status of a kind, without the reserved bit."""
FIRST, BETWEEN, LAST = 9, 7, 6
"""Bytes of a point."""
POSITIVE, NEGATIVE = 0x40, 0x20
"""Of the last attribute: that there is such an offset."""
STEP = 360e6 / 2**24
"""Microdegrees between two coordinates that the first point may have."""
MOST_STEPS = 2**23 - 1
"""How many of them it has, to either side of 0."""

Point = tuple[int, int, int]
"""Longitude and latitude in microdegrees, and the interval of the leg that begins there, or -1 at the last point of a reference."""


def read_reference(text: str) -> Reference | None:
    """What a text says: what `olr show` prints, or None where the program refuses the text."""
    read = _read(text)
    if read is None:
        return None
    content, values, places = read
    points = []
    for at, (lon, lat, interval) in zip(range(5, len(values), 5), places[:-1]):
        one, two = values[at : at + 2]
        points.append(ReferencePoint(one >> 3 & 7, one & 7, lat, lon, two & 31, interval, two >> 5))
    one, last = values[-2:]
    lon, lat, _ = places[-1]
    points.append(ReferencePoint(one >> 3 & 7, one & 7, lat, lon, last & 31))
    offsets = iter(content[layout(len(places) - 2).size :])
    if content[0] & 0x7F == LINE:
        shares = [next(offsets) if last & bit else None for bit in (POSITIVE, NEGATIVE)]
        return Reference("line", tuple(points), *shares)
    first, second = content[1 + 6], content[1 + FIRST + 4]
    share = next(offsets) if last & POSITIVE else None
    return Reference("point-along-line", tuple(points), share, None, first >> 6, second >> 6)


def read_points(text: str) -> list[Point] | None:
    """The points of a reference, or None where the program refuses the text. It takes a quarter of the time of `read_reference`."""
    read = _read(text)
    return None if read is None else read[2]


def points_of(reference: Reference) -> list[Point]:
    """The points of a reference that was read."""
    return [
        (point.lon, point.lat, -1 if point.interval is None else point.interval)
        for point in reference.points
    ]


def _read(text: str) -> tuple[bytes, tuple[int, ...], list[Point]] | None:
    """The bytes of a reference, its fields up to its last attribute, and its points. None where the program refuses the text."""
    content = bytes_of(text)
    if not content:
        return None
    kind = content[0] & 0x7F
    more, flags = divmod(len(content) - 1 - FIRST - LAST, BETWEEN)
    if more < 0 or kind not in (LINE, POINT_ALONG_LINE):
        return None
    if kind == POINT_ALONG_LINE and (more > 0 or flags > 1):
        return None
    if flags > 2 or more + 2 > MOST_POINTS:
        return None
    values = layout(more).unpack_from(content)
    last = values[-1]
    if bool(last & POSITIVE) + (bool(last & NEGATIVE) and kind == LINE) != flags:
        return None
    points = []
    lon, lat = absolute(values[1] << 16 | values[2]), absolute(values[3] << 16 | values[4])
    legs = zip(values[7::5], values[8::5], values[9::5])
    """Of each leg its interval, and how far its second point is from the first one in steps of 10 microdegrees."""
    for interval, east, north in (*legs, (-1, 0, 0)):
        if abs(lat) > GREATEST_LAT or abs(lon) > GREATEST_LON:
            return None
        points.append((lon, lat, interval))
        lon, lat = lon + 10 * east, lat + 10 * north
    return content, values, points


def first_position(text: str) -> Position | None:
    """Where the first point of a reference is. It takes a tenth of the time of `read_reference`, and looks at less: other texts may have a
    position too."""
    content = bytes_of(text)
    if len(content) < 1 + FIRST + LAST:
        return None
    _, lon_high, lon_low, lat_high, lat_low = _POSITION.unpack_from(content)
    return Position(absolute(lon_high << 16 | lon_low), absolute(lat_high << 16 | lat_low))


def bytes_of(text: str) -> bytes:
    """The bytes of a text, none if it isn't the base64 of any."""
    trimmed = text.strip(BLANKS)
    try:
        if len(trimmed) <= MOST_BYTES and trimmed.isascii():
            content = binascii.a2b_base64(trimmed, strict_mode=True)
            is_the_same = binascii.b2a_base64(content, newline=False) == trimmed.encode()
            return content if is_the_same else b""
    except (binascii.Error, ValueError):
        pass
    return b""


def moved(text: str, east: float, north: float) -> str:
    """A reference whose points lie so many metres farther to the east and to the north, to the nearest step of its first point: 2.4 m to
    the north, and less to the east where a degree has fewer metres. A text that is too short for a reference stays as it is.
    """
    content = bytearray(bytes_of(text))
    if len(content) < 1 + FIRST + LAST:
        return text
    lon, lat = (int.from_bytes(content[at : at + 3], "big", signed=True) for at in (1, 4))
    scale = math.cos(math.radians(absolute(lat) / 1e6))
    for at, number, metres in ((1, lon, east / scale), (4, lat, north)):
        there = number + round(metres / MICRODEGREE / STEP)
        content[at : at + 3] = min(max(there, -MOST_STEPS), MOST_STEPS).to_bytes(
            3, "big", signed=True
        )
    return binascii.b2a_base64(content, newline=False).decode()


_POSITION = struct.Struct(">BbHbH")
"""The status, and the position of the first point: high and low bits of its longitude and of its latitude."""


@cache
def layout(more: int) -> struct.Struct:
    """The fields of a reference up to its last attribute, with so many points between the first and the last one: those of `_POSITION`,
    then for each point three attributes and the way to the next one, and two attributes."""
    return struct.Struct(_POSITION.format + "BBBhh" * (more + 1) + "BB")


def absolute(number: int) -> int:
    """A coordinate of the first point, in microdegrees: the nearest whole number, of which there is always one."""
    sign = (number > 0) - (number < 0)
    return ((2 * number - sign) * 90_000_000 + (1 << 22)) >> 23
