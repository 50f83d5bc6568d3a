"""References along lines of a map, as texts: OpenLR's binary format, version 3, in base64.

docs/specification/reference.md defines each byte, and candidates.md there how bearings are measured. All sums are of whole numbers.
"""

import base64
import math
from typing import NamedTuple

MICRODEGREE = 11_132  # of latitude, in thousandths of a centimetre
BEARING = 2_000  # centimetres from a point to the place that its bearing looks at
INTERVAL = 586  # decimetres
LINE = 0x0B  # the status of a line reference
EAST_RAYS = [(0, 1_000_000), (198_912, 1_000_000), (414_214, 1_000_000), (668_179, 1_000_000)]
EAST_RAYS += [(1_000_000, 1_000_000), (1_000_000, 668_179), (1_000_000, 414_214), (1_000_000, 198_912)]


class Line(NamedTuple):
    """A line of a map: its class, form, length in decimetres, and its places from start to end, which are
    pairs of longitude and latitude in microdegrees."""

    road_class: int
    form: int
    length: int
    places: list


def sector(east, north):
    """The sector, 0 to 31, of a direction that isn't zero."""
    quarter = 0
    while not (east >= 0 and north > 0):
        east, north, quarter = -north, east, quarter + 1
    return 8 * quarter + sum(ray[0] * north <= ray[1] * east for ray in EAST_RAYS) - 1


def bearing(places):
    """The sector of the direction from the first place to the one 20 m further along, or to the last one."""
    square = places[0][1] ** 2
    share = 10_000 * (32_400 * 10**12 - 4 * square) // (32_400 * 10**12 + square)
    left, (first, *others) = BEARING, places
    east, north = 0, 0
    for place in others:
        step_east = (place[0] - first[0]) * MICRODEGREE * share // 10_000_000
        step_north = (place[1] - first[1]) * MICRODEGREE // 1_000
        distance = math.isqrt(step_east**2 + step_north**2)
        if distance >= left:
            return sector(east + step_east * left // distance, north + step_north * left // distance)
        left, first = left - distance, place
        east, north = east + step_east, north + step_north
    return sector(east, north)


def first_coordinate(value):
    """The number of 24 bits for a coordinate, and the coordinate that it means, in microdegrees."""
    if value < 0:
        number, meant = first_coordinate(-value)
        return -number, -meant
    number = value * 2**24 // 360_000_000 + 1
    return number, ((2 * number - 1) * 45_000_000 + 2**21) // 2**22


def line_reference(legs, lower=0):
    """The text of the reference without offsets that goes along legs, each a list of lines that join up. The lowest class of each leg is so much
    less than that of its lines: the leg can't be driven then, unless by other roads."""
    starts = [leg[0] for leg in legs]
    end = legs[-1][-1]
    numbers, here = zip(*map(first_coordinate, starts[0].places[0]))
    parts = [bytes([LINE])] + [number.to_bytes(3, "big", signed=True) for number in numbers]
    for index, line in enumerate([*starts, end]):
        last = index == len(legs)
        places = line.places[::-1] if last else line.places
        if index > 0:
            steps = [(wanted - was + 5) // 10 for wanted, was in zip(places[0], here)]
            parts += [step.to_bytes(2, "big", signed=True) for step in steps]
            here = [was + 10 * step for was, step in zip(here, steps)]
        lowest = 0 if last else max(0, max(line.road_class for line in legs[index]) - lower)
        parts.append(bytes([line.road_class << 3 | line.form, lowest << 5 | bearing(places)]))
        if not last:
            parts.append(bytes([sum(line.length for line in legs[index]) // INTERVAL]))
    return base64.b64encode(b"".join(parts)).decode("ascii")
