"""A reference in physical units written in binary, version 3 (docs/specification/reference.md)."""

import binascii
from collections.abc import Mapping, Sequence
from typing import Literal

from olr.model.reference import (
    LINE,
    MOST_POINTS,
    NEGATIVE,
    POINT_ALONG_LINE,
    POSITIVE,
    absolute,
    layout,
)
from olr.model.road_map import GREATEST_LAT, GREATEST_LON
from olr.physical import faults
from olr.physical.fields import NAMES, Number, PhysicalPoint, PhysicalReference
from olr.physical.grid import (
    LEAST_STEPS,
    MICRODEGREE,
    MOST_STEPS,
    STEP,
    absolute_number,
    relative_number,
)
from olr.physical.numbers import ONE, units_of

SECTOR = 11_25 * ONE // 100
INTERVAL = 58_6 * ONE // 10
LONGEST_LEG = 15_000 * ONE
"""A leg is shorter, in units."""
SHARES = 256
"""Of a leg, in which an offset is told."""
_MOST_LON, _MOST_LAT = GREATEST_LON * MICRODEGREE, GREATEST_LAT * MICRODEGREE
_CIRCLE = 360 * ONE
_ROADS: Mapping[tuple[Number, Number], int] = {
    (class_, form): class_ << 3 | form for class_ in range(8) for form in range(8)
}
"""Classes and forms in one byte."""
_SECTORS: Mapping[Number, int] = {
    str(degrees): degrees * ONE // SECTOR % 32 for degrees in range(361)
}
"""Sectors of bearings of whole degrees, as most senders write them."""
_PATHS: Mapping[tuple[Number, Number], int] = {
    (lowest, bearing): lowest << 5 | sector
    for lowest in range(8)
    for bearing, sector in _SECTORS.items()
}
"""Lowest classes and such bearings in one byte."""


def base64_of(reference: PhysicalReference, names: Mapping[str, str] = NAMES) -> str:
    """The binary form of a reference, in base64. Raises `Fault`, with the names that the source has for the fields, if there is none."""
    return binascii.b2a_base64(_Writing(reference, names).content(), newline=False).decode()


class _Writing:
    """A reference that is being written."""

    def __init__(self, reference: PhysicalReference, names: Mapping[str, str]) -> None:
        self._reference, self._names = reference, names
        self._is_line = reference.kind == "line"

    def content(self) -> bytes:
        """The bytes."""
        points = self._reference.points
        self._require_points(len(points))
        legs = self._legs(points)
        flags, shares = self._shares(legs[0], legs[-1])
        roads = self._roads(points)
        status = LINE if self._is_line else POINT_ALONG_LINE
        values = [status, *self._points(points, roads, legs)]
        values[-1] |= flags
        return layout(len(points) - 2).pack(*values) + shares

    def _require_points(self, count: int) -> None:
        """Raises `Fault` for a number of points that the kind hasn't."""
        if self._is_line and count > MOST_POINTS:
            raise faults.too_many_points(count)
        if count < 2 or count > 2 and not self._is_line:
            raise faults.bad_element(self._names["points"])

    def _legs(self, points: Sequence[PhysicalPoint]) -> list[int]:
        """The distance from each point to the next one, in units."""
        legs = []
        for number, point in enumerate(points[:-1], 1):
            distance = self._length("distance", point.distance)
            if distance >= LONGEST_LEG:
                raise faults.leg_too_long(number)
            legs.append(distance)
        return legs

    def _roads(self, points: Sequence[PhysicalPoint]) -> list[int]:
        """Class and form of each point; of a point along a line also the orientation and the side."""
        reference = self._reference
        roads = [_ROADS.get((point.class_, point.form)) or self._road(point) for point in points]
        if not self._is_line:
            roads[0] |= self._known("orientation", reference.orientation) << 6
            roads[1] |= self._known("side", reference.side) << 6
        return roads

    def _road(self, point: PhysicalPoint) -> int:
        """Class and form."""
        return self._whole("class_", point.class_, 7) << 3 | self._whole("form", point.form, 7)

    def _points(
        self, points: Sequence[PhysicalPoint], roads: Sequence[int], legs: Sequence[int]
    ) -> list[int]:
        """The fields of all points, in their order."""
        point = points[0]
        longitude, latitude = self._place(1, point)
        east = absolute_number(longitude, GREATEST_LON)
        north = absolute_number(latitude, GREATEST_LAT)
        lon, lat = absolute(east), absolute(north)
        values = [east >> 16, east & 0xFFFF, north >> 16, north & 0xFFFF]
        for number, (following, road, leg) in enumerate(zip(points[1:], roads, legs), 2):
            longitude, latitude = self._place(number, following)
            east = relative_number(longitude, lon, GREATEST_LON)
            north = relative_number(latitude, lat, GREATEST_LAT)
            if not (LEAST_STEPS <= east <= MOST_STEPS and LEAST_STEPS <= north <= MOST_STEPS):
                raise faults.too_far(number)
            lon, lat = lon + STEP * east, lat + STEP * north
            path = _PATHS.get((point.lowest, point.bearing))
            if path is None:
                path = self._whole("lowest", point.lowest, 7) << 5 | self._sector(point)
            values += (road, path, leg // INTERVAL, east, north)
            point = following
        values += (roads[-1], self._sector(point))
        return values

    def _place(self, number: int, point: PhysicalPoint) -> tuple[int, int]:
        """Longitude and latitude of the point with that number, in units."""
        longitude, latitude = units_of(point.longitude), units_of(point.latitude)
        if longitude is None or latitude is None:
            raise faults.bad_element(
                self._names["latitude" if longitude is not None else "longitude"]
            )
        if abs(longitude) > _MOST_LON or abs(latitude) > _MOST_LAT:
            raise faults.out_of_range(number)
        return longitude, latitude

    def _sector(self, point: PhysicalPoint) -> int:
        """The sector of the bearing: 360 degrees are 0."""
        sector = _SECTORS.get(point.bearing)
        if sector is not None:
            return sector
        bearing = units_of(point.bearing)
        if bearing is None or not 0 <= bearing <= _CIRCLE:
            raise faults.bad_element(self._names["bearing"])
        return bearing // SECTOR % 32

    def _shares(self, first: int, last: int) -> tuple[int, bytes]:
        """The flags of the offsets that there are, and their shares of the first and of the last leg."""
        reference, flags, shares = self._reference, 0, b""
        if reference.positive is not None and (offset := self._offset("positive", first)):
            flags, shares = POSITIVE, bytes([offset * SHARES // first])
        if reference.negative is not None and (offset := self._offset("negative", last)):
            if not self._is_line:
                raise faults.bad_element(self._names["negative"])
            flags, shares = flags | NEGATIVE, shares + bytes([offset * SHARES // last])
        return flags, shares

    def _offset(self, field: Literal["positive", "negative"], leg: int) -> int:
        """An offset, which is shorter than its leg or 0, in units."""
        offset = self._length(field, getattr(self._reference, field))
        if offset >= leg and offset:
            raise faults.offset_too_long(self._names[field])
        return offset

    def _length(self, field: str, value: Number) -> int:
        """Metres, in units."""
        length = units_of(value)
        if length is None or length < 0:
            raise faults.bad_element(self._names[field])
        return length

    def _known(self, field: str, value: Number) -> int:
        """Orientation or side: nothing known is 0."""
        return 0 if value is None else self._whole(field, value, 3)

    def _whole(self, field: str, value: Number, most: int) -> int:
        """A whole number."""
        number = value if type(value) is int else _whole_number(value)
        if not 0 <= number <= most:
            raise faults.bad_element(self._names[field])
        return number


def _whole_number(value: Number) -> int:
    """A number that is whole; -1 for any other one."""
    units = units_of(value)
    return -1 if units is None or units % ONE else units // ONE
