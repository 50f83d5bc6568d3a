"""Polylines in a plane with metres."""

import math
import numpy as np
from typing import NamedTuple

from olr.arrays import Booleans, Floats, Integers
from olr.model.road_map import MICRODEGREE

DEGREE = 1e6 * MICRODEGREE
"""Metres in a degree of latitude."""
NOTHING = 1e-6
"""Metres: what is no longer has no direction that could be told, as positions of the earth are held as degrees."""


class Plane(NamedTuple):
    """An equirectangular plane: metres to the east and to the north of its middle, which is in degrees. Lengths from east to west are right
    at the latitude of the middle."""

    lon: float
    lat: float

    @classmethod
    def around(cls, points: Floats) -> "Plane":
        """The plane whose middle is that of the box of some points, of which there is one at least: longitude and latitude in degrees."""
        lon, lat = (points.min(axis=0) + points.max(axis=0)) / 2
        return cls(float(lon), float(lat))

    def metres(self, points: Floats) -> Floats:
        """Points in the plane."""
        scale = (DEGREE * math.cos(math.radians(self.lat)), DEGREE)
        result: Floats = (points - (self.lon, self.lat)) * scale
        return result


class Segments(NamedTuple):
    """The segments of a polyline in a plane, in the order of travel."""

    starts: Floats
    """Where each begins: east and north in metres."""
    directions: Floats
    """Where each leads to: east and north, of the length 1."""
    lengths: Floats
    """In metres."""

    @classmethod
    def of(cls, points: Floats) -> "Segments":
        """Those between the points of a polyline. Points that are repeated make none."""
        steps = np.diff(points, axis=0)
        lengths: Floats = np.hypot(steps[:, 0], steps[:, 1])
        there = lengths > NOTHING
        directions = steps[there] / lengths[there, None]
        return cls(points[:-1][there], directions, lengths[there])

    def taken(self, which: slice | Booleans | Integers) -> "Segments":
        """Some of them."""
        return Segments(self.starts[which], self.directions[which], self.lengths[which])

    def ends(self) -> Floats:
        """Where each ends."""
        result: Floats = self.starts + self.directions * self.lengths[:, None]
        return result

    def boxes(self) -> tuple[Floats, Floats]:
        """The least and the greatest coordinates of each."""
        ends = self.ends()
        return np.minimum(self.starts, ends), np.maximum(self.starts, ends)
