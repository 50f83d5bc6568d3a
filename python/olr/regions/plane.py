"""The plane in which the program measures, and discs in it.

A plane has its scale: how many ten thousandths of a microdegree of latitude a microdegree of longitude is long. The program's own
plane of a reference has the scale of its first point's latitude. Here a plane has no origin, and nothing is rounded: the program's
spots lie within 1.5 cm of the positions here.
"""

import numpy as np
from collections.abc import Iterable
from typing import NamedTuple

from olr.arrays import Floats, Integers
from olr.model.road_map import GREATEST_LAT, MICRODEGREE

SQUARE = 32_400 * 10**12
"""Of 180 degrees, in microdegrees."""


def scale_at(lat: float) -> int:
    """The scale of a latitude in microdegrees, as the program has it; beyond the latitudes of a map that of the farthest ones.
    It is less the farther a latitude is from the equator."""
    return int(scales_at(np.array([lat]))[0])


def scales_at(lat: Floats | Integers) -> Integers:
    """The scale of each of some latitudes."""
    square = np.minimum(np.ceil(np.abs(lat)), GREATEST_LAT).astype(np.int64) ** 2
    # 10,000 times the first number is beyond 64 bits: it is divided in two steps, as on paper.
    hundreds, left = np.divmod(100 * (SQUARE - 4 * square), SQUARE + square)
    result: Integers = 100 * hundreds + 100 * left // (SQUARE + square)
    return result


class Disc(NamedTuple):
    """The positions within a radius of a position, in a plane."""

    lon: float
    """In microdegrees, as `lat`."""
    lat: float
    radius: float
    """In metres, in the plane."""
    scale: float
    """Of the plane."""


class Discs(NamedTuple):
    """Many discs: an array for each number of a disc."""

    lon: Floats
    lat: Floats
    radius: Floats
    scale: Floats

    @classmethod
    def of(cls, discs: Iterable[Disc]) -> "Discs":
        """Those given one by one."""
        return cls(*np.array(list(discs), dtype=np.float64).reshape(-1, 4).T)

    @classmethod
    def joined(cls, parts: Iterable["Discs"]) -> "Discs":
        """Those of all parts, one part behind the other."""
        columns = list(zip(*parts))
        return cls(*[np.concatenate(one) for one in columns]) if columns else cls.of([])

    def taken(self, which: Integers | slice) -> "Discs":
        """Those at some indices."""
        return Discs(self.lon[which], self.lat[which], self.radius[which], self.scale[which])

    def with_radius(self, radius: Floats) -> "Discs":
        """The same with other radii."""
        return Discs(self.lon, self.lat, radius, self.scale)

    def each(self) -> list[Disc]:
        """One by one."""
        return [Disc(*row) for row in np.stack(self, axis=1).tolist()]

    def boxes(self) -> tuple[Floats, Floats, Floats, Floats]:
        """West, south, east and north of each in microdegrees: no position of the disc is beyond."""
        north = self.radius / MICRODEGREE
        east = north * 10_000 / self.scale
        return self.lon - east, self.lat - north, self.lon + east, self.lat + north

    def distances(self, west: Floats, south: Floats, east: Floats, north: Floats) -> Floats:
        """How far the nearest position of a box is from the middle, in metres: of the first box for the first disc, and so on. Edges
        are in microdegrees."""
        x = np.maximum(np.maximum(west - self.lon, self.lon - east), 0.0) * self.scale / 10_000
        y = np.maximum(np.maximum(south - self.lat, self.lat - north), 0.0)
        result: Floats = np.hypot(x, y) * MICRODEGREE
        return result

    def farthest(self, west: Floats, south: Floats, east: Floats, north: Floats) -> Floats:
        """How far the farthest position of a box is from the middle, in metres."""
        x = np.maximum(np.abs(west - self.lon), np.abs(east - self.lon)) * self.scale / 10_000
        y = np.maximum(np.abs(south - self.lat), np.abs(north - self.lat))
        result: Floats = np.hypot(x, y) * MICRODEGREE
        return result
