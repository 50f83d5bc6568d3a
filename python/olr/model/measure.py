"""Microdegrees, and lengths on the ellipsoid of WGS 84."""

import numpy as np
from collections.abc import Sequence
from pyproj import Geod

from olr.arrays import Floats, Integers
from olr.model.road_map import Position

_ELLIPSOID = Geod(ellps="WGS84")


def position_of(lon: float, lat: float) -> Position:
    """The position in microdegrees nearest to one in degrees."""
    return Position(round(lon * 1_000_000), round(lat * 1_000_000))


def metres_along(lon: Floats, lat: Floats, sizes: Integers) -> Floats:
    """The length of each of some polylines, in metres. Their points are given in degrees, one polyline behind the other; `sizes`
    says how many points each has, at least two."""
    if not len(sizes):
        return np.zeros(0)
    behind = np.cumsum(sizes)
    steps = np.zeros(len(lon))
    _, _, steps[:-1] = _ELLIPSOID.inv(lon[:-1], lat[:-1], lon[1:], lat[1:])
    # From the last point of a polyline to the first of the next one there is no step.
    steps[behind - 1] = 0.0
    result: Floats = np.add.reduceat(steps, behind - sizes)
    return result


def lengths(polylines: Sequence[Sequence[Position]]) -> list[int]:
    """The length of each polyline, in decimetres, rounded, at least 1. Each has two points or more."""
    numbers = (number for polyline in polylines for point in polyline for number in point)
    lon, lat = np.fromiter(numbers, dtype=float).reshape(-1, 2).T / 1e6
    sizes = np.array([len(polyline) for polyline in polylines], dtype=np.int64)
    return [max(1, round(length * 10)) for length in metres_along(lon, lat, sizes).tolist()]
