"""How long the lines of a map say they are, and how long and how wide their shapes are on the earth (WGS 84)."""

import numpy as np
from dataclasses import dataclass

from olr.arrays import Floats, Integers, with_ends
from olr.checking.map_arrays import MapArrays
from olr.model.measure import metres_along
from olr.model.road_map import GREATEST_LON

FAR_SHARE = 0.05
FAR_DECIMETRES = 10
"""A length is far from the shape if it differs by more than this share and by more than so many decimetres."""
LONG_DECIMETRES = 100
"""Lines of this length or more are those on which rounding to decimetres and microdegrees doesn't tell."""
SHORTEST = 0.1
"""Measured lengths below this, in decimetres, are those of a step across longitude 180."""


@dataclass(frozen=True)
class Shorter:
    """By which share a line's length is less than the length of its shape."""

    line: int
    """Its index."""
    share: float


@dataclass(frozen=True)
class Lengths:
    """The lengths of a map's lines beside those of their shapes."""

    measured: Floats
    """Of each line's shape, in decimetres."""
    far: Integers
    """The indices of lines whose length is far from that of their shape, the greatest difference first."""
    ratio: float | None
    """The median of length by measured length; None without lines."""
    shorter: Shorter | None
    """The greatest share by which a line is shorter than its shape; None if none is shorter."""
    shorter_long: Shorter | None
    """The same among lines of `LONG_DECIMETRES` or more."""


def look_at_lengths(road_map: MapArrays) -> Lengths:
    """Measures the lines of a map that has no fault."""
    measured, length = measure(road_map), road_map.length.astype(np.float64)
    if not len(length):
        return Lengths(measured, np.zeros(0, dtype=np.int64), None, None, None)
    difference = np.abs(length - measured)
    far = np.flatnonzero((difference > FAR_SHARE * measured) & (difference > FAR_DECIMETRES))
    far = far[np.lexsort((far, -difference[far]))]
    ratio = length / np.maximum(measured, SHORTEST)
    every, long = np.arange(len(length)), np.flatnonzero(length >= LONG_DECIMETRES)
    shorter, shorter_long = (_greatest(1.0 - ratio, among) for among in (every, long))
    return Lengths(measured, far, float(np.median(ratio)), shorter, shorter_long)


def _greatest(share: Floats, among: Integers) -> Shorter | None:
    """The line of the greatest share among some; None if there is none above 0."""
    if not len(among):
        return None
    line = int(among[np.argmax(share[among])])
    return Shorter(line, float(share[line])) if share[line] > 0 else None


def measure(road_map: MapArrays) -> Floats:
    """The length of each line's shape on the ellipsoid, in decimetres."""
    ends = _ends(road_map)
    lon = with_ends(road_map.shape_lon, road_map.points, road_map.lon[ends])
    lat = with_ends(road_map.shape_lat, road_map.points, road_map.lat[ends])
    return metres_along(lon / 1e6, lat / 1e6, road_map.points + 2) * 10.0


def lines_round_the_earth(road_map: MapArrays) -> Integers:
    """The ids, sorted, of lines that go more than half round the earth: some of their points are more than 180 degrees of longitude apart."""
    if not len(road_map.line_id):
        return road_map.line_id
    lon = with_ends(road_map.shape_lon, road_map.points, road_map.lon[_ends(road_map)])
    sizes = road_map.points + 2
    firsts = np.cumsum(sizes) - sizes
    width = np.maximum.reduceat(lon, firsts) - np.minimum.reduceat(lon, firsts)
    result: Integers = road_map.line_id[width > GREATEST_LON]
    return result


def _ends(road_map: MapArrays) -> Integers:
    """The indices of the nodes of each line, in turn."""
    result: Integers = np.stack([road_map.start, road_map.end], axis=1).ravel()
    return result


def likely_unit(ratio: float, latitude: float) -> str | None:
    """What lengths of such a ratio to their shapes may have been meant in; None if they look like decimetres.

    `latitude` is the middle of the map in degrees.
    """
    mercator = 1.0 / np.cos(np.radians(latitude))
    meant = {
        0.1: "metres",
        10.0: "centimetres",
        100.0: "millimetres",
        0.328084: "feet",
        float(mercator): "decimetres of Web Mercator, which aren't those on the earth",
    }
    for factor, name in meant.items():
        if abs(ratio / factor - 1.0) < 0.02 and abs(ratio - 1.0) > 0.05:
            return name
    return None
