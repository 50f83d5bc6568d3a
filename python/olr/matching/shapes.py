"""Lines and points of many rows at once, as other programs read them.

A row has a line of two points or more, one point, or, with the size 0, nothing.
"""

import numpy as np
import struct
from functools import cache

from olr.arrays import Floats
from olr.geometry.parts import Polylines
from olr.regions.geopackage import WGS_84

_POINT, _LINE = 1, 2
"""The kinds of geometries in WKB."""
_WITH_BOX = 3
"""Of a blob of a GeoPackage: little endian, with an envelope of four numbers."""


def wkb(shapes: Polylines) -> list[bytes | None]:
    """The geometries as well-known binary."""
    data = np.ascontiguousarray(shapes.points, dtype="<f8").tobytes()
    return [
        _front(size) + data[16 * first : 16 * (first + size)] if size else None
        for size, first in zip(shapes.sizes.tolist(), shapes.first().tolist())
    ]


@cache
def _front(size: int) -> bytes:
    """What stands before the coordinates of so many points."""
    return struct.pack("<BI", 1, _POINT) if size == 1 else struct.pack("<BII", 1, _LINE, size)


def boxes(shapes: Polylines) -> Floats:
    """The least and the greatest longitude, then latitude, of each row that has something."""
    first, of_rows = np.unique(shapes.first()[shapes.sizes > 0], return_inverse=True)
    if not len(first):
        return np.zeros((0, 4))
    least = np.minimum.reduceat(shapes.points, first)
    greatest = np.maximum.reduceat(shapes.points, first)
    found = np.stack([least[:, 0], greatest[:, 0], least[:, 1], greatest[:, 1]], axis=1)
    result: Floats = found[of_rows]
    return result


def blobs(shapes: Polylines) -> list[bytes | None]:
    """The geometries as blobs of a GeoPackage, in degrees (WGS 84)."""
    of_rows = iter(boxes(shapes).tolist())
    return [
        None
        if geometry is None
        else struct.pack("<2sBBi4d", b"GP", 0, _WITH_BOX, WGS_84, *next(of_rows)) + geometry
        for geometry in wkb(shapes)
    ]
