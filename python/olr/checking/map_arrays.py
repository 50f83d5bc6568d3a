"""A map without faults as arrays: nodes and lines by their indices, from 0, in the order of their ids."""

import numpy as np
from array import array
from dataclasses import dataclass

from olr.arrays import Integers, ranges
from olr.checking.tables import COLUMNS, Tables


@dataclass(frozen=True)
class MapArrays:
    """The columns of a map. `start`, `end` and the bans hold indices."""

    node_id: Integers
    lon: Integers
    lat: Integers
    """In microdegrees, as `lon`."""
    line_id: Integers
    start: Integers
    end: Integers
    road_class: Integers
    form: Integers
    length: Integers
    """In decimetres."""
    points: Integers
    """How many points the shape of each line has."""
    shape_lon: Integers
    """Of all points of all shapes, in the order of the lines."""
    shape_lat: Integers
    ban_first: Integers
    ban_second: Integers


def arrays_of(tables: Tables) -> MapArrays:
    """The arrays of files that have no fault."""
    assert tables.nodes is not None and tables.lines is not None
    positions, lines = tables.nodes.points, tables.lines
    id = np.fromiter(positions, dtype=np.int64, count=len(positions))
    lonlat = np.array(list(positions.values()), dtype=np.int64).reshape(-1, 2)
    by_id = np.argsort(id)
    node_id = id[by_id]
    rows = _column(lines.rows).reshape(-1, COLUMNS)
    order = np.argsort(rows[:, 0])
    line_id, start, end, road_class, form, length, points = rows[order].T.copy()
    first_point = np.cumsum(rows[:, -1]) - rows[:, -1]
    moved = ranges(first_point[order], points)
    coordinates = _column(lines.coordinates).reshape(-1, 2)[moved]
    ban_ids = np.array(list(tables.bans or ()), dtype=np.int64).reshape(-1, 2)
    return MapArrays(
        node_id=node_id,
        lon=lonlat[by_id, 0],
        lat=lonlat[by_id, 1],
        line_id=line_id,
        start=np.searchsorted(node_id, start),
        end=np.searchsorted(node_id, end),
        road_class=road_class,
        form=form,
        length=length,
        points=points,
        shape_lon=coordinates[:, 0],
        shape_lat=coordinates[:, 1],
        ban_first=np.searchsorted(line_id, ban_ids[:, 0]),
        ban_second=np.searchsorted(line_id, ban_ids[:, 1]),
    )


def _column(numbers: "array[int]") -> Integers:
    """A column as an array that shares its memory."""
    return np.frombuffer(numbers, dtype=np.int64) if len(numbers) else np.zeros(0, dtype=np.int64)
