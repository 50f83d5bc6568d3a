"""What is known of a map's files while they are checked: what later records refer to, and the map if there is no fault."""

from array import array
from collections.abc import Iterable
from dataclasses import dataclass, field

COLUMNS = 7
"""Of a row of `Lines`."""

Point = tuple[int, int]
"""Longitude and latitude in microdegrees."""
Ends = tuple[int | None, int | None]
"""The nodes where a line starts and ends, where its record has them."""


def _numbers() -> "array[int]":
    return array("q")


@dataclass
class Nodes:
    """The nodes by their ids."""

    records: dict[int, int] = field(default_factory=dict)
    """For each id the number of the first record with it."""
    points: dict[int, Point] = field(default_factory=dict)
    """For each id its position, where the record has one."""


@dataclass
class Lines:
    """The lines by their ids, and the columns of those without a fault in a field, in the order of the file."""

    records: dict[int, int] = field(default_factory=dict)
    """For each id the number of the first record with it."""
    ends: dict[int, Ends] = field(default_factory=dict)
    """For each id the ends of the line."""
    rows: "array[int]" = field(default_factory=_numbers)
    """Id, nodes, class, form and length of each line, and how many points its shape has: `COLUMNS` numbers a line."""
    coordinates: "array[int]" = field(default_factory=_numbers)
    """Longitude and latitude of all points of all shapes, in turn."""

    def add(self, values: Iterable[int], shape: list[int]) -> None:
        """Adds a line: the six numbers of its record, and its shape."""
        self.rows.extend(values)
        self.rows.append(len(shape) // 2)
        self.coordinates.extend(shape)


@dataclass
class Tables:
    """What the files have. A file that can't be told apart into columns is None."""

    nodes: Nodes | None = None
    lines: Lines | None = None
    bans: dict[tuple[int, int], int] | None = None
    """For each ban the number of the first record with it."""
    counts: dict[str, int] = field(default_factory=dict)
    """For each file that was read how many records it has."""
