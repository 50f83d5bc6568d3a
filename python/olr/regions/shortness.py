"""How much shorter the lines of a store are than their shapes.

A path of which the program says that it is 1 km long can lead farther than that, because the length of a line is a number in a file
and its shape is another thing. The measured length of a shape is that in the plane whose scale is that of the line's own least
latitude, in amount (see `plane`; 0 for a line on both sides of the equator).

A line's stretch is its measured length, divided by its length. `usual` is one that nearly all lines are within; each of the
others has its excess, the metres that its measured length has beyond its length times `usual`.
"""

import numpy as np
import sqlite3
from dataclasses import dataclass
from functools import cached_property
from typing import NamedTuple

from olr.arrays import Floats, Integers, numbers_within, ranges
from olr.regions.plane import Discs

COLUMNS = "line, lon, lat, west, south, east, north, excess"
"""Of the table: a line, where it starts, the box around it, in microdegrees, and its excess, in metres."""

BAND = 100_000
"""Of latitude, in microdegrees."""
STRIDE = 1 << 30
"""From a band to the next one: more than there are longitudes."""
MOST_PAIRS = 1_000_000
"""So many pairs of a disc and a line are looked at at once, if one disc hasn't more."""


@dataclass(frozen=True)
class Shortness:
    """What is known of the lines of a store."""

    usual: float
    """A stretch that nearly all lines are within, at least 1."""
    greatest: float
    """A stretch that all lines are within, at least `usual`. The share by which a line is shorter than its shape is at most
    1 - 1 / `greatest`."""
    lines: Integers
    """The ids of lines beyond `usual`."""
    lon: Floats
    """Where they start, in microdegrees, as `lat`."""
    lat: Floats
    west: Floats
    """The boxes around them, in microdegrees."""
    south: Floats
    east: Floats
    north: Floats
    excess: Floats
    """In metres."""

    @classmethod
    def of_tables(cls, connection: sqlite3.Connection) -> "Shortness":
        """That of an open store. Raises `sqlite3.Error`."""
        usual, greatest = connection.execute("SELECT usual, greatest FROM olr_store").fetchone()
        rows = connection.execute(f"SELECT {COLUMNS} FROM olr_shorter ORDER BY line").fetchall()
        ids = np.array([row[0] for row in rows], dtype=np.int64)
        numbers = np.array([row[1:] for row in rows], dtype=np.float64).reshape(-1, 7).T
        return cls(usual, greatest, ids, *numbers)

    def columns(self) -> list[Floats]:
        """Those of the table behind the lines."""
        return [self.lon, self.lat, self.west, self.south, self.east, self.north, self.excess]

    def content(self) -> bytes:
        """What the table has, in bytes: its columns, numbers of 8 bytes, the least byte first."""
        numbers = [column.astype("<f8").tobytes() for column in self.columns()]
        return b"".join([self.lines.astype("<i8").tobytes(), *numbers])

    def excess_of(self, starting: Discs, meeting: Discs) -> Floats:
        """The excess, in metres, of all lines that start in the first disc of those `starting` or meet the first one of those
        `meeting`; that of the second discs, and so on."""
        count = len(starting.lon)
        if not len(self.lines):
            return np.zeros(count)
        bands = self._bands_near(starting, meeting)
        pairs = int((bands.behind - bands.first).sum())
        if count > 1 and max(pairs, len(bands.first)) > MOST_PAIRS:
            halves = slice(0, count // 2), slice(count // 2, count)
            parts = [self.excess_of(starting.taken(half), meeting.taken(half)) for half in halves]
            return np.concatenate(parts)
        return self._excess_in(bands, starting, meeting)

    def _excess_in(self, bands: "_Bands", starting: Discs, meeting: Discs) -> Floats:
        """The excess of those lines in bands near discs which start in a disc or meet another one."""
        counts = bands.behind - bands.first
        disc = np.repeat(bands.disc, counts)
        near = self._by_place.order[ranges(bands.first, counts)]
        lon, lat = self.lon[near], self.lat[near]
        boxes = self.west[near], self.south[near], self.east[near], self.north[near]
        starts = starting.taken(disc).distances(lon, lat, lon, lat) <= starting.radius[disc]
        meets = meeting.taken(disc).distances(*boxes) <= meeting.radius[disc]
        excess = np.where(starts | meets, self.excess[near], 0.0)
        return np.bincount(disc, excess, len(starting.lon)).astype(np.float64)

    def _bands_near(self, starting: Discs, meeting: Discs) -> "_Bands":
        """Parts of bands in which all lines are that start in a disc or meet another one: a map of a continent has a million lines
        here."""
        known = self._by_place
        west, south, east, north = starting.boxes()
        other_west, other_south, other_east, other_north = meeting.boxes()
        low = np.minimum(west, other_west - known.wide) - 1
        high = np.maximum(east, other_east + known.wide) + 1
        low, high = (np.clip(edges, -STRIDE // 2, STRIDE // 2 - 1) for edges in (low, high))
        lowest = np.floor((np.minimum(south, other_south - known.tall) - 1) / BAND)
        highest = np.floor((np.maximum(north, other_north + known.tall) + 1) / BAND)
        lowest, highest = np.maximum(lowest, known.lowest), np.minimum(highest, known.highest)
        counts = np.maximum(highest - lowest + 1, 0).astype(np.int64)
        disc = np.repeat(np.arange(len(counts)), counts)
        bands = (lowest[disc] + numbers_within(counts)) * STRIDE
        first = np.searchsorted(known.places, bands + low[disc])
        behind = np.searchsorted(known.places, bands + high[disc], side="right")
        return _Bands(disc, first, behind)

    @cached_property
    def _by_place(self) -> "_ByPlace":
        """The lines by where they start."""
        bands = np.floor(self.lat / BAND)
        places = bands * STRIDE + self.lon
        order = np.argsort(places, kind="stable")
        wide = np.maximum(self.lon - self.west, self.east - self.lon).max(initial=0.0)
        tall = np.maximum(self.lat - self.south, self.north - self.lat).max(initial=0.0)
        lowest, highest = bands.min(initial=np.inf), bands.max(initial=-np.inf)
        return _ByPlace(order, places[order], *map(float, (wide, tall, lowest, highest)))


class _ByPlace(NamedTuple):
    """Lines by bands of latitude, and in a band by longitude, of their starts."""

    order: Integers
    places: Floats
    """These places, as numbers."""
    wide: float
    """How far a line leads from its start to the east or west, in microdegrees, at most."""
    tall: float
    """The same to the north or south."""
    lowest: float
    """The first band."""
    highest: float


class _Bands(NamedTuple):
    """Parts of bands: for the disc with an index, the lines from one place in their order to another one."""

    disc: Integers
    first: Integers
    behind: Integers
