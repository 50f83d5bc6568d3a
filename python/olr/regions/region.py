"""The discs that the lines of a reference meet.

On a map that has all lines that meet them, and more lines of the whole map or none, with all bans between these lines, a reference
has the answer that it has on the whole map. docs/REGIONS.md has the proof.

Discs are computed for many references at once. What rounding in 64-bit numbers changes is less than a millimetre, and the margins have
that and much more to spare.
"""

import numpy as np
from collections.abc import Sequence
from itertools import chain
from typing import NamedTuple

from olr.arrays import Booleans, Floats, Integers
from olr.model.answers import Reference
from olr.model.questions import TOLERANCES, OfReference
from olr.model.reference import Point, points_of
from olr.model.road_map import MICRODEGREE
from olr.regions.options import Options
from olr.regions.plane import Disc, Discs, scale_at, scales_at
from olr.regions.shortness import Shortness
from olr.regions.store import Store

INTERVAL = 586
"""Decimetres in an interval of the distance to the next point."""
GREATEST_RADIUS = TOLERANCES["radius"].greatest
"""Of the tolerances, in metres; `slack` in decimetres."""
GREATEST_PERCENT, GREATEST_SLACK = TOLERANCES["percent"].greatest, TOLERANCES["slack"].greatest
LONGER = 10
"""Decimetres by which another path of a leg may be longer, whatever `near` is."""
POINT_MARGIN = 1.0
"""Metres by which the program's rounding may bring a line nearer to a point; 4 cm are enough."""
PATH_MARGIN = 6.0
"""Metres by which it may make a path reach farther; 5.1 are enough."""
ROUNDS = 20
"""So often a reach is looked at again."""
FIRST_LOOK = 100.0
"""Metres within which the nearest lines are looked for first."""


class _Points(NamedTuple):
    """The points of references, one reference behind the other."""

    reference: Integers
    """The index of each point's reference."""
    lon: Floats
    """In microdegrees, as `lat`."""
    lat: Floats
    interval: Integers
    """Of the leg that begins there; -1 at the last point of a reference."""
    scale: Floats
    """Of the plane in which the program measures the reference."""

    @classmethod
    def of(cls, references: Sequence[Sequence[Point]]) -> "_Points":
        """Those of references."""
        counts = np.array([len(points) for points in references], dtype=np.int64)
        reference = np.repeat(np.arange(len(counts)), counts)
        rows = list(chain.from_iterable(references))
        lon, lat, interval = np.array(rows, dtype=np.int64).reshape(-1, 3).T
        scale = scales_at(lat[np.cumsum(counts) - counts])[reference].astype(np.float64)
        return cls(reference, lon.astype(np.float64), lat.astype(np.float64), interval, scale)

    def discs(self, radius: float) -> Discs:
        """A disc about each point."""
        return Discs(self.lon, self.lat, np.full(len(self.lon), radius), self.scale)


def discs_of(reference: Reference, options: Options, store: Store, what: OfReference) -> list[Disc]:
    """The discs of a reference, for a question asked with these numbers: `Store.lines_meeting` has the lines of its region.

    A text that is no reference needs no line at all: its fault is the same on each map. Raises `ToolError` if the store can't be
    read.
    """
    return discs_of_each([points_of(reference)], options, store, what)[0].each()


def discs_of_each(
    references: Sequence[Sequence[Point]], options: Options, store: Store, what: OfReference
) -> list[Discs]:
    """The discs of each of some references, as `discs_of`, by their points. Many at once take a small part of the time."""
    points = _Points.of(references)
    radius = GREATEST_RADIUS if what == "why" else options.radius
    kinds, owners = [points.discs(radius + POINT_MARGIN)], [points.reference]
    if what != "candidates":
        legs = _leg_discs(points, options, store.shortness, what)
        apart = np.flatnonzero(~_within_legs(points, radius + POINT_MARGIN, legs))
        kinds, owners = [kinds[0].taken(apart), legs], [owners[0][apart]]
        owners.append(points.reference[points.interval >= 0])
    if what == "why" and options.nearest:
        kinds.append(_nearest_discs(points, options.nearest, store))
        owners.append(points.reference)
    owner = np.concatenate(owners)
    discs = Discs.joined(kinds).taken(np.argsort(owner, kind="stable"))
    behind = np.cumsum(np.bincount(owner, minlength=len(references))).tolist()
    return [discs.taken(slice(first, end)) for first, end in zip([0, *behind], behind)]


def _leg_discs(points: _Points, options: Options, shortness: Shortness, what: OfReference) -> Discs:
    """The disc of each leg: no path that the program looks for between candidates of its points leaves it."""
    first = np.flatnonzero(points.interval >= 0)
    start = points.discs(0.0).taken(first)
    end = points.discs(0.0).taken(first + 1)
    middle = Discs((start.lon + end.lon) / 2, (start.lat + end.lat) / 2, start.radius, start.scale)
    interval = points.interval[first]
    longest = _longest(interval, options.percent, options.slack)
    asked = [(options.radius, longest)]
    if what == "legs":
        # Another path of a leg may be longer than the leg itself.
        longer = np.maximum(LONGER, longest * options.near // 1000)
        asked = [(options.radius, longest + longer)]
    if what == "why":
        far = _longest(interval, GREATEST_PERCENT, GREATEST_SLACK)
        asked = [(options.radius, far), (GREATEST_RADIUS, longest)]
    radii = [_leg_radii(start, middle, radius, limit, shortness) for radius, limit in asked]
    return middle.with_radius(np.maximum.reduce(radii))


def _within_legs(points: _Points, radius: float, legs: Discs) -> Booleans:
    """Which points have their whole disc of this radius in the disc of a leg that begins or ends there."""
    first = np.flatnonzero(points.interval >= 0)
    within = np.zeros(len(points.lon), dtype=np.bool_)
    for ends in (first, first + 1):
        lon, lat = points.lon[ends], points.lat[ends]
        # By 1 mm and more, whatever is rounded here.
        within[ends] |= legs.distances(lon, lat, lon, lat) + radius + 0.001 <= legs.radius
    return within


def _longest(interval: Integers, percent: int, slack: int) -> Integers:
    """The upper ends of widened intervals, in decimetres."""
    return INTERVAL * (interval + 1) * (100 + percent) // 100 + slack


def _leg_radii(
    start: Discs, middle: Discs, radius: int, longest: Integers, shortness: Shortness
) -> Floats:
    """How far from the middle of each leg a path of at most `longest` decimetres leads, in metres, between places at most `radius`
    metres from its points. It is the lesser of two bounds: by the usual stretch and the excess of lines that can be reached, and by
    the greatest stretch."""
    metres = (longest + 1) / 10
    usual = metres * shortness.usual
    path, growth = _reaches(start, radius, usual, shortness)
    bounds = _bounds(middle, radius, path, growth)
    # Without an excess the greatest stretch gives no lesser bound.
    other = np.flatnonzero(path > usual)
    if len(other):
        greatest = metres[other] * shortness.greatest
        path, growth = _reaches(start.taken(other), radius, greatest, None)
        others = _bounds(middle.taken(other), radius, path, growth)
        bounds[other] = np.minimum(bounds[other], others)
    return bounds


def _bounds(middle: Discs, radius: int, path: Floats, growth: Floats) -> Floats:
    """The radii of the discs about the middles of legs, for paths whose shapes are as long as that in all, as measured."""
    for _ in range(2):
        bounds = growth * path / 2 + radius + PATH_MARGIN
        growth = np.minimum(growth, _growth(middle.with_radius(bounds)))
    return bounds


def _reaches(
    start: Discs, radius: int, metres: Floats, shortness: Shortness | None
) -> tuple[Floats, Floats]:
    """How long the shapes of a path from near each point are in all, in metres as measured, and how much longer they are in the plane
    at most. `metres` is its length times a stretch; with `shortness` the excess of lines is added.
    """
    near = start.with_radius(np.full(len(metres), radius + POINT_MARGIN))
    path, growth = metres.copy(), np.ones(len(metres))
    left = np.arange(len(metres))
    for _ in range(ROUNDS):
        reach = start.taken(left).with_radius(growth[left] * path[left] + radius + PATH_MARGIN)
        # The last line of a path may count twice: its position is rounded down.
        twice = 2 * shortness.excess_of(reach, near.taken(left)) if shortness else 0.0
        found_path, found_growth = metres[left] + twice, _growth(reach)
        changed = (found_path != path[left]) | (found_growth != growth[left])
        path[left], growth[left] = found_path, found_growth
        left = left[changed]
        if not len(left):
            return path, growth
    twice = 2 * float(shortness.excess.sum()) if shortness else 0.0
    path[left], growth[left] = metres[left] + twice, start.scale[left] / scale_at(90e6)
    return path, growth


def _growth(discs: Discs) -> Floats:
    """How much longer a shape may be in the plane of each disc than it is as measured, if it meets the disc."""
    farthest = np.abs(discs.lat) + discs.radius / MICRODEGREE
    return np.maximum(1.0, discs.scale / scales_at(farthest))


def _nearest_discs(points: _Points, count: int, store: Store) -> Discs:
    """A disc about each point that the first `count` lines by distance from it meet, or all lines if the map has fewer."""
    discs = points.discs(FIRST_LOOK)
    radii = [_nearest_radius(disc, count, store) for disc in discs.each()]
    return discs.with_radius(np.array(radii, dtype=np.float64))


def _nearest_radius(disc: Disc, count: int, store: Store) -> float:
    """The radius of such a disc. It is first looked for in the given one."""
    while True:
        ids, boxes = store.boxes_near(disc)
        farthest = np.sort(Discs.of([disc]).farthest(*boxes))
        everything = len(ids) == store.sizes.lines
        if everything and len(ids) <= count:
            return float(farthest.max(initial=0.0)) + POINT_MARGIN
        # So many lines lie within that distance, so the nearest ones do.
        if len(ids) >= count and (everything or farthest[count - 1] <= 2 * disc.radius):
            return float(farthest[count - 1]) + POINT_MARGIN
        disc = disc._replace(radius=2 * disc.radius)
