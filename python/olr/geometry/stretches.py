"""What one polyline has of another one and what it lacks, and how far they are apart: by their geometry alone, in a plane with metres.

A point of a polyline is also in another one if that has a segment within some metres of it which goes in the same direction: one whose
direction differs by less than 90 degrees. For a segment of each that is an interval of the first one, which is worked out as it is: no
points are sampled.
"""

import numpy as np
from collections.abc import Iterator
from typing import NamedTuple

from olr.arrays import Booleans, Floats, Integers
from olr.geometry.plane import Segments

ROUNDING = 0.001
"""Metres by which a distance may be greater than asked for: a hundredth of a microdegree, in which coordinates of maps are."""
STRAIGHT = 1e-9
"""A cosine or a sine that is taken for 0."""
BLOCK, POINTS = 64, 256
"""So many segments, and so many points, are compared at once: with the segments that are near them."""
STEP = 1.0
"""Metres between the points of a polyline that are looked at for how far it is from another one."""


class _Intervals(NamedTuple):
    """From where to where, in metres: nothing where the end is before the start."""

    start: Floats
    end: Floats


def longest_lacking(one: Segments, other: Segments, across: float) -> float:
    """The length in metres of the longest run along a polyline that isn't in the other one, which is what lies farther than `across`
    metres from each of its segments that go in the same direction. A run goes on where a segment does. It takes a time of the number of
    segments that are near one another."""
    if not len(one.lengths):
        return 0.0
    covered, reached = _along(one, other, across)
    return float(np.max(np.concatenate([covered.start, [one.lengths.sum()]]) - reached))


def share_within(one: Segments, other: Segments, across: float) -> float:
    """The share of the length of a polyline that is in the other one, which is what lies within `across` metres of one of its segments that
    go in the same direction: 0 to 1, and 0 of a polyline without a length. What the other one covers several times counts once. It takes a
    time as `longest_lacking`."""
    if not len(one.lengths):
        return 0.0
    covered, reached = _along(one, other, across)
    added = covered.end - np.maximum(covered.start, reached[:-1])
    return min(float(np.maximum(added, 0.0).sum() / one.lengths.sum()), 1.0)


def _along(one: Segments, other: Segments, across: float) -> tuple[_Intervals, Floats]:
    """From where to where along a polyline it is in the other one, by the starts of these intervals, and how far they reach: in front of
    each of them, and behind the last one."""
    before = np.cumsum(one.lengths) - one.lengths
    start, end = (np.concatenate(column) for column in zip(*_covered(one, before, other, across)))
    order = np.argsort(start)
    reached = np.maximum.accumulate(np.concatenate([[0.0], end[order]]))
    return _Intervals(start[order], end[order]), reached


def _covered(
    one: Segments, before: Floats, other: Segments, across: float
) -> Iterator[tuple[Floats, Floats]]:
    """From where to where along a polyline it is in the other one, for some of its segments at a time. `before` is how far along it each
    of its segments begins."""
    for first in range(0, len(one.lengths), BLOCK):
        which = slice(first, first + BLOCK)
        block = one.taken(which)
        numbers, found = within(block, other.taken(_near(block, other, across)), across)
        shift = before[which][numbers]
        yield found.start + shift, found.end + shift


def _near(one: Segments, other: Segments, across: float) -> Booleans:
    """Which segments of the other polyline may be within a distance of some segments, by the box of these."""
    low, high = one.boxes()
    least, most = other.boxes()
    reach = across + 1
    result: Booleans = (least <= high.max(axis=0) + reach).all(axis=1) & (
        most >= low.min(axis=0) - reach
    ).all(axis=1)
    return result


def within(one: Segments, other: Segments, across: float) -> tuple[Integers, _Intervals]:
    """From where to where along each segment of the first ones it is within a distance of one of the others and goes in the same
    direction: the number of that segment, and the interval, for each pair that has one."""
    first, second = _near_pairs(one, other, across)
    here, there = one.taken(first), other.taken(second)
    radius = across + ROUNDING
    parts = (
        _beside(here, there, radius),
        _around(here, there.starts, radius),
        _around(here, there.ends(), radius),
    )
    # What is within a distance of a segment is convex, so that the three are one interval.
    start, end = np.full(len(first), np.inf), np.full(len(first), -np.inf)
    for part in parts:
        some = part.start <= part.end
        start[some] = np.minimum(start[some], part.start[some])
        end[some] = np.maximum(end[some], part.end[some])
    start, end = np.maximum(start, 0.0), np.minimum(end, here.lengths)
    found = start <= end
    return first[found], _Intervals(start[found], end[found])


def _near_pairs(one: Segments, other: Segments, across: float) -> tuple[Integers, Integers]:
    """The numbers of those segments of both that go in the same direction, and may be within a distance of each other, by their boxes."""
    low, high = one.boxes()
    least, most = other.boxes()
    pairs: Booleans = one.directions @ other.directions.T > STRAIGHT
    for axis in (0, 1):
        pairs &= low[:, axis, None] - across - 1 <= most[None, :, axis]
        pairs &= high[:, axis, None] + across + 1 >= least[None, :, axis]
    first, second = np.nonzero(pairs)
    return first, second


def _beside(one: Segments, other: Segments, radius: float) -> _Intervals:
    """Where segments are beside others, one beside one: no farther from their straight line, and neither before their start nor behind
    their end."""
    between = one.starts - other.starts
    along = _dot(between, other.directions)
    aside = _cross(other.directions, between)
    lengthwise = _sorted(-along, other.lengths - along, _dot(one.directions, other.directions))
    sine = _cross(other.directions, one.directions)
    sideways = _sorted(-radius - aside, radius - aside, sine)
    return _Intervals(
        np.maximum(lengthwise.start, sideways.start), np.minimum(lengthwise.end, sideways.end)
    )


def _around(one: Segments, points: Floats, radius: float) -> _Intervals:
    """Where segments are within the circles around points, one for each."""
    between = one.starts - points
    ahead = _dot(between, one.directions)
    square = ahead**2 - _dot(between, between) + radius**2
    half = np.sqrt(np.maximum(square, 0.0))
    return _Intervals(np.where(square >= 0, -ahead - half, np.inf), -ahead + half)


def _sorted(low: Floats, high: Floats, slope: Floats) -> _Intervals:
    """Between which positions something that grows by `slope` a metre has grown by `low` to `high`."""
    steep = np.where(np.abs(slope) < STRAIGHT, STRAIGHT, slope)
    first, second = low / steep, high / steep
    return _Intervals(np.minimum(first, second), np.maximum(first, second))


def _dot(one: Floats, other: Floats) -> Floats:
    """The dot products of vectors."""
    result: Floats = (one * other).sum(axis=-1)
    return result


def _cross(one: Floats, other: Floats) -> Floats:
    """The cross products of vectors."""
    result: Floats = one[..., 0] * other[..., 1] - one[..., 1] * other[..., 0]
    return result


def hausdorff(one: Floats, other: Floats) -> float:
    """The Hausdorff distance of two polylines in metres: the greatest distance of a point of one of them from the nearest point of the
    other. At their points it is exact; where it is greatest between two of them it may be less by half a metre.
    """
    return max(
        _farthest(_points_along(one, other), _segments_or_point(other)),
        _farthest(_points_along(other, one), _segments_or_point(one)),
    )


def _segments_or_point(points: Floats) -> Segments:
    """The segments of a polyline, or, if it has no length, one that has none."""
    found = Segments.of(points)
    return found if len(found.lengths) else Segments(points[:1], np.zeros((1, 2)), np.zeros(1))


def _farthest(points: Floats, segments: Segments) -> float:
    """The greatest distance of a point from the nearest segment. For points that follow one another only segments near them are looked
    at, and none where the middle of their box is too near for a greater distance."""
    greatest = 0.0
    for first in range(0, len(points), POINTS):
        block = points[first : first + POINTS]
        low, high = block.min(axis=0), block.max(axis=0)
        reach = float(np.hypot(*(high - low))) / 2
        of_middle = distances((low + high)[None] / 2, segments)[0]
        least = float(of_middle.min())
        if least + reach > greatest:
            near = segments.taken(of_middle <= least + 2 * reach)
            greatest = max(greatest, float(distances(block, near).min(axis=1).max()))
    return greatest


def distances(points: Floats, segments: Segments) -> Floats:
    """The distance of each point, a row, from each segment."""
    between = points[:, None] - segments.starts[None]
    along = np.einsum("ijk,jk->ij", between, segments.directions)
    along = np.clip(along, 0.0, segments.lengths)
    aside = between - along[:, :, None] * segments.directions[None]
    result: Floats = np.hypot(aside[:, :, 0], aside[:, :, 1])
    return result


def _points_along(points: Floats, other: Floats) -> Floats:
    """Points along a polyline, its own among them, at most a step apart; but none of a segment that the other polyline has too."""
    rows = np.hstack([points[:-1], points[1:]])
    theirs = set(map(tuple, np.hstack([other[:-1], other[1:]]).tolist()))
    own = rows[[tuple(row) not in theirs for row in rows.tolist()]]
    starts, leads = own[:, :2], own[:, 2:] - own[:, :2]
    steps = np.maximum(np.ceil(np.hypot(leads[:, 0], leads[:, 1]) / STEP), 1).astype(np.int64)
    number = np.repeat(np.arange(len(steps)), steps + 1)
    place = np.arange(len(number)) - np.repeat(np.cumsum(steps + 1) - steps - 1, steps + 1)
    result: Floats = starts[number] + leads[number] * (place / steps[number])[:, None]
    return result
