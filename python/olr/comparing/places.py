"""The place of a reference as geometry, and how those of two maps differ.

Two maps may have other ids for one road, so their places are compared by geometry, always, in a plane around both. It is the rule by
which `places` puts matchings together (docs/specification/places.md), with distances in place of ids.

- **A line.** What its outer part covers. A run of one place that the other lacks is one that lies nowhere within `across` metres of a part
  of the other that goes in the same direction. The places are the same if no such run of either is longer than `apart`. As in
  `places`, it doesn't matter how often, or in which order, a place covers a stretch.
- **A place that covers nothing**: an outer part that is none, or one without a length. It has no run, and the other one lacks what it has.
- **A point along a line.** The point halfway between its two positions, with the direction of travel of the route there. The places are the
  same if the points are at most `apart` from each other, and each lies within `across` of the other's route where that goes in the same
  direction as its own.

How far a place has moved is the Hausdorff distance of the two geometries, of points their distance. How far two places agree is what they
cover of each other (`agreement`): the outer parts of lines, and of points along lines the routes, since a point is where its route has it.

The place of a reference on a map is the likeliest one.
"""

import numpy as np
from collections.abc import Iterator, Sequence
from typing import NamedTuple

from olr.arrays import Floats
from olr.geometry.agreement import DIGITS, agreement, agreement_of_segments
from olr.geometry.network import Network, middle
from olr.geometry.parts import parts_of
from olr.geometry.plane import Plane, Segments
from olr.geometry.stretches import hausdorff, longest_lacking, within
from olr.matching.rows import AnswerRows, rows_of
from olr.model.answers import Matching, Places
from olr.model.fault import Fault


class Limits(NamedTuple):
    """Up to where two places are the same, in metres."""

    across: float
    """A distance across the road."""
    apart: float
    """A length along it."""


class Stretch(NamedTuple):
    """The outer part of a line, in degrees. Where it is none it has no points."""

    points: Floats


class Spot(NamedTuple):
    """A point along a line, in degrees."""

    point: Floats
    behind: Floats
    """The decimetre of the line that ends there, or at its start the first one: it has the direction of travel."""
    route: Floats


Shape = Stretch | Spot
Answer = Places | Fault


class Difference(NamedTuple):
    """How the places of one reference on two maps differ."""

    is_same: bool
    moved: float | None = None
    """How far they are apart, in metres. None where one of them has no geometry."""
    old_alone: float | None = None
    """The longest run that the old one has and the new one lacks, in metres. None for a point along a line."""
    new_alone: float | None = None
    """The other way round."""
    agreement: float | None = None
    """What they cover of each other, 0 to 1, as it is shown: rounded. None where neither has a length."""


def likeliest_places(
    answers: Sequence[Answer], network: Network
) -> tuple[AnswerRows, list[Shape | None]]:
    """A row for each answer, of its likeliest place if it has one, and the shapes of these. Raises as `rows_of`."""
    rows = AnswerRows(rows_of(answers, [None] * len(answers)), network)
    along = _along([one for one in rows.matchings if one is not None], network)
    shapes: list[Shape | None] = []
    for row, points in zip(rows.rows, rows.shapes.each()):
        if row.matching is None:
            shapes.append(None)
        else:
            shapes.append(Spot(points[0], *next(along)) if row.is_point() else Stretch(points))
    return rows, shapes


def _along(matchings: Sequence[Matching], network: Network) -> Iterator[tuple[Floats, Floats]]:
    """The decimetre behind each point along a line, and its route."""
    halfway = [
        (one.route, middle(one.route, one.earliest, one.latest))
        for one in matchings
        if one.earliest is not None and one.latest is not None
    ]
    if halfway:
        routes = parts_of([route for route, _ in halfway])
        behind = [(one.line, max(one.at - 1, 0), max(one.at, 1)) for _, one in halfway]
        pieces = np.concatenate([behind, routes.pieces])
        counts = np.concatenate([np.ones(len(behind), dtype=np.int64), routes.counts])
        lines = network.polylines(pieces, counts).each()
        yield from zip(lines, lines[len(behind) :])


def difference(old: Shape, new: Shape, limits: Limits) -> Difference:
    """How the places of a reference differ. Both are of one kind, which is that of the reference."""
    if isinstance(old, Spot) and isinstance(new, Spot):
        return _of_spots(old, new, limits)
    assert isinstance(old, Stretch) and isinstance(new, Stretch)
    return _of_stretches(old, new, limits)


def _of_stretches(old: Stretch, new: Stretch, limits: Limits) -> Difference:
    """How the outer parts of lines differ."""
    if np.array_equal(old.points, new.points):
        has_length = bool((old.points != old.points[:1]).any())
        agreed = 1.0 if has_length else None
        return Difference(True, 0.0 if len(old.points) else None, 0.0, 0.0, agreed)
    plane = Plane.around(np.concatenate([old.points, new.points]))
    before, after = plane.metres(old.points), plane.metres(new.points)
    one, other = Segments.of(before), Segments.of(after)
    alone = (
        longest_lacking(one, other, limits.across),
        longest_lacking(other, one, limits.across),
    )
    moved = hausdorff(before, after) if len(before) and len(after) else None
    # Two without a length have no stretch to lack.
    is_far = moved is not None and not any(alone) and moved > limits.apart
    agreed = None
    if len(one.lengths) or len(other.lengths):
        agreed = round(agreement_of_segments(one, other, limits.across), DIGITS)
    return Difference(max(alone) <= limits.apart and not is_far, moved, *alone, agreed)


def _of_spots(old: Spot, new: Spot, limits: Limits) -> Difference:
    """How points along lines differ."""
    agreed = round(agreement(old.route, new.route, limits.across), DIGITS)
    if all(map(np.array_equal, old, new)):
        return Difference(True, 0.0, agreement=agreed)
    plane = Plane.around(np.concatenate([old.route, new.route]))
    before, after = (Spot(*map(plane.metres, one)) for one in (old, new))
    moved = float(np.hypot(*(after.point - before.point)))
    is_near = moved <= limits.apart
    is_same = is_near and _is_on(before, after, limits) and _is_on(after, before, limits)
    return Difference(is_same, moved, agreement=agreed)


def _is_on(spot: Spot, other: Spot, limits: Limits) -> bool:
    """Whether a point lies on the route of the other one where that goes in the same direction."""
    direction = Segments.of(spot.behind).directions[-1:]
    here = Segments(spot.point[None, :], direction, np.zeros(len(direction)))
    if not len(direction):
        return False
    numbers, _ = within(here, Segments.of(other.route), limits.across)
    return len(numbers) > 0
