"""Whether the lines of a map lie to one side of the points of references: then the map is shifted against the sender's.

A point and the place on its line that is nearest to it say how far the line lies aside, which is what a shift is across the direction of the
line. Points on lines of several directions say together what it is.
"""

import math
import numpy as np
from collections.abc import Sequence
from typing import NamedTuple

from olr.arrays import Floats
from olr.client.map_client import Map
from olr.geometry.plane import DEGREE, Plane, Segments
from olr.geometry.stretches import distances
from olr.model.answers import Places
from olr.model.questions import Setting
from olr.model.reference import read_points

LIKELIEST: dict[str, Setting] = {"most": 1, "order": "likely", "shape": True}
"""How places are asked for of which the likeliest one alone counts."""
LEAST_POINTS, LEAST_SHARE = 50, 1 / 3
"""Fewer points say too little, and so do references of which a smaller share has a place."""
VARIED = 0.1
"""The share of points on lines across any direction at least: 0.5 where all directions are as frequent, 0 where all lines are parallel."""
LEAST, CERTAIN = 3.0, 5.0
"""A shift of fewer metres may be due to how senders round their points, and one of fewer standard errors to chance."""
GREATEST_SPREAD = 12.0
"""Metres by which points are off besides, as a standard deviation: beyond it most places are wrong, as where a shift is greater than the
radius within which lines are looked for."""
ROUNDING = 1.0
"""Metres by which points are off at least, since a reference has them in steps."""
WIDTH, ROUNDS = 4.685, 40
"""Points that are farther off than so many standard deviations don't count, since they lie on other lines: Tukey's biweight. And how often
they are weighed anew."""
COMPASS = ("north", "north-east", "east", "south-east", "south", "south-west", "west", "north-west")


class Shift(NamedTuple):
    """By how much lines lie farther to the east and to the north than points of references, in metres."""

    east: float
    north: float

    def __str__(self) -> str:
        eighth = round(math.degrees(math.atan2(self.east, self.north)) / 45) % 8
        return f"{math.hypot(*self):.0f} m to the {COMPASS[eighth]}"

    def sentence(self) -> str:
        """What is said of it."""
        return f"your map seems shifted by {self} of the sender's"

    def applied(self, points: Floats) -> Floats:
        """Points that lie so much farther there: longitude and latitude in degrees."""
        scale = np.cos(np.radians(points[:, 1]))
        result: Floats = points + np.stack([self.east / scale, self.north + 0 * scale], 1) / DEGREE
        return result


def shift_found(asked: Map, texts: Sequence[str]) -> Shift | None:
    """The shift of a map against that of references, by their likeliest places. None if it isn't certain that there is one. Raises
    `ToolError`."""
    both = zip(asked.answers("places", texts, **LIKELIEST), texts)
    answers = [
        _asides(one, text) if one.places else None for one, text in both if isinstance(one, Places)
    ]
    found = list(filter(None, answers))
    if not found or len(found) < LEAST_SHARE * len(answers):
        return None
    return fitted(*(np.concatenate(some) for some in zip(*found)))


def _asides(answer: Places, text: str) -> tuple[Floats, Floats]:
    """Of each point of a reference a direction across its line, and how far the line lies that way, in metres."""
    points, matching = read_points(text), answer.places[0].matching
    assert points is not None and matching.shape is not None
    there = np.array([point[:2] for point in points]) / 1e6
    plane = Plane(*there[0].tolist())
    route = Segments.of(plane.metres(np.array(matching.shape.route) / 1e6))
    if not len(route.lengths):
        return np.zeros((0, 2)), np.zeros(0)
    feet = plane.metres(np.array([one.spot for one in matching.points]) / 1e6)
    along = route.directions[distances(feet, route).argmin(axis=1)]
    across = np.stack([along[:, 1], -along[:, 0]], axis=1)
    return across, ((feet - plane.metres(there)) * across).sum(axis=1)


def fitted(across: Floats, asides: Floats) -> Shift | None:
    """The shift that lines show which lie so far aside of points, in metres, each in a direction across it, of the length 1. None if they are
    too few, hardly vary in their directions, fit no shift, or don't show for certain that there is one.
    """
    count = len(asides)
    if count < LEAST_POINTS or np.linalg.eigvalsh(across.T @ across)[0] < VARIED * count:
        return None
    weights: Floats = np.ones(count)
    for _ in range(ROUNDS):
        weighted = across * weights[:, None]
        shift = np.linalg.solve(weighted.T @ across, weighted.T @ asides)
        off = asides - across @ shift
        spread = max(1.4826 * float(np.median(np.abs(off))), ROUNDING)
        squares: Floats = np.minimum((off / (WIDTH * spread)) ** 2, 1.0)
        weights = (1 - squares) ** 2
    # The standard error of such an estimate, along the shift.
    slopes = across * ((1 - squares) * (1 - 5 * squares))[:, None]
    scores = across * (weights * off)[:, None]
    size = float(np.hypot(*shift))
    back = scores @ np.linalg.solve(slopes.T @ across, shift)
    error = math.sqrt(float(back @ back)) / max(size, 1e-9)
    is_certain = size >= max(LEAST, CERTAIN * error) and spread <= GREATEST_SPREAD
    return Shift(*shift.tolist()) if is_certain else None
