"""By how much a sender's references are off, and references changed so."""

import math
import random
from collections.abc import Sequence
from dataclasses import replace
from typing import NamedTuple

from olr.model.answers import ReferencePoint
from olr.model.road_map import MICRODEGREE

SECTORS = 32
LEAST_IMPORTANT = 7
FORMS = 8
MOST_INTERVAL = 255


class Spreads(NamedTuple):
    """How the references of a sender differ from exact ones to the same paths. Each difference is drawn by itself, evenly."""

    position: float = 15.0
    """Metres: points lie up to so much farther to the east or west, and to the north or south."""
    bearing: float = 1.0
    """Sectors of 11.25 degrees, up to which a bearing is off."""
    legs: float = 10.0
    """Percent, up to which the length of a leg is off."""
    class_: float = 20.0
    """Percent of points whose class is off by one. Where it is the lowest class of its leg, that is off too."""
    form: float = 10.0
    """Percent of points that have another form."""

    def times(self, factor: float) -> "Spreads":
        """Those of references that are so many times as far off."""
        return Spreads(*(value * factor for value in self))


class Habits(NamedTuple):
    """By what all references of a sender are off, to the same side."""

    north: float = 0.0
    """Metres: all points lie so much farther to the north, as if one map were shifted."""
    east: float = 0.0
    """And so much farther to the east."""
    turned: float = 0.0
    """Sectors, by which bearings are greater, in the mean."""
    longer: float = 0.0
    """Intervals of 58.6 m, by which legs are longer, in the mean: so they are where lengths are rounded up."""


def changed_points(
    points: Sequence[ReferencePoint],
    spreads: Spreads,
    draws: random.Random,
    habits: Habits = Habits(),
) -> list[ReferencePoint]:
    """The points of a reference, as a sender with another map has them."""
    return [_changed_point(point, spreads, draws, habits) for point in points]


def _changed_point(
    point: ReferencePoint, spreads: Spreads, draws: random.Random, habits: Habits
) -> ReferencePoint:
    """A point, as a sender with another map has it."""
    north, east = (draws.uniform(-spreads.position, spreads.position) for _ in range(2))
    north, east = north + habits.north, east + habits.east
    shrink = math.cos(math.radians(point.lat / 1e6))
    factor = 1 + draws.uniform(-spreads.legs, spreads.legs) / 100
    turned = round(draws.uniform(-spreads.bearing, spreads.bearing)) + _whole(habits.turned, draws)
    longer = _whole(habits.longer, draws)
    interval = None if point.interval is None else round(point.interval * factor) + longer
    road_class = off_by_one(point.class_, spreads.class_, draws)
    return replace(
        point,
        lon=point.lon + round(east / MICRODEGREE / shrink),
        lat=point.lat + round(north / MICRODEGREE),
        class_=road_class,
        form=other_form(point.form, spreads.form, draws),
        sector=(point.sector + turned) % SECTORS,
        interval=None if interval is None else min(max(interval, 0), MOST_INTERVAL),
        lowest=_lowest(point, road_class),
    )


def _whole(mean: float, draws: random.Random) -> int:
    """A whole number beside one that isn't, which is their mean."""
    return math.floor(mean + draws.random()) if mean else 0


def _lowest(point: ReferencePoint, road_class: int) -> int | None:
    """The lowest class of a leg whose first road has another class there: its own, if it is the least important one of the leg."""
    if point.lowest is None or road_class == point.class_:
        return point.lowest
    return road_class if point.lowest == point.class_ else max(point.lowest, road_class)


def is_drawn(percent: float, draws: random.Random) -> bool:
    """Whether something is drawn that so many percent are."""
    return draws.random() * 100 < percent


def off_by_one(road_class: int, percent: float, draws: random.Random) -> int:
    """A class, or in so many percent of draws one beside it."""
    if not is_drawn(percent, draws):
        return road_class
    beside = (road_class - 1, road_class + 1)
    return draws.choice([one for one in beside if 0 <= one <= LEAST_IMPORTANT])


def other_form(form: int, percent: float, draws: random.Random) -> int:
    """A form, or in so many percent of draws any other one."""
    if not is_drawn(percent, draws):
        return form
    return draws.choice([other for other in range(FORMS) if other != form])
