"""What the program says for and against the places of many answers, as arrays: that by which weights are fitted, and what a feed shows.

All are whole numbers, in the units of the program.
"""

import numpy as np
from collections.abc import Sequence
from typing import NamedTuple

from olr.arrays import Booleans, Integers, sums_of
from olr.geometry.parts import members_of, parts_of
from olr.model.answers import Places

OF_POINT = ("end", "distance", "sectors", "classes", "parts.form")
"""What is taken of each point. One costs something for its form exactly where its line has another one."""
OF_LEG = ("least", "greatest", "length")
"""What is taken of each leg."""


class Terms(NamedTuple):
    """The places of answers in the likely order, one answer behind the other. Not every answer has one."""

    sizes: Integers
    """How many places each answer has."""
    costs: Integers
    """The likely cost of each place, in thirtieths of a penalty point."""
    turns_back: Booleans
    """Of each place: whether its route goes from a line to one that leads back along it."""
    lines: Integers
    """Of each place: how many lines its route has."""
    counts: Integers
    """Of each place: how many points it has. Those of all places stand one behind the other, and so do their legs."""
    end: Integers
    """Of each point: how far it lies from the proper end of its line, in decimetres."""
    distance: Integers
    """Of each point: how far it lies from its line, in centimetres."""
    sectors: Integers
    """Of each point: by how many sectors of 11.25 degrees its direction and that of its line differ."""
    classes: Integers
    """Of each point: by how many classes it differs from its line."""
    other_form: Booleans
    """Of each point: whether its line has another form."""
    least: Integers
    """Of each leg: the least length that the reference tells, in decimetres."""
    greatest: Integers
    """The greatest one, likewise."""
    length: Integers
    """Of each leg: the length of its path, in decimetres."""

    def first(self) -> Integers:
        """The number of the likeliest place of each answer that has one."""
        sizes = self.sizes[self.sizes > 0]
        result: Integers = np.cumsum(sizes) - sizes
        return result

    def owners(self) -> Integers:
        """The number of the answer of each place."""
        return np.repeat(np.arange(len(self.sizes)), self.sizes)

    def longer(self) -> Integers:
        """Of each leg: by how many thousandths of the greatest length that the reference tells it is longer than that, or, below 0, shorter
        than the least one; 0 between them."""
        above = np.maximum(self.length - self.greatest, 0)
        below = np.maximum(self.least - self.length, 0)
        told = self.greatest + 1
        result: Integers = 1000 * above // told - 1000 * below // told
        return result

    def lengths(self) -> Integers:
        """Of each place: the length of its route, in decimetres."""
        return sums_of(self.length, self.counts - 1)

    def worst_point(self, values: Integers) -> Integers:
        """Of each place: the greatest of numbers of its points."""
        return _greatest_of(values, self.counts)

    def worst_leg(self, values: Integers) -> Integers:
        """Of each place: the greatest of numbers of its legs."""
        return _greatest_of(values, self.counts - 1)


def terms_of(answers: Sequence[Places | None]) -> Terms:
    """Those of answers in the likely order and in detail; None has no places."""
    found = [one.matching for answer in answers if answer for one in answer.places]
    points, counts = members_of([one.points for one in found], OF_POINT)
    (least, greatest, length), _ = members_of([one.legs for one in found], OF_LEG)
    return Terms(
        sizes=np.array([len(one.places) if one else 0 for one in answers], dtype=np.int64),
        costs=np.array([one.cost for one in found], dtype=np.int64),
        turns_back=np.array([one.turns_back for one in found], dtype=np.bool_),
        lines=parts_of([one.route for one in found]).counts,
        counts=counts,
        end=points[0],
        distance=points[1],
        sectors=points[2],
        classes=points[3],
        other_form=points[4] > 0,
        least=least,
        greatest=greatest,
        length=length,
    )


def _greatest_of(values: Integers, counts: Integers) -> Integers:
    """The greatest of as many values as each count says, one behind the other: at least one."""
    if not len(counts):
        return np.zeros(0, dtype=np.int64)
    result: Integers = np.maximum.reduceat(values, np.cumsum(counts) - counts)
    return result
