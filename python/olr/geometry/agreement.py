"""How far the places of one reference on two maps agree: by what they cover of each other."""

import numpy as np

from olr.arrays import Floats
from olr.geometry.plane import Plane, Segments
from olr.geometry.stretches import share_within

AGREE = 0.9
"""The agreement from which on two places are said to agree. Trials call a place right from the same share on. The tenth is for the ends,
where points lie some metres off."""
ACROSS = 10
"""Metres across the road up to which roads of two maps are taken for one road, unless it is said otherwise."""
DIGITS = 3
"""Of an agreement behind the point."""


def agreement(one: Floats, other: Floats, across: float) -> float:
    """The share of each other that two polylines cover, the lesser one of the two shares: 0 to 1, and 0 where one of them has no length.
    Their points are in degrees, longitude first. What one of them covers of the other lies within `across` metres of it, where it goes
    in the same direction."""
    if not len(one) or not len(other):
        return 0.0
    plane = Plane.around(np.concatenate([one, other]))
    return agreement_of_segments(
        Segments.of(plane.metres(one)), Segments.of(plane.metres(other)), across
    )


def agreement_of_segments(one: Segments, other: Segments, across: float) -> float:
    """The agreement of polylines in one plane."""
    share = share_within(one, other, across)
    return min(share, share_within(other, one, across)) if share else 0.0
