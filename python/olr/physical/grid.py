"""Coordinates in the steps of the binary form (docs/specification/reference.md): each is the nearest one within a limit.

Coordinates that are given are in units of `numbers`, limits in microdegrees.
"""

from olr.model.reference import absolute
from olr.physical.numbers import ONE

MICRODEGREE = ONE // 1_000_000
"""Units."""
_STEPS = 1 << 24
_CIRCLE = 360 * ONE
STEP = 10
"""Microdegrees between the relative coordinates of neighbours."""
_STEP = STEP * MICRODEGREE
_HALF_STEP = _STEP // 2
_HALF = _STEPS // 2
LEAST_STEPS, MOST_STEPS = -(1 << 15), (1 << 15) - 1
"""The numbers of 16 bits."""


def absolute_number(value: int, limit: int) -> int:
    """The number of 24 bits of a coordinate."""
    steps = abs(value) * _STEPS
    if 4 * steps < _CIRCLE:
        return 0
    most = steps // _CIRCLE + 1
    if value > 0:
        sign, number = 1, most if most < _HALF else _HALF - 1
    else:
        sign, number = -1, -most if most <= _HALF else -_HALF
    return number if -limit <= absolute(number) <= limit else number - sign


def relative_number(value: int, before: int, limit: int) -> int:
    """The number of steps to a coordinate from another one, which is in microdegrees. It may have more than 16 bits."""
    number = (value - before * MICRODEGREE + _HALF_STEP) // _STEP
    reached = before + STEP * number
    if -limit <= reached <= limit:
        return number
    return number - 1 if reached > 0 else number + 1
