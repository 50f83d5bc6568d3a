"""A space-filling curve over the earth: what is near on it is near on the ground."""

import numpy as np

from olr.arrays import Integers

BITS = 24
"""Of a coordinate: the earth is cut into 2^24 by 2^24 cells, of at most 2.4 m from west to east."""
WHOLE_TURN = 360_000_000
"""In microdegrees."""


def places_on_curve(lon: Integers, lat: Integers) -> Integers:
    """How far positions (in microdegrees) are along a Hilbert curve: numbers of 48 bits.

    The curve goes through the four quarters of a square one after the other, through each of them by a curve of the same kind that
    is turned so that it goes on in the next quarter where it left the last one.
    """
    result = np.zeros(len(lon), dtype=np.int64)
    cells = ((one + WHOLE_TURN // 2) * (1 << BITS) // (WHOLE_TURN + 1) for one in (lon, lat))
    x, y = (one.astype(np.int32) for one in cells)
    for bit in range(BITS - 1, -1, -1):
        right, upper = x >> bit & 1, y >> bit & 1
        result = result << 2 | (3 * right ^ upper)
        inner = (1 << bit) - 1
        x, y = x & inner, y & inner
        flipped = (right == 1) & (upper == 0)
        x, y = np.where(flipped, inner - x, x), np.where(flipped, inner - y, y)
        x, y = np.where(upper == 0, y, x), np.where(upper == 0, x, y)
    return result
