"""The types of arrays, and numbers in rows of several lengths."""

import numpy as np
from numpy.typing import NDArray

Floats = NDArray[np.float64]
Integers = NDArray[np.int64]
Floats32 = NDArray[np.float32]
Integers32 = NDArray[np.int32]
Booleans = NDArray[np.bool_]


def numbers_within(counts: Integers) -> Integers:
    """The numbers 0, 1 and so on, as many as each count says, one range behind the other."""
    behind = np.cumsum(counts)
    result: Integers = np.arange(int(counts.sum())) - np.repeat(behind - counts, counts)
    return result


def ranges(first: Integers, counts: Integers) -> Integers:
    """The numbers from each first one on, as many as each count says, one range behind the other."""
    return np.repeat(first, counts) + numbers_within(counts)


def with_ends(inner: Integers, counts: Integers, ends: Integers) -> Integers:
    """The rows of polylines with their ends, one polyline behind the other. `inner` has those between the ends, as many of each as its count
    says, and `ends` the first and the last one of each in turn."""
    behind = np.cumsum(counts)
    places = np.stack([behind - counts, behind], axis=1).ravel()
    result: Integers = np.insert(inner, places, ends, axis=0)
    return result


def sums_of(numbers: Integers, counts: Integers) -> Integers:
    """The sums of as many numbers as each count says, one behind the other."""
    sums = np.insert(np.cumsum(numbers), 0, 0)
    behind = np.cumsum(counts)
    result: Integers = sums[behind] - sums[behind - counts]
    return result
