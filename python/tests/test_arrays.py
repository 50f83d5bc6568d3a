"""Numbers in rows of several lengths."""

import numpy as np

from olr.arrays import numbers_within, ranges, with_ends


def test_ranges() -> None:
    """Some of them are empty."""
    counts = np.array([0, 2, 0, 3, 0])
    assert numbers_within(counts).tolist() == [0, 1, 0, 1, 2]
    assert ranges(np.array([7, 5, 8, 9, 1]), counts).tolist() == [5, 6, 9, 10, 11]
    assert ranges(counts[:0], counts[:0]).tolist() == []


def test_polylines_with_their_ends() -> None:
    """Neighbours have nothing between their ends, one after the other."""
    counts, ends = np.array([0, 2, 0, 0, 1]), np.arange(10, 20)
    found = with_ends(np.array([1, 2, 3]), counts, ends)
    assert found.tolist() == [10, 11, 12, 1, 2, 13, 14, 15, 16, 17, 18, 3, 19]
    rows = with_ends(np.array([[1, 2]]), np.array([1]), np.array([[0, 0], [3, 3]]))
    assert rows.tolist() == [[0, 0], [1, 2], [3, 3]]
