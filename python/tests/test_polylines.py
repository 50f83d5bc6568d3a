"""Distances of polylines by hand, where only some of their segments are looked at."""

import numpy as np
import pytest

from olr.geometry.stretches import hausdorff


@pytest.mark.parametrize("spike, distance", [(0.0, 5.0), (15.0, 20.0)])
@pytest.mark.parametrize("place", [10, 250, 256, 300, 511, 590])
def test_the_farthest_point_of_many(place: int, spike: float, distance: float) -> None:
    """A straight line of 600 points, five metres beside another one; at one place it leads as far to both sides, so that the middle of
    the points around isn't farther than all others."""
    one = np.array([(float(east), 0.0) for east in range(600)])
    one[place, 1], one[place + 1, 1] = spike, -spike
    other = np.array([(0.0, 5.0), (599.0, 5.0)])
    assert hausdorff(one, other) == pytest.approx(distance, abs=0.6)
