"""Positions on a sphere of the earth's size, for finding what is near. Over some metres its distances are right to within 0.6 %."""

import numpy as np

from olr.arrays import Floats

RADIUS = 6_371_008.8
"""In metres."""


def on_sphere(lon: Floats, lat: Floats) -> Floats:
    """Positions in degrees as x, y and z in metres from the centre of the sphere, one row for each."""
    x, y = np.radians(lon), np.radians(lat)
    rows = np.stack([np.cos(y) * np.cos(x), np.cos(y) * np.sin(x), np.sin(y)], axis=-1)
    result: Floats = rows * RADIUS
    return result
