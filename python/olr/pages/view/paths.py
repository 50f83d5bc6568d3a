"""The coordinates of answers as they are drawn: latitude first, in degrees."""

from collections.abc import Sequence

from olr.model.pieces import Spot

Path = list[list[float]]


def spot_drawn(spot: Spot | None) -> list[float]:
    """A spot of an answer that was asked with shapes."""
    assert spot is not None
    lon, lat = spot
    return [lat / 1e6, lon / 1e6]


def path_drawn(shape: Sequence[Spot] | None) -> Path | None:
    """The spots of a shape, if there is one."""
    return None if shape is None else list(map(spot_drawn, shape))
