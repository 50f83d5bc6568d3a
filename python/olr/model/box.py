"""A part of the earth: what an import takes of a file, and what a page carries of a map."""

from typing import NamedTuple

from olr.model.road_map import Position


class Box(NamedTuple):
    """A part of the earth, edges included, in microdegrees. It doesn't cross longitude 180."""

    west: int
    south: int
    east: int
    north: int

    def holds(self, position: Position) -> bool:
        """Whether a position is in the box."""
        lon, lat = position
        return self.west <= lon <= self.east and self.south <= lat <= self.north

    def text(self) -> str:
        """Its edges in degrees, as `--bbox` takes them."""
        return ",".join(f"{edge / 1e6:.6f}".rstrip("0").rstrip(".") for edge in self)
