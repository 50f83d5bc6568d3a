"""A block with two ways round it, and a reference that leads past."""

from collections.abc import Sequence
from typing import NamedTuple

from region_maps import EAST, WEST, Drawing, Point, text_of


class Block(NamedTuple):
    """A road to the east with a block on it, and a reference along it."""

    drawing: Drawing
    text: str


def block(
    north: tuple[int, int] = (600, 600),
    south: tuple[int, int] = (600, 600),
    south_class: int = 3,
    behind: int = 1113,
    lowest: int = 3,
    bans: Sequence[tuple[int, int]] = (),
    middle: bool = False,
    before: int = 3339,
) -> Block:
    """A block with two ways round it of these lengths. Line 1 leads to it, and line 6 on from it; with `middle` a point of the reference
    lies on line 1, so that the block is on the second leg."""
    drawing = Drawing()
    fork, join = (3000, 0), (4000, 0)
    drawing.line((0, 0), fork, length=before)
    for (first, second), lat, road_class in ((north, 500, 3), (south, -500, south_class)):
        drawing.line(fork, (3500, lat), length=first, road_class=road_class)
        drawing.line((3500, lat), join, length=second, road_class=road_class)
    drawing.line(join, (8000, 0), length=behind)
    drawing.bans = list(bans)
    length = before + min(sum(north), sum(south) if south_class <= lowest else 10**6) + behind
    places = [(0, 0, 1113), (1000, 0, length - 1113)] if middle else [(0, 0, length)]
    points = [Point(lon, lat, EAST, min(long // 586, 255), lowest) for lon, lat, long in places]
    return Block(drawing, text_of([*points, Point(8000, 0, WEST)]))
