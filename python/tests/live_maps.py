"""A drawn map of which pages that were made for references carry a part."""

from collections.abc import Sequence
from pathlib import Path
from typing import NamedTuple

from asking import draw_map, draw_references


class Made(NamedTuple):
    """A map of which pages carry a part, and references on it."""

    folder: Path
    references: Sequence[str]
    place: Path


def draw_made(place: Path) -> Made:
    """A drawn map, and two references that need less than half of it."""
    folder = draw_map(place / "town")
    drawn = draw_references(folder, 30)
    return Made(folder, [drawn[3], drawn[11]], place)
