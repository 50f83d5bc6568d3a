"""The scripts of the page that answers by itself, in a browser: what their functions say is compared with Python's."""

import json
import random
from pathlib import Path
from typing import Any

import olr
from asking import draw_map
from browser import Browser
from olr.model.map_folder import read_map, write_map
from olr.model.road_map import Ban, Line, Position, RoadMap
from olr.pages.alone.page import SHARED

FOLDER = Path(olr.__file__).with_name("pages") / "alone"
"""Where they are."""
TRIED = "(made => { try { return made(); } catch (error) { return `${error.constructor.name}: ${error.message}`; } })"
"""Calls a function, and gives what it throws as a text."""


class Scripts:
    """All scripts, in an empty page."""

    def __init__(self, browser: Browser) -> None:
        self._browser = browser
        scripts = "\n".join((FOLDER / name).read_text() for name in SHARED)
        browser.value(f"{scripts}\nnull")

    def value(self, expression: str, **given: Any) -> Any:
        """The value of an expression in which some names have values."""
        return self._browser.value(_with_names(expression, given))

    def tried(self, expression: str, **given: Any) -> Any:
        """The same; or what it throws, as a text."""
        return self._browser.value(f"{TRIED}(() => {_with_names(expression, given)})")


def _with_names(expression: str, given: dict[str, Any]) -> str:
    """An expression in a function with arguments of these names."""
    return f"(({', '.join(given)}) => {expression})({', '.join(map(json.dumps, given.values()))})"


def draw_two_ways(place: Path) -> Path:
    """A drawn map with bans, and pairs of lines that go opposite ways, of which some turn more sharply than others. The ids of some are the
    greatest ones."""
    drawn = read_map(draw_map(place / "drawn", 400, 800))
    draws = random.Random(7)
    lines = list(drawn.lines)
    for number, line in enumerate(drawn.lines[:150]):
        shift = draws.choice([0, 0, 1, 20, 400])
        shape = tuple(Position(lon + shift, lat - shift) for lon, lat in line.shape[::-1])
        kinds = (line.road_class, line.form, line.length)
        lines.append(Line(2**53 - number, line.end, line.start, *kinds, shape))
    bans = [Ban(one.id, to.id) for one in lines[:60] for to in lines if one.end == to.start]
    write_map(RoadMap(drawn.nodes, lines, bans), place / "map", {})
    return place / "map"
