"""The lines of a map around what a scene draws."""

import math
from collections.abc import Sequence
from typing import Any

from olr.client.map_client import Map
from olr.model.box import Box
from olr.model.fault import TOO_LARGE, Fault
from olr.model.legs_and_lines import LineOfMap, Lines
from olr.model.road_map import MICRODEGREE
from olr.pages.view import sentences
from olr.pages.view.paths import path_drawn

MOST_LINES = 4000
AROUND = 300.0
"""Metres of the map around what is drawn."""

Scene = dict[str, Any]


def box_of(scene: Scene) -> Box:
    """What lies around a scene."""
    spots = [point["spot"] for point in scene["points"]]
    spots += [one["spot"] for point in scene["candidates"] for one in point]
    spots += [spot for entry in scene["entries"] for spot in entry["route"]]
    return box_around(spots)


def box_around(spots: Sequence[Sequence[float]]) -> Box:
    """What lies around some spots, which are given by latitude and longitude in degrees."""
    lats, lons = zip(*spots)
    room = AROUND / MICRODEGREE
    wide = room / max(0.1, math.cos(math.radians(sum(lats) / len(lats))))
    west, east = min(lons) * 1e6 - wide, max(lons) * 1e6 + wide
    south, north = min(lats) * 1e6 - room, max(lats) * 1e6 + room
    return Box(round(west), round(south), round(east), round(north))


def lines_around(asked: Map, box: Box) -> Lines:
    """The lines of a map in a box, with shapes; none and more of them where there are too many for a part of a store. Raises as `Map.lines`
    else."""
    try:
        return asked.lines(box, shape=True)
    except Fault as fault:
        if fault.text != TOO_LARGE:
            raise
        return Lines((), True)


def lines_drawn(lines: Lines) -> Scene:
    """Members of a scene: `lines`, as they are drawn, the more important ones first, how many are `cut`, and whether there are `more`, which
    nobody counted."""
    near = sorted(lines, key=lambda line: line.class_)
    drawn = list(map(line_drawn, near[:MOST_LINES]))
    return {"lines": drawn, "cut": len(near) - len(drawn), "more": lines.more}


def line_drawn(line: LineOfMap) -> Scene:
    """A line as it is drawn."""
    return {
        "id": line.id,
        "class": line.class_,
        "form": sentences.FORMS[line.form],
        "length": sentences.metres(line.length),
        "path": path_drawn(line.shape),
    }
