"""The page of the references that change: how many do so in which way, a table of them, and both places of each on a map."""

import numpy as np
from collections.abc import Iterable, Mapping, Sequence
from pathlib import Path
from typing import Any, NamedTuple

from olr.arrays import Floats
from olr.client.map_client import Map
from olr.comparing.changes import Compared, Side
from olr.comparing.columns import reason_of, remedy_of, rounded
from olr.comparing.places import Shape, Spot
from olr.comparing.summary import Summary
from olr.geometry.agreement import AGREE
from olr.matching.columns import share
from olr.matching.tables import NO_COLUMNS, Columns
from olr.messages.message import Message
from olr.model.asked_with import command_text, is_for_program
from olr.model.box import Box
from olr.model.fault import Fault
from olr.pages.html import Template, html_of
from olr.pages.kept import cells_of
from olr.pages.report.sample import equal_shares
from olr.pages.view.surroundings import box_around, line_drawn, lines_around

TEMPLATE = Template("olr.pages.compare", ("bars", "map", "table"))
MOST_LINES = 10_000
"""Of the new map, behind the places."""
DIGITS = 7
"""Of a degree: a centimetre."""
MOVED = "Those that moved did so by {:,.1f} m in the median, and by {:,.1f} m at most."
AGREEING = "The maps agree on {}: each of their two places covers {:.0%} of the other one at least."
LEFT_OUT = "{:,} of {:,} references that change are left out here: of each change those at the end of the file."
Row = dict[str, Any]


class Shown(NamedTuple):
    """A reference that changes, as the page shows it."""

    row: Row
    reference: str
    shapes: Mapping[str, Floats]
    """Its points on each of the maps that has a place, by longitude and latitude in degrees."""


class Changed:
    """The references that change, or the first ones of each change."""

    def __init__(self, most: int, kept: Columns[Sequence[Message]] = NO_COLUMNS) -> None:
        """A page shows so many of them, each with what is kept of its record. No more of each change are held."""
        self._most, self.kept = most, kept
        self._kept: dict[str, list[Shown]] = {}
        self.count = 0
        """How many there were."""

    def add(self, references: Iterable[Compared]) -> None:
        """Adds those of some references that change."""
        for one in references:
            if one.is_changed():
                self.count += 1
                kept = self._kept.setdefault(one.words(), [])
                if len(kept) < self._most:
                    row = _row(one) | {"kept": cells_of(one.message, self.kept)}
                    kept.append(Shown(row, one.message.reference, _shapes(one)))

    def chosen(self) -> list[Shown]:
        """Those that are shown, as in the file. Each change has an equal share; one of which there are fewer leaves room to the others."""
        shares = equal_shares({name: len(kept) for name, kept in self._kept.items()}, self._most)
        found = [one for name, kept in self._kept.items() for one in kept[: shares[name]]]
        return sorted(found, key=lambda one: int(one.row["record"]))


class About(NamedTuple):
    """What was compared: the file of messages, both maps, and with which numbers."""

    messages: str
    old: Path
    new: Path
    numbers: str
    """As a text."""
    all_numbers: Mapping[str, int]
    """All tolerances and the numbers of `places`, by the names of the program's options."""
    probabilities: str
    """By what there are any, or why there are none."""

    def commands(self, reference: str) -> list[str]:
        """The commands of the program `olr` that give the places of a reference on both maps, but for stores, which it doesn't read."""
        folders = filter(is_for_program, (self.old, self.new))
        return [
            command_text("places", reference, str(folder), self.all_numbers) for folder in folders
        ]


def page_of(about: About, summary: Summary, changed: Changed, new: Map) -> str:
    """A page of HTML, which loads nothing. The lines behind the places are those of the new map. Raises `ToolError` if Leaflet
    isn't installed, or the map can't be asked."""
    chosen = changed.chosen()
    drawn = [_drawn(number, one) for number, one in enumerate(chosen)]
    left = changed.count - len(chosen)
    moved, agreeing = summary.moved(), summary.agreeing()
    data: dict[str, Any] = {
        "facts": {
            "messages": f"{about.messages}, {summary.references:,} references",
            "old map": str(about.old),
            "new map": str(about.new),
            "asked with": about.numbers,
            "probabilities": about.probabilities,
        },
        "changes": [[name, "", count] for name, count in summary.changes()],
        "certainties": [[name, "", count] for name, count in summary.certainties()],
        "agreeing": agreeing and AGREEING.format(agreeing.text(), AGREE),
        "moved": moved and MOVED.format(*moved),
        "left_out": LEFT_OUT.format(left, changed.count) if left else "",
        "kept": list(changed.kept),
        "rows": [one.row | {"commands": about.commands(one.reference)} for one in chosen],
        "shapes": [shape for some in drawn for shape in some],
        "roads": _roads(new, [_box(one) for one in chosen if one.shapes]),
    }
    return html_of(TEMPLATE, f"Changes of {about.messages} with {about.new}", data)


def _row(reference: Compared) -> Row:
    """A row of the table. Lengths are in metres."""
    differs = reference.difference
    sides = (reference.old, reference.new)
    return {
        "record": reference.message.record,
        "key": reference.message.key,
        "change": reference.words(),
        "certainty": reference.certainty,
        "agreement": reference.agreement,
        "old": _verdict(reference.old),
        "new": _verdict(reference.new),
        "old_probability": _probability(reference.old),
        "new_probability": _probability(reference.new),
        "moved": differs and rounded(differs.moved),
        "old_alone": differs and rounded(differs.old_alone),
        "new_alone": differs and rounded(differs.new_alone),
        "reason": "; ".join(filter(None, map(_reason, sides))) or None,
        "remedy": "; ".join(filter(None, (remedy_of(side.why) for side in sides))) or None,
    }


def _verdict(side: Side) -> str:
    """What a map says of a reference, in a word."""
    return "refused" if isinstance(side.answer, Fault) else side.answer.verdict


def _probability(side: Side) -> float | None:
    """How probable the likeliest place on a map is."""
    place = side.place()
    return None if place is None else share(place.probability)


def _reason(side: Side) -> str | None:
    """Why a map has no place for a reference."""
    return side.fault() or reason_of(side.why)


def _shapes(reference: Compared) -> dict[str, Floats]:
    """The points of both places. They are copies: as they are, those of a chunk are one array."""
    sides = (("old", reference.old.shape), ("new", reference.new.shape))
    points = ((name, _points(shape)) for name, shape in sides if shape is not None)
    return {name: np.round(some, DIGITS) for name, some in points if len(some)}


def _points(shape: Shape) -> Floats:
    """The points of a place: none, one or more."""
    return shape.point[None, :] if isinstance(shape, Spot) else shape.points


def _drawn(row: int, shown: Shown) -> list[Row]:
    """What the map shows of a row, the new place in front: lines, or spots where they have no length."""
    paths = ((kind, points[:, ::-1].tolist()) for kind, points in shown.shapes.items())
    return [
        {"row": row, "kind": kind}
        | ({"spot": path[0]} if all(one == path[0] for one in path) else {"path": path})
        for kind, path in paths
    ]


def _box(shown: Shown) -> Box:
    """What lies around both places."""
    return box_around(np.concatenate(list(shown.shapes.values()))[:, ::-1].tolist())


def _roads(new: Map, boxes: Sequence[Box]) -> list[Row]:
    """The lines of a map in boxes, the more important ones if there are many: few more are held."""
    found: dict[int, Row] = {}
    for box in boxes:
        found |= {line.id: line_drawn(line) for line in lines_around(new, box)}
        if len(found) > 2 * MOST_LINES:
            found = _most_important(found)
    return [
        {"class": line["class"], "path": line["path"]} for line in _most_important(found).values()
    ]


def _most_important(lines: Mapping[int, Row]) -> dict[int, Row]:
    """As many lines as are shown, by their ids."""
    ordered = sorted(lines.values(), key=lambda line: (int(line["class"]), int(line["id"])))
    return {line["id"]: line for line in ordered[:MOST_LINES]}
