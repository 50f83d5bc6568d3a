"""How an answer is shown: as plain dicts, in one line, and in a notebook, as a picture and a table.

A route is drawn where the answer was asked for with its shape, and the points of a reference where the answer knows its reference.
"""

import json
import math
from abc import abstractmethod
from collections.abc import Mapping, Sequence
from dataclasses import field, fields, is_dataclass
from html import escape
from itertools import groupby
from typing import Any

from olr.model.late import Late
from olr.model.pieces import Spots

MOST_ROWS = 10
"""So many rows a table has, and so many routes a picture."""
WIDTH, HEIGHT, ROOM = 300, 200, 12
"""The most that is drawn in, and the room around it, in pixels."""
LEAST_DEGREES = 1e-6
FIRST, OTHER, SAID = "#0072b2", "#a3a3a3", "#1a1a1a"
"""The colours of the first route, of the others, and of a reference."""

Point = Sequence[float]
"""A longitude and a latitude, in degrees."""


class Displayed:
    """An answer, which says in one line what it is."""

    def to_dict(self) -> dict[str, Any]:
        """Plain dicts, lists, texts and numbers, as in the program's JSON: with its names, such as `class` and `from`, in its order and
        units, and None for null.

        >>> import olr
        >>> olr.decode("CwVF+yN2yhpnBAFdAAsaFg==").to_dict()["points"][0]["class"]
        3
        """
        found: dict[str, Any] = plain(self)
        return found

    def __repr__(self) -> str:
        return f"<{type(self).__name__}: {self._summary()}>"

    def _repr_html_(self) -> str:
        """What a notebook shows."""
        routes, spots = self._routes()[:MOST_ROWS], self._spots()
        drawn = [
            [(spot.lon / 1e6, spot.lat / 1e6) for spot in route]
            for route in routes
            if route is not None
        ]
        rows = self._rows()
        notes = [
            "Blue: the first row. Grey: the others." if drawn else "",
            "Black: the points of the reference, joined by straight lines." if spots else "",
            "" if drawn or not routes else "No route is drawn: ask with shape=True.",
            f"{len(rows) - MOST_ROWS:,} more aren't shown." if len(rows) > MOST_ROWS else "",
        ]
        note = " ".join(filter(None, notes))
        parts = (repr(self).strip("<>"), _svg(drawn, spots), note, _table(rows[:MOST_ROWS]))
        title, picture, below, table = parts
        return f"<div><b>{escape(title)}</b><br/>{picture}<div>{escape(below)}</div>{table}</div>"

    def _absent(self) -> Sequence[str]:
        """The fields that the program's JSON doesn't have."""
        return ()

    @abstractmethod
    def _summary(self) -> str:
        """What it is, in a few words."""

    @abstractmethod
    def _rows(self) -> Sequence[Mapping[str, object]]:
        """The rows of its table, each with all columns."""

    def _routes(self) -> Sequence[Spots | None]:
        """What is drawn of it on a map: the first one is the best one. None where nobody asked for it."""
        return ()

    def _spots(self) -> Sequence[Point]:
        """The points of its reference, if they are known."""
        return ()


def asked_for() -> Any:
    """A field that is None, and no member of the program's JSON, where it wasn't asked for."""
    return field(default=None, repr=False, metadata={"asked_for": True})


def plain(value: Any) -> Any:
    """A value of an answer as dicts and lists, with the names of the program's JSON."""
    if is_dataclass(value):
        hidden = set(value._absent()) if hasattr(value, "_absent") else set()
        hidden |= {
            it.name for it in fields(value) if it.metadata and getattr(value, it.name) is None
        }
        names = sorted(one.name for one in fields(value) if one.name not in hidden)
        return {name.removesuffix("_"): plain(getattr(value, name)) for name in names}
    if isinstance(value, (tuple, Late)):
        return [plain(item) for item in value]
    return value


def text_of(items: Sequence[Any]) -> bytes:
    """Items of an answer, such as the legs of a matching, as the text of the program's JSON."""
    text = items.unread() if isinstance(items, Late) else None
    return json.dumps(plain(items)).encode() if text is None else text


def counted(number: int, word: str) -> str:
    """So many of something: `1 place`, `2 places`."""
    return f"{number:,} {word}" if number == 1 else f"{number:,} {word}s"


def _svg(routes: Sequence[Sequence[Point]], spots: Sequence[Point]) -> str:
    """A picture of routes, the first one on top, and of the numbered points of a reference; an empty text for nothing."""
    points = [*spots, *(point for route in routes for point in route)]
    if not points:
        return ""
    (west, east), (south, north) = ((min(them), max(them)) for them in zip(*points))
    shrunk = math.cos(math.radians((south + north) / 2))
    wide, high = (max(it, LEAST_DEGREES) for it in ((east - west) * shrunk, north - south))
    scale = min(WIDTH / wide, HEIGHT / high)

    def at(point: Point) -> tuple[float, float]:
        x, y = (point[0] - west) * shrunk * scale, (north - point[1]) * scale
        return round(x + ROOM, 1), round(y + ROOM, 1)

    def line(path: Sequence[Point], style: str) -> str:
        # What lies within a tenth of a pixel is one point.
        corners = " ".join(f"{x},{y}" for (x, y), _ in groupby(map(at, path)))
        return f'<polyline points="{corners}" fill="none" {style}/>'

    colours = [FIRST] + [OTHER] * len(routes)
    parts = [
        line(path, f'stroke="{colour}" stroke-width="4" stroke-opacity="0.8"')
        for path, colour in reversed([*zip(routes, colours)])
    ]
    if spots:
        parts.append(line(spots, f'stroke="{SAID}" stroke-dasharray="3 4"'))
    for number, (x, y) in enumerate(map(at, spots), 1):
        parts.append(f'<circle cx="{x}" cy="{y}" r="8" fill="{SAID}"/>')
        label = f'x="{x}" y="{y}" dy="4" font-size="11" text-anchor="middle" fill="#fff"'
        parts.append(f"<text {label}>{number}</text>")
    width, height = (round(it * scale + 2 * ROOM) for it in (wide, high))
    start = f'<svg xmlns="http://www.w3.org/2000/svg" width="{width}" height="{height}" style="background:#fff">'
    return "".join([start, *parts, "</svg>"])


def _table(rows: Sequence[Mapping[str, object]]) -> str:
    """Rows as a table; an empty text for none."""
    if not rows:
        return ""
    heads = "".join(f"<th>{escape(name)}</th>" for name in rows[0])
    lines = "".join(f"<tr>{''.join(map(_cell, row.values()))}</tr>" for row in rows)
    return f"<table><tr>{heads}</tr>{lines}</table>"


def _cell(value: object) -> str:
    return f"<td>{'' if value is None else escape(str(value))}</td>"
