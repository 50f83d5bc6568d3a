"""Messages as rows of the table of references, with what the map shows of them, and the scene of each one's page."""

import numpy as np
from collections.abc import Mapping, Sequence
from itertools import islice
from typing import Any, NamedTuple

from olr.client.map_client import Map
from olr.confidence.confidence import Confidence
from olr.matching.columns import share
from olr.model.answers import Why
from olr.model.fault import Fault
from olr.model.reference import read_reference
from olr.pages.report.sample import Drawn
from olr.pages.view.scene import Answered, answers_about, scene_of_answers
from olr.pages.view.sentences import why_texts
from olr.pages.view.surroundings import Scene, box_of, line_drawn, lines_around
from olr.progress import watched

CHUNK = 100
"""So many references are asked at once."""
MOST_LINES = 20_000
"""Of the map, in a page."""
ORDER = ("none", "refused", "unique", "open", "ambiguous", "lacking")
"""Of what the map shows: the last ones are seen best."""
GEOMETRIES = ("route", "outer", "inner")
TURNS_BACK = "turns back"
"""What the table says of a likeliest place that turns back."""

Row = dict[str, Any]
Steps = list[int]


class Rows(NamedTuple):
    """The rows of the table, and what belongs to them."""

    rows: list[Row]
    scenes: list[Scene | None]
    """Of each row; None where a text is no reference."""
    shapes: list[Row]
    """What the map shows."""
    lines: list[Scene]
    """The lines of the map around scenes, the more important ones first."""
    cut: int
    """How many more there are."""


def rows_of(
    drawn: Sequence[Drawn], asked: Map, numbers: Mapping[str, int], confidence: Confidence
) -> Rows:
    """Asks about messages, and makes rows of the answers. Raises `ToolError`."""
    lines = _Lines(asked)
    rows: list[Row] = []
    scenes: list[Scene | None] = []
    shapes: list[Row] = []
    messages = iter(watched(drawn, "references drawn", len(drawn)))
    while chunk := list(islice(messages, CHUNK)):
        for one, answered in zip(chunk, _answers_about(chunk, asked, numbers)):
            scene = None
            if answered is not None:
                scene = scene_of_answers(answered, confidence, {**asked.tolerances, **numbers})
                lines.add(scene)
                _pack(scene)
                shapes += _shapes(len(rows), answered, scene)
            rows.append(_row(one, answered))
            scenes.append(scene)
    # What is drawn last is seen.
    shapes.sort(key=lambda shape: ORDER.index(shape["kind"]))
    return Rows(rows, scenes, shapes, *lines.chosen())


def _answers_about(
    chunk: Sequence[Drawn], asked: Map, numbers: Mapping[str, int]
) -> list[Answered | None]:
    """What is answered about each of some messages; None where a text is no reference."""
    references = [read_reference(one.message.reference) for one in chunk]
    known = [
        (one.message.reference, reference)
        for one, reference in zip(chunk, references)
        if reference is not None
    ]
    answers = iter(answers_about(known, asked, **numbers))
    return [None if reference is None else next(answers) for reference in references]


class _Lines:
    """Lines of the map around scenes: the most important ones of all that were added."""

    def __init__(self, asked: Map) -> None:
        self._asked = asked
        self._found: dict[int, Scene] = {}
        self._seen: set[int] = set()

    def add(self, scene: Scene) -> None:
        """Adds the lines around a scene, and to it its box, and how many lines there are in it. Raises `ToolError`."""
        box = box_of(scene)
        near = lines_around(self._asked, box)
        edges = (box.south, box.west, box.north, box.east)
        scene |= {"box": [edge / 1e6 for edge in edges], "near": len(near), "more": near.more}
        for line in near:
            if line.id not in self._seen:
                self._seen.add(line.id)
                self._found[line.id] = line_drawn(line)
        if len(self._found) > 2 * MOST_LINES:
            self._cut()

    def _cut(self) -> None:
        """Keeps the most important lines."""
        by_class = sorted(self._found.values(), key=lambda line: (line["class"], line["id"]))
        self._found = {line["id"]: line for line in by_class[:MOST_LINES]}

    def chosen(self) -> tuple[list[Scene], int]:
        """The most important lines, and how many more there are."""
        self._cut()
        lines = [line | {"path": _steps(line["path"])} for line in self._found.values()]
        return lines, len(self._seen) - len(lines)


def _row(drawn: Drawn, answered: Answered | None) -> Row:
    """A row of the table: its numbers are those of the likeliest place. Lengths are in metres."""
    row: Row = {"record": drawn.message.record, "key": drawn.message.key, "verdict": "refused"}
    if answered is None:
        return row | _cause(drawn.fault)
    row["points"] = len(answered.reference.points)
    found = answered.places
    if isinstance(found, Fault):
        return row | _cause(found)
    row |= {"verdict": found.verdict, "margin": found.margin}
    if found.none_of_these is not None:
        row["none_of_these"] = share(found.none_of_these)
    if not found.places:
        return row | _cause(answered.why)
    likeliest = found.places[0]
    matching = likeliest.matching
    row["total"] = matching.total
    if matching.outer is not None:
        row["length"] = matching.outer.length() / 10
    if matching.turns_back:
        row["turns_back"] = TURNS_BACK
    if likeliest.probability is not None:
        row["probability"] = share(likeliest.probability)
    return row


def _cause(cause: Why | Fault | None) -> Row:
    """Why a reference fits nothing, in a word and as a text."""
    if cause is None:
        return {}
    if isinstance(cause, Why):
        return {"cause": cause.verdict.word, "reason": why_texts(cause)[0]}
    return {"cause": cause.name, "reason": ": ".join(filter(None, [cause.text, cause.meaning]))}


def _shapes(row: int, answered: Answered, scene: Scene) -> list[Row]:
    """What the map shows of a row: the outer part of the likeliest place, as the number of one of the scene's paths, or a spot; else the
    straight line through the points of the reference, and those of them that have no candidate."""
    kind = scene["verdict"]["word"]
    spots = [point["spot"] for point in scene["points"]]
    if scene["entries"]:
        return [{"row": row, "kind": kind} | _place(scene["entries"][0], scene["paths"], spots)]
    found: list[Row] = [{"row": row, "kind": kind, "path": spots}]
    if isinstance(answered.why, Why):
        found += [
            {"row": row, "kind": "lacking", "spot": spot}
            for spot, point in zip(spots, answered.why.points)
            if point.candidates == 0
        ]
    return found


def _place(entry: Scene, paths: Sequence[Steps], spots: Sequence[list[float]]) -> Row:
    """Where an entry is."""
    if entry["spot"]:
        return {"spot": entry["spot"]}
    there = [entry[name] for name in ("outer", "route") if entry[name] is not None]
    drawn = [number for number in there if len(paths[number]) > 2]
    return {"path": drawn[0]} if drawn else {"spot": spots[0]}


def _pack(scene: Scene) -> None:
    """Puts numbers in place of the geometries of a scene's entries, and these into `paths`, each once: many of them are equal."""
    numbers: dict[tuple[int, ...], int] = {}
    for entry in scene["entries"]:
        for name in GEOMETRIES:
            if entry[name] is not None:
                entry[name] = numbers.setdefault(tuple(_steps(entry[name])), len(numbers))
    scene["paths"] = list(numbers)


def _steps(path: Sequence[Sequence[float]]) -> Steps:
    """A path as steps of latitude and longitude, from 0 on, in microdegrees: a third of the letters."""
    whole = np.rint(np.array(path).reshape(-1, 2) * 1e6).astype(np.int64)
    steps: Steps = np.diff(whole, axis=0, prepend=0).ravel().tolist()
    return steps
