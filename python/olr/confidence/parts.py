"""Trials in parts, which differ in how different their maps and how far off their references are: on a map and what it might be like at
a sender's, or on a pair of maps."""

import math
import numpy as np
import random
from collections.abc import Iterator, Mapping, Sequence
from itertools import islice
from pathlib import Path
from typing import Any, NamedTuple

from olr.arrays import Floats, Integers
from olr.asking.patience import PATIENCE
from olr.client.map_client import Map
from olr.confidence.fitting import NONE
from olr.confidence.shift import Shift, shift_found
from olr.confidence.terms import Terms, terms_of
from olr.geometry.agreement import agreement
from olr.geometry.network import Network
from olr.geometry.parts import parts_of as arrays_of
from olr.model.answers import Matching, Places
from olr.model.map_folder import read_map, write_records
from olr.model.profiles import as_arguments
from olr.model.questions import LIST, NUMBERS, Setting
from olr.model.road_map import RoadMap
from olr.outputs import writing
from olr.progress import progress
from olr.regions.scratch import scratch_folder
from olr.trials.changing import Habits, Spreads, changed_points
from olr.trials.differing import Difference, differing
from olr.trials.encoder import text_of
from olr.trials.graph import Graph
from olr.trials.likeness import Likeness, Usual
from olr.trials.neighbourhood import Neighbourhoods
from olr.trials.paths import Paths, Stretch
from olr.trials.rightness import RIGHT, is_right
from olr.trials.roads import Roads

ANOTHER = Difference(5.0, 15.0, 4.0, 4.0, 5.0, 1.0)
"""How a map of another maker differs, more or less: a difference of 1."""
LACKED = 5.0
"""Percent of roads that only the asked map has, likewise."""
SPREADS = Spreads()
"""By how much the references of a sender are off, more or less: likewise."""
GREATEST_DIFFERENCE = 1.5
"""Of the maps of parts: it is drawn evenly up to this."""
GREATEST_SPREAD = 1.5
"""Of their references, likewise."""
ALIKE = 0.2
"""The share of parts whose maps don't differ at all, and of those whose references are exact."""
UNEVEN = 2.5
"""Each kind of difference of a part is up to so many times as large as that of its maps or references, evenly, and 0 in a fifth of the parts:
so it is as large in the mean, and no two makers differ alike."""
SHIFT, TURNED, LONGER = 25.0, (-1.0, 1.0), (-0.5, 1.0)
"""In half of the parts each: metres by which all points are shifted at most, sectors by which all bearings are off, and intervals by which
all legs are longer."""
PARTS, LEAST_OF_PART = 100, 20
"""There are so many parts at most, and each has so many references at least."""
MOST_LINES = 20_000
"""Of the map of a part: a larger one is cut around one of its nodes."""
ACROSS = 15.0
"""Metres that roads of a pair of maps lie apart at most, where they are one."""
EXACT = 300
"""Exact references to paths of the sender's map by which it is found whether the other one is shifted."""


class Asking(NamedTuple):
    """With what is asked."""

    tolerances: Mapping[str, int]
    """By the names of the program's options: all of them."""
    apart: int = NUMBERS["places"]["apart"].default
    look: int = NUMBERS["places"]["look"].default
    patience: float = PATIENCE

    def map_of(self, folder: Path) -> Map:
        """The map of a folder, to ask it."""
        tolerances: dict[str, Any] = as_arguments(self.tolerances)
        return Map.of_folder(folder, **tolerances, patience=self.patience, confidence=False)

    def settings(self) -> dict[str, Setting]:
        """Those of the question."""
        return {"apart": self.apart, "look": self.look, **LIST}


class Answered(NamedTuple):
    """The places of answers to references."""

    matchings: Sequence[Matching]
    terms: Terms


class Part(NamedTuple):
    """Trials on one pair of maps."""

    maps: float
    """How different they are: 1 as the map of another maker."""
    references: float
    """How far off the references are: 1 as those of `SPREADS`."""
    terms: Terms
    right: Integers
    """For each answer that has a place the number of the right one among all places, or `NONE`: of several ones the likeliest."""

    def seen(self) -> float:
        """The share of likeliest places that are right; 0 where there is none."""
        first = self.terms.first()
        return float(np.mean(self.right == first)) if len(first) else 0.0

    def odds(self) -> float:
        """The logarithm of the odds that a likeliest place is right; as if half a place more were right and half a place more wrong, so that
        it is finite."""
        right = self.seen() * len(self.right)
        return math.log((right + 0.5) / (len(self.right) - right + 0.5))


class Drawing(NamedTuple):
    """What is drawn."""

    references: int = 10_000
    seed: int = 1
    likeness: Likeness | None = None
    """What paths are like: usual ones for None."""

    def each(self, what: str) -> Iterator[tuple[int, random.Random]]:
        """How many references each part has, and what draws it, while it is shown how far that is."""
        parts = min(PARTS, max(self.references // LEAST_OF_PART, 1))
        with progress(what, self.references) as advance:
            for number in range(parts):
                first, behind = (self.references * one // parts for one in (number, number + 1))
                yield behind - first, random.Random(f"{self.seed} {number}")
                advance(behind - first)


class OfPair(NamedTuple):
    """Trials on a pair of maps."""

    parts: list[Part]
    shift: Shift | None
    """Of the map that is asked against the sender's: None if it isn't certain that there is one."""


class _Tried(NamedTuple):
    """References to known paths."""

    paths: list[Sequence[Stretch]]
    texts: list[str]


def parts_of(road_map: RoadMap, drawing: Drawing, asking: Asking) -> Iterator[Part]:
    """Trials on a map, which is asked, and on what it might be like at a sender's. The same numbers give the same trials. Raises `ToolError`
    for a map with too few paths."""
    roads = Roads(road_map)
    neighbourhoods = Neighbourhoods(road_map, roads, MOST_LINES)
    paths = Paths(road_map, drawing.likeness or Usual())
    lengths = {line.id: line.length for line in road_map.lines}
    for count, draws in drawing.each("trial references answered"):
        maps, references = (
            most * max(0.0, 1 - draws.random() / (1 - ALIKE))
            for most in (GREATEST_DIFFERENCE, GREATEST_SPREAD)
        )
        of_kinds = Difference(*(_uneven(value * maps, draws) for value in ANOTHER))
        here = neighbourhoods.drawn(draws)
        lacked = Difference(missing=_uneven(LACKED * maps, draws))
        sender = differing(here, roads, lacked, draws)
        other = differing(here, roads, of_kinds, draws)
        tried = _tried(paths, Graph(sender, roads), count, references, draws)
        found = ask(other, tried.texts, asking)
        here_or_there = lengths | {line.id: line.length for line in other.lines}
        are_right = [
            is_right(here_or_there, tried.paths[owner], matching.outer or ())
            for owner, matching in zip(found.terms.owners().tolist(), found.matchings)
        ]
        yield Part(maps, references, found.terms, right_places(found.terms, are_right))


def parts_of_pair(folder: Path, sender: Path, drawing: Drawing, asking: Asking) -> OfPair:
    """Trials that are drawn on the map of a sender, and asked of the map in a folder. Whether a place is right is told by geometry, as if
    the maps weren't shifted. How different the maps are isn't said: it is what it is. Raises `ToolError` if a map can't be read, or has too
    few paths."""
    parts: list[Part] = []
    road_map = read_map(sender)
    paths = Paths(road_map, drawing.likeness or Usual())
    graph, geometry = Graph(road_map, Roads(road_map)), Network.read(sender)
    with asking.map_of(folder) as asked:
        exact = islice(paths.drawn(graph, random.Random(f"{drawing.seed} shift")), EXACT)
        shift = shift_found(asked, [text_of(one.points) for one in exact])
        for count, draws in drawing.each("trial references"):
            references = draws.uniform(0, GREATEST_SPREAD)
            tried = _tried(paths, graph, count, references, draws)
            found = answered_by(asked, tried.texts, asking)
            arrays = arrays_of([one.outer for one in found.matchings])
            lines = asked.network().polylines(arrays.pieces, arrays.counts)
            places = lines.each()
            true = [points_of(path, geometry) for path in tried.paths]
            true = true if shift is None else list(map(shift.applied, true))
            are_right = [
                is_right_by_geometry(true[owner], place)
                for owner, place in zip(found.terms.owners().tolist(), places)
            ]
            parts.append(Part(0.0, references, found.terms, right_places(found.terms, are_right)))
    return OfPair(parts, shift)


def _tried(
    paths: Paths, graph: Graph, count: int, references: float, draws: random.Random
) -> _Tried:
    """So many paths of a sender's map, and references to them that are so far off."""
    drawn = list(islice(paths.drawn(graph, draws), count))
    spreads = Spreads(*(_uneven(value * references, draws) for value in SPREADS))
    habits = _habits(draws)
    # Not all references of a sender are as far off.
    texts = [
        text_of(changed_points(one.points, spreads.times(draws.uniform(0, 2)), draws, habits))
        for one in drawn
    ]
    return _Tried([one.path for one in drawn], texts)


def _uneven(mean: float, draws: random.Random) -> float:
    """How large a difference of one kind is, which is so large in the mean."""
    return mean * UNEVEN * max(0.0, 1 - draws.random() / (1 - ALIKE))


def _habits(draws: random.Random) -> Habits:
    """By what all references of a part are off."""
    angle = draws.uniform(0, 2 * math.pi)
    shift, turned, longer = (
        draws.choice((0.0, draws.uniform(*room))) for room in ((0.0, SHIFT), TURNED, LONGER)
    )
    return Habits(shift * math.sin(angle), shift * math.cos(angle), turned, longer)


def is_right_by_geometry(path: Floats, place: Floats) -> bool:
    """Whether a true path and a place, by their points in degrees, cover enough of each other."""
    return len(place) > 1 and agreement(path, place, ACROSS) >= RIGHT


def points_of(path: Sequence[Stretch], geometry: Network) -> Floats:
    """The points of a true path."""
    lengths = geometry.length[geometry.indices_of(np.array([one.line for one in path]))]
    pieces = [
        (one.line, round(one.start * length), round(one.end * length))
        for one, length in zip(path, lengths.tolist())
    ]
    return geometry.path(pieces)


def ask(road_map: RoadMap, texts: Sequence[str], asking: Asking) -> Answered:
    """What a map answers to references. Raises `ToolError`."""
    with scratch_folder() as scratch:
        with writing(scratch):
            write_records(road_map.nodes, road_map.lines, road_map.bans, scratch)
        with asking.map_of(scratch) as asked:
            return answered_by(asked, texts, asking)


def answered_by(asked: Map, texts: Sequence[str], asking: Asking) -> Answered:
    """What a map answers to references, with what speaks for and against each place. Raises `ToolError`."""
    answers = asked.answers("places", texts, **asking.settings())
    places = [one if isinstance(one, Places) else None for one in answers]
    matchings = [one.matching for answer in places if answer for one in answer.places]
    return Answered(matchings, terms_of(places))


def right_places(terms: Terms, are_right: Sequence[bool]) -> Integers:
    """The number of the right place of each answer that has one: the likeliest one of those that are right, or `NONE`."""
    right = np.flatnonzero(are_right)
    numbers, first = np.unique(terms.owners()[right], return_index=True)
    of_answers = np.full(len(terms.sizes), NONE, dtype=np.int64)
    of_answers[numbers] = right[first]
    result: Integers = of_answers[terms.sizes > 0]
    return result
