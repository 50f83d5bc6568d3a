"""A confidence of one's own map, and of a feed: trials in parts, of which those count that the feed looks like."""

import math
import numpy as np
from collections.abc import Mapping, Sequence
from pathlib import Path
from scipy.special import expit
from typing import Any, NamedTuple

from olr.arrays import Booleans, Floats
from olr.confidence.confidence import SOME_REFERENCE, Confidence, Range
from olr.confidence.feed import LEAST_REFERENCES, SAYING, statistics_of
from olr.confidence.fitting import (
    Checked,
    Trial,
    fitted,
    shift_of,
    shift_to,
    shifted,
    whole,
)
from olr.confidence.likeness import (
    WIDTH_OF_MAPS,
    WIDTH_OF_WRONG,
    Likeness,
    alike,
    are_outside,
    counting,
    range_of,
)
from olr.confidence.messages import LEAST_CHECKED
from olr.confidence.parts import (
    GREATEST_DIFFERENCE,
    Asking,
    Drawing,
    Part,
    answered_by,
    parts_of,
    parts_of_pair,
)
from olr.confidence.shift import Shift, shift_found
from olr.confidence.terms import Terms
from olr.confidence.weights import Differences, differences_of, probabilities
from olr.errors import ToolError
from olr.model.map_folder import read_map, store_of
from olr.model.road_map import RoadMap
from olr.trials.rightness import RIGHT
from olr.version import VERSION

DECIMALS, DECIMALS_OF_MAPS = 4, 3
"""Of numbers in a file that aren't whole, and of how different maps are."""
OUTSIDE = 0.1
"""How far the level of a feed is off besides, if it is unlike all trials: a standard deviation."""


class Wanted(NamedTuple):
    """What a confidence is for."""

    feed: Sequence[str] = ()
    """The references of a feed: parts that look like it count, if there are enough of them."""
    messages: int = 0
    """How many line references the feed has."""
    differ: float | None = None
    """How different the maps are, where it is stated."""
    checked: Sequence[tuple[str, bool]] = ()
    """Some references, and whether their likeliest places are right."""
    pair: Path | None = None
    """The map of the sender, on which trials are drawn then."""


class Said(NamedTuple):
    """What the numbers of a feed say."""

    statistics: Mapping[str, float]
    right: float
    """The share of its likeliest places that are right."""
    of_parts: Floats
    """The same of each part, as its numbers say it."""
    outside: Sequence[str]
    """Which numbers are unlike those of any part."""


class Chosen(NamedTuple):
    """Which parts count, and how much."""

    weights: Floats
    said: Said | None = None
    """If it is the feed that says it."""


def calibrated(folder: Path, drawing: Drawing, asking: Asking, wanted: Wanted) -> Confidence:
    """The confidence of the map in a folder: the same one for the same map, numbers and feed. Raises `ToolError` for a store, a map that
    can't be read, one with too few paths, and a feed that is too small to say how different the maps are.
    """
    _require_feed(wanted)
    for path in filter(None, (folder, wanted.pair)):
        _require_folder(path)
    feed = answered_feed(folder, wanted.feed, asking)
    if wanted.pair is not None:
        _require_map(wanted.pair, asking)
    road_map = read_map(folder)
    if wanted.pair is None:
        parts = list(parts_of(road_map, drawing, asking))
        shift = _shift_of(folder, wanted.feed, asking) if wanted.feed else None
    else:
        parts, shift = parts_of_pair(folder, wanted.pair, drawing, asking)
    if not any(len(part.right) for part in parts):
        apart = "" if wanted.pair is None else ", or maps of the same region"
        raise ToolError(f"no trial reference has a place: give wider tolerances{apart}")
    chosen = chosen_parts(parts, feed, wanted)
    weights = fitted(trial_of(parts, chosen.weights))
    level = level_of(parts, chosen, weights)
    if chosen.said is not None and feed is not None and len(feed.costs):
        more = shift_to(weights, differences_of(feed), _are_first(feed), chosen.said.right)
        weights = shifted(weights, more)
    checked = _checked(folder, wanted, asking)
    more = 0.0 if checked is None else shift_of(weights, checked)
    differs = None
    if wanted.pair is None:
        found = range_of(np.array([part.maps for part in parts]), chosen.weights)
        differs = Range(*(round(it, DECIMALS_OF_MAPS) for it in found))
    about = _about(road_map, drawing, parts, chosen, wanted)
    if shift is not None:
        about["shift"] = {name: round(metres, 1) for name, metres in shift._asdict().items()}
    if checked is not None:
        more = round(more, DECIMALS)
        right = int(checked.right.sum())
        about["checked"] = {"answers": len(checked.right), "right": right, "shift": more}
    return Confidence(
        tolerances=dict(asking.tolerances),
        apart=asking.apart,
        weights=whole(shifted(weights, more)),
        map_differs=differs,
        about=about,
        level=round(level, DECIMALS),
    )


def _shift_of(folder: Path, texts: Sequence[str], asking: Asking) -> Shift | None:
    """The shift of a map against that of a feed, if there is one for certain."""
    with asking.map_of(folder) as asked:
        return shift_found(asked, texts)


def _require_folder(path: Path) -> None:
    """Raises `ToolError` for a store."""
    store = store_of(path)
    if store is not None:
        raise ToolError(
            f"{store} is a store, and calibrate draws on a map in a folder: take a part of its file by olr-tools import --bbox"
        )


def _require_map(sender: Path, asking: Asking) -> None:
    """Raises `ToolError` for a sender's map that the program refuses. It isn't asked about the feed."""
    try:
        answered_feed(sender, (), asking)
    except ToolError as error:
        raise ToolError(f"{sender}: {error}") from error


def _require_feed(wanted: Wanted) -> None:
    """Raises `ToolError` for a feed that is too small, where it isn't known how different the maps are."""
    is_known = wanted.differ is not None or wanted.pair is not None
    if not is_known and 0 < wanted.messages < LEAST_REFERENCES:
        raise ToolError(
            f"{LEAST_REFERENCES} line references are needed to tell how different the maps are, and the feed has {wanted.messages:,}: "
            f"say it by --differ, 0 for the same map and 1 for that of another vendor, {GREATEST_DIFFERENCE:g} at most"
        )


def _checked(folder: Path, wanted: Wanted, asking: Asking) -> Checked | None:
    """The answers that somebody checked, asked again. None if there are none. Raises `ToolError` if too few of them have a place."""
    if not wanted.checked:
        return None
    texts = [text for text, _ in wanted.checked]
    with asking.map_of(folder) as asked:
        terms = answered_by(asked, texts, asking).terms
    right = np.array([right for _, right in wanted.checked], dtype=np.bool_)[terms.sizes > 0]
    if len(right) < LEAST_CHECKED:
        raise ToolError(
            f"{len(right):,} of {len(texts):,} checked messages have a place, and {LEAST_CHECKED} are needed: check more"
        )
    return Checked(differences_of(terms), _are_first(terms), right)


def _are_first(terms: Terms) -> Booleans:
    """Of each place: whether it is the likeliest one of its answer."""
    first = np.zeros(len(terms.costs), dtype=np.bool_)
    first[terms.first()] = True
    return first


def answered_feed(folder: Path, texts: Sequence[str], asking: Asking) -> Terms | None:
    """What a map answers to a feed; None for no feed. It is asked about something in any case: raises `ToolError` for a map that can't be
    read."""
    with asking.map_of(folder) as asked:
        found = answered_by(asked, texts or [SOME_REFERENCE], asking).terms
    return found if texts else None


def chosen_parts(parts: Sequence[Part], feed: Terms | None, wanted: Wanted) -> Chosen:
    """How much each part counts: those whose maps are as different as is stated, or that look like the feed. Without either all count alike."""
    if wanted.differ is not None:
        maps = np.array([part.maps for part in parts])
        return Chosen(alike(maps, wanted.differ, WIDTH_OF_MAPS))
    if feed is None or len(feed.sizes) < LEAST_REFERENCES:
        return Chosen(np.ones(len(parts)))
    usual = fitted(trial_of(parts, np.ones(len(parts))))
    statistics = statistics_of(feed, usual)
    names, numbers = list(statistics), np.array(list(statistics.values()))
    of_parts = np.array([list(statistics_of(part.terms, usual).values()) for part in parts])
    saying = [names.index(name) for name in SAYING]
    likeness = Likeness(of_parts[:, saying], np.array([part.odds() for part in parts]))
    odds = likeness.said_of(numbers[saying])
    outside = [names[at] for at in np.flatnonzero(are_outside(numbers, of_parts))]
    return Chosen(
        alike(likeness.said, odds, WIDTH_OF_WRONG),
        Said(statistics, float(expit(odds)), expit(likeness.said), outside),
    )


def trial_of(parts: Sequence[Part], weights: Floats) -> Trial:
    """The trials of parts, which count so much."""
    each = [differences_of(part.terms) for part in parts]
    before = np.cumsum([0, *(len(one.of_place) for one in each)])
    right = [
        np.where(part.right < 0, part.right, part.right + at) for part, at in zip(parts, before)
    ]
    return Trial(
        Differences(*(np.concatenate(column) for column in zip(*each))),
        np.concatenate(right),
        np.repeat(weights, [len(part.right) for part in parts]),
    )


def level_of(parts: Sequence[Part], chosen: Chosen, weights: Floats) -> float:
    """How far the share of likeliest places that are right lies from what is told of them, over parts that count so much: a standard
    deviation, without what is due to chance. It is greater for a feed that is unlike all parts."""
    sizes = np.array([max(len(part.right), 1) for part in parts])
    if chosen.said is None:
        told = np.array([_told_of(part.terms, weights) for part in parts])
    else:
        told = chosen.said.of_parts
    seen = np.array([part.seen() for part in parts])
    squares = (told - seen) ** 2 - told * (1 - told) / sizes
    variance = max(float(squares @ chosen.weights / chosen.weights.sum()), 0.0)
    is_outside = chosen.said is not None and bool(chosen.said.outside)
    return math.hypot(math.sqrt(variance), OUTSIDE if is_outside else 0.0)


def _told_of(terms: Terms, weights: Floats) -> float:
    """The mean of the probabilities of the likeliest places; 0 where there is none."""
    told = probabilities(weights, differences_of(terms)).of_place[terms.first()]
    return float(told.mean()) if len(told) else 0.0


def _about(
    road_map: RoadMap, drawing: Drawing, parts: Sequence[Part], chosen: Chosen, wanted: Wanted
) -> dict[str, Any]:
    """How it was made."""
    feed: Mapping[str, Any] | None = None
    if wanted.feed:
        said = chosen.said
        feed = {
            "asked": len(wanted.feed),
            "outside": [] if said is None else said.outside,
            "references": wanted.messages,
            "statistics": None if said is None else _rounded(said.statistics),
        }
    return {
        "checked": None,
        "counting": round(counting(chosen.weights), 1),
        "differ": wanted.differ,
        "drawn": sum(len(part.terms.sizes) for part in parts),
        "pair": None if wanted.pair is None else wanted.pair.name,
        "feed": feed,
        "map": {
            "bans": len(road_map.bans),
            "lines": len(road_map.lines),
            "nodes": len(road_map.nodes),
        },
        "parts": [
            {
                "answers": len(part.right),
                "counts": round(float(weight), DECIMALS),
                "maps": round(part.maps, DECIMALS),
                "references": round(part.references, DECIMALS),
                "right": int((part.right >= 0).sum()),
            }
            for part, weight in zip(parts, chosen.weights)
        ],
        "program": VERSION,
        "references": drawing.references,
        "right": RIGHT,
        "seed": drawing.seed,
    }


def _rounded(values: Mapping[str, float]) -> dict[str, float]:
    """Numbers by name, with the digits that a file has."""
    return {name: round(float(value), DECIMALS) for name, value in values.items()}
