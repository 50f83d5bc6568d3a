"""What the page says: a reference, a verdict and reasons in sentences. Lengths are shown in metres."""

from collections.abc import Mapping, Sequence

from olr.confidence.confidence import Confidence
from olr.confidence.sentences import MILLION, differs_text, no_probabilities, probability_text
from olr.geometry.parts import ends_of
from olr.model.answers import (
    Leg,
    NearLine,
    Pair,
    PlaceOfReference,
    Places,
    Reference,
    ReferencePoint,
    Remedy,
    Why,
    WhyLeg,
)

INTERVAL = 58.6
"""Metres in an interval."""
SECTOR = 11.25
"""Degrees in a sector."""
FORMS = (
    "unknown form",
    "motorway",
    "several carriageways",
    "single carriageway",
    "roundabout",
    "traffic square",
    "slip road",
    "other form",
)
VERDICTS = {
    "unique": "Within the tolerances the map has no second place",
    "ambiguous": "The map has several places that fit nearly as well",
    "open": "Looking was cut off before a second place was found",
    "none": "Within the tolerances there is no matching",
}
CUT_OFF = "Looking was cut off: give a greater --look."
"""Where it ended before a place that might be shown."""
LEAST_REST = 5_000
"""The probability of places that aren't shown, in millionths, from which on it is said."""
CONDITIONS = {
    "radius": "too far away",
    "bearing": "another direction",
    "class": "another class",
    "end": "no way on from its end",
}


def metres(decimetres: int) -> str:
    """A length, such as `246.4 m`."""
    return f"{decimetres / 10:,.1f} m"


def point_text(point: ReferencePoint) -> str:
    """What a reference says of a point."""
    low = point.sector * SECTOR
    return (
        f"class {point.class_}, {FORMS[point.form]}, direction {low:g} to {low + SECTOR:g} degrees"
    )


def leg_text(point: ReferencePoint) -> str:
    """What a reference says of the path from a point to the next one; an empty text at the last point."""
    if point.interval is None:
        return ""
    low = point.interval * INTERVAL
    return f"{low:,.0f} to {low + INTERVAL:,.0f} m, class {point.lowest} or better"


def legs_text(legs: Sequence[Leg]) -> str:
    """How long the legs of a matching are, and what they cost beyond their points."""
    lengths = ", ".join(f"{leg.length / 10:,.1f}" for leg in legs)
    penalty = sum(leg.penalty for leg in legs)
    return f"{lengths} m" + (f", which costs {penalty}" if penalty else "")


def place_probability_text(place: PlaceOfReference) -> str:
    """How probable a place is; an empty text where nothing is said."""
    if place.probability is None:
        return ""
    return f"probability {probability_text(place.probability)}"


def place_texts(place: PlaceOfReference, number: int) -> list[str]:
    """What speaks for and against a place, whether it has a probability or not. It has this number in the likely order."""
    (ends,) = ends_of([place.matching.points])
    texts = [f"points {ends:.1f} m from the ends of their lines"]
    if place.matching.turns_back:
        texts.append("turns back")
    if place.rank != number:
        texts.append(f"rank {place.rank} by penalty")
    return texts


def probability_texts(
    places: Places, confidence: Confidence, numbers: Mapping[str, int]
) -> list[str]:
    """How probable it is that none of the places is the right one, and of which maps that holds; or why nothing is said. The places were asked
    for by these numbers."""
    none = places.none_of_these
    if places.differs is None:
        return []
    if places.differs:
        note = no_probabilities(places.differs, numbers, confidence)
        return [f"{note[0].upper()}{note[1:]}."]
    if none is None:
        return ["Probabilities are of lines: a point along a line has none."]
    texts = [f"None of these: probability {probability_text(none)}."]
    rest = MILLION - none - sum(one.probability or 0 for one in places)
    if rest >= LEAST_REST:
        texts.append(f"Others that aren't shown: probability {probability_text(rest)}.")
    differs = differs_text(places.map_differs, confidence)
    return [*texts, differs] if differs else texts


def offsets_text(reference: Reference) -> str:
    """What a reference says of its offsets; an empty text if it has none."""
    parts = []
    for name, value in (("positive", reference.positive), ("negative", reference.negative)):
        if value is not None:
            leg = "first" if name == "positive" else "last"
            parts.append(f"{name} offset {value}/256 of the {leg} leg")
    return ", ".join(parts)


def verdict_text(verdict: str, margin: int | None) -> str:
    """The verdict, and the margin if there is one."""
    text = VERDICTS[verdict]
    if margin is None:
        return text + "."
    if verdict == "unique":
        return f"{text} that fits nearly as well: the next one costs {margin} penalty points more."
    return f"{text}: the second best one costs {margin} penalty points more."


def why_texts(why: Why) -> list[str]:
    """Why a reference has no matching, as sentences; the first one is the verdict."""
    word, at = why.verdict.word, why.verdict.at
    if word == "crowded":
        return [f"Point {at} has more than 64 candidates."]
    if word == "point":
        assert at is not None
        near = [_near_text(line) for line in why.points[at - 1].nearest[:4]]
        return [f"Point {at} has no candidate.", *near]
    if word == "leg":
        assert at is not None
        leg = why.legs[at - 1]
        return [_leg_text(at, leg), *map(_pair_text, leg.pairs[:4])]
    if word == "chain":
        return [f"Each leg fits alone, but no choice of candidates fits as far as point {at}."]
    return ["There is a matching."]


def _near_text(line: NearLine) -> str:
    failed = ", ".join(CONDITIONS[name] for name in line.not_)
    return f"Line {line.line}, {line.distance / 100:.1f} m away: {failed or 'a candidate'}."


def _leg_text(number: int, leg: WhyLeg) -> str:
    return (
        f"Leg {number}, from point {number} to point {number + 1}, admits none of {leg.of} pairs of candidates: "
        f"its path has to be {metres(leg.from_)} to {metres(leg.to)} long, on classes 0 to {leg.class_}."
    )


def _pair_text(pair: Pair) -> str:
    text = f"Candidates {pair.first} and {pair.second}: "
    if pair.length is None:
        text += "no path"
    elif pair.long is not None:
        text += f"{metres(pair.length)}, {metres(pair.long)} too long"
    else:
        text += f"{metres(pair.length)}, {metres(pair.short or 0)} too short"
    if pair.better is not None:
        text += f"; {metres(pair.better.length)} with roads of class {pair.better.class_}"
    return text + "."


def remedy_text(remedy: Remedy) -> str:
    """What would help."""
    option = "without bans" if remedy.value is None else f"--{remedy.option} {remedy.value}"
    if remedy.matching is None:
        return f"{option}: few enough candidates, but no matching"
    return f"{option}: a matching with {remedy.matching.split(':')[0]} penalty points"
