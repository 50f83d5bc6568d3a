"""All that a page draws, as data for its script. Positions are `[latitude, longitude]` in degrees."""

from collections.abc import Iterator, Mapping, Sequence
from typing import Any, NamedTuple

from olr.asking.once import decode
from olr.client.answering import drawn_legs
from olr.client.map_client import Map
from olr.confidence.choosing import confidence_of
from olr.confidence.confidence import Confidence
from olr.model.answers import Candidate, Candidates, Matching, Page, Places, Reference, Why
from olr.model.asked_with import command_text
from olr.model.fault import Fault
from olr.model.pieces import Spot
from olr.model.questions import NEAR_OF_PAGES, What, likely
from olr.model.reasons import sentence_of
from olr.pages.view import sentences
from olr.pages.view.notes import notes_of
from olr.pages.view.paths import path_drawn, spot_drawn
from olr.pages.view.surroundings import Scene, box_of, lines_around, lines_drawn

MOST_IDS = 6


class Answered(NamedTuple):
    """A reference with what the program answers about it, with shapes."""

    text: str
    reference: Reference
    candidates: Candidates | Fault
    places: Places | Fault
    page: Page | Fault
    why: Why | Fault | None = None
    """None where it fits somewhere."""


def scene_of(text: str, asked: Map, **numbers: int) -> Scene:
    """What a reference says, where it fits, how well and how probably; or why it doesn't. The numbers are those of `places`. Raises `Fault` if it
    is no reference, or a number is out of its range, and `MapRefused` if the map's files change meanwhile.
    """
    reference = decode(text, asked.program)
    (answered,) = answers_about([(text, reference)], asked, **numbers)
    if isinstance(answered.why, Fault):
        raise answered.why
    scene = scene_of_answers(answered, confidence_of(asked), {**asked.tolerances, **numbers})
    notes = notes_of(_legs(text, asked, scene), asked.tolerances["lowest"])
    return scene | notes | lines_drawn(lines_around(asked, box_of(scene)))


def _legs(text: str, asked: Map, scene: Scene) -> bytes | None:
    """What the program says of the legs of the first entry; None where there is none, or it says nothing."""
    cursor = first_cursor(scene)
    try:
        return None if cursor is None else drawn_legs(asked, text, cursor, NEAR_OF_PAGES)
    except Fault:
        return None


def first_cursor(scene: Scene) -> str | None:
    """The cursor of the first entry, if there is one."""
    cursor: str | None = scene["entries"][0]["cursor"] if scene["entries"] else None
    return cursor


def answers_about(
    references: Sequence[tuple[str, Reference]], asked: Map, **numbers: int
) -> list[Answered]:
    """What scenes of references are made from. The numbers are those of `places`. Raises `Fault` for a number that is out of its range, and
    `MapRefused` if the map's files change meanwhile."""
    texts = [text for text, _ in references]
    candidates = asked.answers("candidates", texts, shape=True)
    settings: dict[str, Any] = likely(numbers) | {"shape": True}
    places: Iterator[Any] = asked.answers("places", texts, **settings)
    pages = asked.answers("match", texts, shape=True)
    answers = zip(references, candidates, places, pages, strict=True)
    found = [Answered(*about, one, two, three) for about, one, two, three in answers]
    reasons = asked.answers("why", (one.text for one in found if not fits(one)), shape=True)
    return [one if fits(one) else one._replace(why=next(reasons)) for one in found]


def fits(answered: Answered) -> bool:
    """Whether there is a place, or a matching."""
    places, page = answered.places, answered.page
    if isinstance(places, Fault) or isinstance(page, Fault):
        return False
    return bool(places.places or page.matchings)


def scene_of_answers(
    answered: Answered, confidence: Confidence, numbers: Mapping[str, int]
) -> Scene:
    """The scene of a reference that was asked about, without the lines around. The confidence is that of the map; the numbers are all tolerances
    and those of `places` that were given."""
    reference, candidates, places, page = answered[1:5]
    scene: Scene = {
        "reference": answered.text.strip(),
        "kind": reference.kind.replace("-", " "),
        "offsets": sentences.offsets_text(reference),
        "points": _points(reference),
        "candidates": [],
        "entries": [],
        "why": None,
        "command": "",
        "verdict": {"word": "refused", "text": ""},
        "probability": [],
        "looking": "",
    }
    if isinstance(candidates, Candidates):
        scene["candidates"] = list(map(_ranked, candidates.points))
    if isinstance(places, Places) and isinstance(page, Page):
        scene["verdict"] = {
            "word": places.verdict,
            "text": sentences.verdict_text(places.verdict, places.margin),
        }
        if places.places:
            scene["probability"] = sentences.probability_texts(places, confidence, numbers)
        if places.cut:
            scene["looking"] = sentences.CUT_OFF
        scene["entries"] = _entries(places, page)
    else:
        fault = next(one for one in (places, page) if isinstance(one, Fault))
        scene["verdict"]["text"] = f"{fault.text}: {fault.meaning}."
    if answered.why is not None:
        scene["why"] = _why(answered.why)
    return scene


def add_command(scene: Scene, map_name: str | None, numbers: Mapping[str, int]) -> None:
    """Adds the command of the program `olr` that gives the same answer: an empty text if there is none, as the program doesn't read the map.
    The numbers are all tolerances and the numbers of `places`, by the names of the program's options.
    """
    question: What = "places" if scene["why"] is None else "why"
    scene["command"] = command_text(question, scene["reference"], map_name, likely(numbers))


def _points(reference: Reference) -> list[Scene]:
    """The points of a reference. The direction at the last one is that back along the road."""
    return [
        {
            "spot": spot_drawn(Spot(point.lon, point.lat)),
            "direction": [
                point.sector * sentences.SECTOR,
                (point.sector + 1) * sentences.SECTOR,
            ],
            "text": sentences.point_text(point),
            "leg": sentences.leg_text(point),
        }
        for point in reference.points
    ]


def _ranked(candidates: Sequence[Candidate]) -> list[Scene]:
    """The candidates of a point."""
    return [
        {
            "rank": rank,
            "line": one.line,
            "at": one.at,
            "penalty": one.penalty,
            "spot": spot_drawn(one.spot),
        }
        for rank, one in enumerate(candidates, 1)
    ]


def _entries(places: Places, page: Page) -> list[Scene]:
    """The places, the likeliest one first, and then those of the first matchings that don't open one."""
    entries = []
    for number, one in enumerate(places, 1):
        members = one.members
        entry = _entry(one.matching) | {
            "title": f"Place {number}",
            "gap": one.gap,
            "members": "1 matching" if members == 1 else f"{members} matchings",
            "probability": sentences.place_probability_text(one),
            "facts": sentences.place_texts(one, number),
            "reasons": sentence_of(one.reasons) or "",
        }
        entries.append(entry)
    openers = {one.matching.cursor for one in places}
    for number, matching in enumerate(page.matchings, 1):
        if matching.cursor not in openers:
            entry = _entry(matching) | {
                "title": f"Matching {number}",
                "gap": matching.total - page.matchings[0].total,
                "members": None,
                "probability": "",
                "facts": [],
                "reasons": "",
            }
            entries.append(entry)
    return entries


def _entry(matching: Matching) -> Scene:
    """A matching with its geometries."""
    shape, spot = matching.shape, matching.spot
    assert shape is not None
    entry: Scene = {
        "cursor": matching.cursor,
        "total": matching.total,
        "ranks": [int(rank) for rank in matching.cursor.split(":")[1].split(".")],
        "legs": sentences.legs_text(matching.legs),
        "lines": _ids([piece.line for piece in matching.route]),
        "route": path_drawn(shape.route),
        "outer": path_drawn(shape.outer),
        "inner": path_drawn(shape.inner),
        "spot": None,
        "ends": [],
        "length": "",
    }
    if spot is not None:
        entry["spot"] = spot_drawn(spot.middle)
        entry["ends"] = [spot_drawn(spot.earliest), spot_drawn(spot.latest)]
    elif matching.outer is not None:
        entry["length"] = sentences.metres(matching.outer.length())
    return entry


def _ids(lines: list[int]) -> str:
    """The ids of lines, the first ones if there are many."""
    more = f" and {len(lines) - MOST_IDS} more" if len(lines) > MOST_IDS else ""
    return " ".join(map(str, lines[:MOST_IDS])) + more


def _why(why: Why | Fault) -> Scene:
    """Why nothing fits, and the lines near the points."""
    if isinstance(why, Fault):
        return {"texts": [f"{why.text}: {why.meaning}."], "remedies": [], "near": []}
    return {
        "texts": sentences.why_texts(why),
        "remedies": [sentences.remedy_text(remedy) for remedy in why.remedies],
        "near": [
            {"line": line.line, "not": list(line.not_), "spot": spot_drawn(line.spot)}
            for point in why.points
            for line in point.nearest
        ],
    }
