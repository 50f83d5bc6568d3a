"""From the JSON of the program to the objects of `answers`."""

import json
import re
from collections.abc import Callable, Iterator, Mapping, Sequence
from contextlib import contextmanager
from typing import Any, NamedTuple, TypeVar

from olr.model.answers import (
    Answer,
    AnswerOrFault,
    Better,
    Candidate,
    Candidates,
    Leg,
    MapDiffers,
    Matching,
    NearLine,
    Page,
    Pair,
    PenaltyParts,
    PlaceOfReference,
    Places,
    Reference,
    ReferencePoint,
    Remedy,
    Shape,
    SpotsOnRoute,
    Verdict,
    Why,
    WhyLeg,
    WhyPoint,
)
from olr.model.fault import Fault
from olr.model.late import Late
from olr.model.legs_and_lines import LegPaths, Legs, LineOfMap, Lines, OtherPath, ShorterPath
from olr.model.pieces import Pieces, Place, Spot, Spots
from olr.model.questions import What
from olr.model.reasons import Reason

Json = dict[str, Any]
Made = TypeVar("Made")

_RENAMED = {"class": "class_", "from": "from_", "not": "not_"}
_new = object.__new__
_set = object.__setattr__


class Lists(NamedTuple):
    """What is read late: texts, by their numbers, and the digest of the map's nodes and lines."""

    texts: Sequence[bytes]
    digest: str | None


def _made(kind: type[Made], members: Json) -> Made:
    """An object of a frozen dataclass with these members. Its own `__init__` sets one after the other, and takes four times as
    long: an answer has fifty objects or more."""
    made = _new(kind)
    _set(made, "__dict__", members)
    return made


def _all_made(kind: type[Made], all_members: Sequence[Json]) -> tuple[Made, ...]:
    """Objects of a frozen dataclass, as `_made` makes one: a call for each would take a third of the time."""
    made = []
    for members in all_members:
        one = _new(kind)
        _set(one, "__dict__", members)
        made.append(one)
    return tuple(made)


def _renamed(members: Json, **others: Any) -> Json:
    """Members with the names of the dataclasses, and others in place of some."""
    return {_RENAMED.get(name, name): value for name, value in members.items()} | others


def _pieces(number: int | None, lists: Lists) -> Pieces | None:
    return None if number is None else Pieces(lists.texts[number], lists.digest)


def _points(found: Sequence[Json]) -> tuple[Candidate, ...]:
    if found and "parts" in found[0]:
        for one in found:
            one["parts"] = _made(PenaltyParts, _renamed(one["parts"]))
    if found and "spot" in found[0]:
        for one in found:
            one["spot"] = Spot._make(one["spot"])
    return _all_made(Candidate, found)


def _shape(found: Json, lists: Lists) -> Shape:
    """Each part has the number of its list."""
    return _made(
        Shape,
        {
            name: None if number is None else Spots(lists.texts[number], lists.digest)
            for name, number in found.items()
        },
    )


def _matching(found: Json, lists: Lists) -> Matching:
    found["legs"] = LegsOfMatching(lists.texts[found["legs"]], lists.digest)
    found["points"] = Points(lists.texts[found["points"]], lists.digest)
    found["route"] = Pieces(lists.texts[found["route"]], lists.digest)
    if "outer" in found:
        found["outer"] = _pieces(found["outer"], lists)
        found["inner"] = _pieces(found["inner"], lists)
    else:
        found["earliest"] = Place._make(found["earliest"])
        found["latest"] = Place._make(found["latest"])
    if "shape" in found:
        found["shape"] = _shape(found["shape"], lists)
    if "spot" in found:
        spots = {name: Spot._make(spot) for name, spot in found["spot"].items()}
        found["spot"] = SpotsOnRoute(**spots)
    return _made(Matching, found)


class Points(Late[Candidate]):
    """The points of a matching."""

    __slots__ = ()

    def _read(self, text: bytes) -> tuple[Candidate, ...]:
        return _points(json.loads(text))


class LegsOfMatching(Late[Leg]):
    """The legs of a matching."""

    __slots__ = ()

    def _read(self, text: bytes) -> tuple[Leg, ...]:
        return _all_made(Leg, json.loads(text))


class Reasons(Late[Reason]):
    """The reasons of a place."""

    __slots__ = ()

    def _read(self, text: bytes) -> tuple[Reason, ...]:
        return _all_made(Reason, json.loads(text))


class Matchings(Late[Matching]):
    """The matchings of a page."""

    __slots__ = ()

    def _read(self, text: bytes) -> tuple[Matching, ...]:
        found, texts = _taken_apart(text)
        lists = Lists(texts, self.digest)
        return tuple([_matching(one, lists) for one in json.loads(found)])


def _page(found: Json, lists: Lists) -> Page:
    return Page(Matchings(lists.texts[found["matchings"]], lists.digest), found["next"])


def _candidates(found: Json, _: Lists) -> Candidates:
    return Candidates(tuple(map(_points, found["points"])))


def _places(found: Json, lists: Lists) -> Places:
    found["places"] = tuple([_place(one, lists) for one in found["places"]])
    if found.get("map_differs") is not None:
        found["map_differs"] = MapDiffers(**found["map_differs"])
    if "differs" in found:
        found["differs"] = tuple(found["differs"])
    return Places(**found)


def _place(found: Json, lists: Lists) -> PlaceOfReference:
    found["matching"] = _matching(found["matching"], lists)
    if (reasons := found.get("reasons")) is not None:
        found["reasons"] = Reasons(lists.texts[reasons], lists.digest) if reasons != [] else ()
    return _made(PlaceOfReference, found)


def _near(found: Json) -> NearLine:
    near = _renamed(found, not_=tuple(found["not"]))
    if "spot" in near:
        near["spot"] = Spot._make(near["spot"])
    return NearLine(**near)


def _pair(found: Json) -> Pair:
    better = None if found["better"] is None else Better(**_renamed(found["better"]))
    return Pair(**_renamed(found, better=better))


def _why(found: Json, _: Lists) -> Why:
    legs = tuple(
        WhyLeg(**_renamed(leg, pairs=tuple(map(_pair, leg["pairs"])))) for leg in found["legs"]
    )
    points = tuple(
        WhyPoint(tuple(map(_near, point["nearest"])), point["candidates"])
        for point in found["points"]
    )
    remedies = tuple(Remedy(**remedy) for remedy in found["remedies"])
    return Why(legs, points, remedies, Verdict(**found["verdict"]))


def _leg(found: Json, lists: Lists) -> LegPaths:
    other, shorter = found["other"], found["shorter"]
    made: Json = {"pieces": _pieces(found["pieces"], lists)}
    if other is not None:
        made["other"] = OtherPath(**_renamed(other, pieces=_pieces(other["pieces"], lists)))
    if shorter is not None:
        made["shorter"] = ShorterPath(**_renamed(shorter))
    return LegPaths(**_renamed(found, **made))


def _legs(found: Json, lists: Lists) -> Legs:
    return Legs(tuple(_leg(leg, lists) for leg in found["legs"]), found["matching"])


def _lines(found: Json, lists: Lists) -> Lines:
    for one in found["lines"]:
        if "shape" in one:
            one["shape"] = Spots(lists.texts[one["shape"]], lists.digest)
    return Lines(_all_made(LineOfMap, list(map(_renamed, found["lines"]))), found["more"])


_READERS: Mapping[str, Callable[[Json, Lists], Any]] = {
    "candidates": _candidates,
    "match": _page,
    "places": _places,
    "why": _why,
    "legs": _legs,
    "lines": _lines,
}


def number_of_candidates(answer: bytes) -> int:
    """How many candidates all points have together, by the answer to `candidates`, of which nothing else is read. Raises `ValueError` if it is
    another one."""
    if _BEGINNINGS.get(answer.partition(b":")[0]) != "candidates":
        raise ValueError("it doesn't begin as one")
    return answer.count(b'"penalty":')


def read_drawn(what: What, answer: bytes, digest: str | None) -> Page | Places:
    """As `read_answer`, of the GeoJSON of `match` or `places`: each matching has its `geometry`, and no `shape`."""
    with _as_answer(what):
        text, texts = _taken_apart(answer)
        lists, found = Lists(texts, digest), json.loads(text)
        drawn = [_drawn(feature, lists) for feature in found.pop("features")]
        if what == "match":
            return Page(tuple([_matching(one, lists) for one in drawn]), found["next"])
        del found["type"]
        return _places({**found, "places": drawn}, lists)


def _drawn(feature: Json, lists: Lists) -> Json:
    """The members of a matching or place, which has the geometry of its feature."""
    members: Json = feature["properties"]
    geometry = feature["geometry"]
    # A point along a line has no part, and its coordinates are two numbers.
    members.pop("part", None)
    if geometry is not None:
        at = geometry["coordinates"]
        text = lists.texts[at] if isinstance(at, int) else json.dumps([at]).encode()
        members.get("matching", members)["geometry"] = text
    return members


def reference(text: bytes) -> Reference:
    """What `show` prints. Raises `ValueError` if it is something else."""
    with _as_answer("show"):
        found = json.loads(text)
        points = tuple(ReferencePoint(**_renamed(point)) for point in found["points"])
        return Reference(**_renamed(found, points=points))


_BEGINNINGS: Mapping[bytes, What] = {
    b'{"points"': "candidates",
    b'{"matchings"': "match",
    b'{"cut"': "places",
    b'{"looked"': "places",
    b'{"legs"': "why",
}
"""How an answer to each question begins."""
_ANSWER, _BEHIND = b'{"answer":', b',"fault":'


_MATCHINGS, _NEXT = b'{"matchings":[', b'],"next":'


_LISTS = re.compile(
    rb"""(\[(?:
        \[[^"]*\]\]  # of pieces or spots: no name is in them
        |\{"(?:at|greatest|length)":(?:[^]]*\])+?(?<=\}\])  # the points and legs of a matching, and reasons
    ))""",
    re.VERBOSE,
)
"""The lists of which an answer is nearly all."""


class RawLine(NamedTuple):
    """A line of `olr answer`, or `olr batch`, taken apart."""

    answer: bytes
    """The program's JSON, `null` where there is a fault."""
    fault: str | None
    key: str | None
    record: int


def raw_line(line: bytes) -> RawLine:
    """A line of `olr batch`, of which the answer isn't read. Raises `ValueError` if it isn't such a line."""
    # No text within has these bytes, whose quotes would be escaped there.
    end = line.rfind(_BEHIND)
    if end < 0 or not line.startswith(_ANSWER):
        raise ValueError("it doesn't begin as one")
    answer = line[len(_ANSWER) : end]
    with _as_answer("a record"):
        about = json.loads(b"{" + line[end + 1 :])
        raw = RawLine(answer, about["fault"], about["key"], about["record"])
        texts = all(isinstance(it, (str, type(None))) for it in (raw.fault, raw.key))
        if not texts or not isinstance(raw.record, int):
            raise ValueError("it has no record")
        if not (answer[:1] == b"{" if raw.fault is None else answer == b"null"):
            raise ValueError("it has an answer and a fault, or neither")
        return raw


def line_of(line: bytes, digest: str | None = None) -> tuple[str | None, int, AnswerOrFault]:
    """What a line of `olr batch` has: the key, the number of the record, and the answer to whichever question, of a map of that digest.
    Raises `ValueError` if it isn't such a line."""
    raw = raw_line(line)
    if raw.fault is not None:
        return raw.key, raw.record, Fault(raw.fault)
    what = _BEGINNINGS.get(raw.answer.partition(b":")[0])
    if what is None:
        raise ValueError("it doesn't begin as one")
    return raw.key, raw.record, read_answer(what, raw.answer, digest)


def read_answer(what: What, answer: bytes, digest: str | None) -> Answer:
    """What the JSON of an answer says, of a map of that digest. Raises `ValueError` if it isn't an answer to that question."""
    found: Answer = read_any(what, answer, digest)
    return found


def read_any(what: str, answer: bytes, digest: str | None) -> Any:
    """As `read_answer`, of `legs` and `lines` too."""
    texts: Sequence[bytes] = ()
    with _as_answer(what):
        if what == "match":
            answer, texts = _without_matchings(answer)
        elif what in ("places", "legs", "lines"):
            answer, texts = _taken_apart(answer)
        return _READERS[what](json.loads(answer), Lists(texts, digest))


@contextmanager
def _as_answer(what: str) -> Iterator[None]:
    """Raises `ValueError` for all that is wrong with an answer."""
    try:
        yield
    except (KeyError, TypeError, IndexError, AttributeError) as error:
        raise ValueError(f"{what} isn't answered so: {error!r}") from error


def _taken_apart(line: bytes) -> tuple[bytes, list[bytes]]:
    """A line with numbers in place of its lists, from 0, and these lists."""
    parts = _LISTS.split(line)
    lists = parts[1::2]
    parts[1::2] = map(b"%d".__mod__, range(len(lists)))
    return b"".join(parts), lists


def _without_matchings(line: bytes) -> tuple[bytes, list[bytes]]:
    """A line with 0 in place of its list of matchings, and that list; or a line that has none as it is."""
    end = line.rfind(_NEXT) + 1
    if not (end and line.startswith(_MATCHINGS)):
        return line, []
    begin = len(_MATCHINGS) - 1
    return b"%b0%b" % (_MATCHINGS[:-1], line[end:]), [line[begin:end]]
