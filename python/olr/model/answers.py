"""The answers of `olr`, with the names of its JSON. Names that are words of Python end with `_`: `class_`, `from_`, `not_`.

Lengths and positions on lines are in decimetres, distances in centimetres, coordinates in microdegrees. What isn't there is None, and so is
what is said with `detail=True`, `shape=True` or `order="likely"` alone, where it wasn't asked for. docs/specification has what each of them means.
"""

from collections.abc import Iterator, Mapping, Sequence
from dataclasses import dataclass
from typing import Any, Literal, TypeVar

from olr.model.display import Displayed, Point, asked_for, counted, plain
from olr.model.fault import Fault
from olr.model.pieces import Pieces, Place, Spot, Spots
from olr.model.reasons import Reason

Known = TypeVar("Known")
MOST_IDS = 6
"""So many ids of lines stand in a table."""


class AboutReference(Displayed):
    """An answer about a reference on a map."""

    ref: str | None = None
    """The text that was asked about; None where that isn't known. It is no part of the answer, and not of its JSON."""
    asked_with: Mapping[str, Any] | None = None
    """`Map.asked_with` of the map that was asked; None where that isn't known. It is no part of the answer either."""

    def _spots(self) -> Sequence[Point]:
        from olr.model.reference import read_reference

        reference = None if self.ref is None else read_reference(self.ref)
        return () if reference is None else reference._spots()


def about(answer: Known, ref: str, asked_with: Mapping[str, Any] | None = None) -> Known:
    """An answer that was just read, which knows its reference and how it was asked from now on. A fault stays as it is."""
    if isinstance(answer, AboutReference):
        object.__setattr__(answer, "ref", ref)
        object.__setattr__(answer, "asked_with", asked_with)
    return answer


@dataclass(frozen=True)
class ReferencePoint:
    """A point of a reference."""

    class_: int
    form: int
    lat: int
    lon: int
    sector: int
    interval: int | None = None
    """None at the last point, as `lowest`."""
    lowest: int | None = None


@dataclass(frozen=True, repr=False)
class Reference(Displayed):
    """What a reference says, without any map: the answer of `olr.decode`. Coordinates of points are in microdegrees, sectors are of 11.25
    degrees, intervals of 58.6 metres, and offsets in 256ths of the first and of the last leg.

    >>> import olr
    >>> reference = olr.decode("CwVF/yN2yRpnBAFUAAgbpwYBAf9kK0Fa")
    >>> reference
    <Reference: line, 3 points>
    >>> reference.points[0].lat / 1e6, reference.points[0].sector * 11.25, reference.positive
    (49.871246, 78.75, 90)
    """

    kind: Literal["line", "point-along-line"]
    points: tuple[ReferencePoint, ...]
    positive: int | None = None
    negative: int | None = None
    orientation: int | None = None
    """None for a line, as `side`."""
    side: int | None = None

    def _absent(self) -> Sequence[str]:
        return ("orientation", "side") if self.kind == "line" else ("negative",)

    def _summary(self) -> str:
        return f"{self.kind}, {counted(len(self.points), 'point')}"

    def _rows(self) -> Sequence[Mapping[str, object]]:
        return [
            {"point": number, **plain(point), "lat": point.lat / 1e6, "lon": point.lon / 1e6}
            for number, point in enumerate(self.points, 1)
        ]

    def _spots(self) -> Sequence[Point]:
        return [(point.lon / 1e6, point.lat / 1e6) for point in self.points]


@dataclass(frozen=True)
class PenaltyParts:
    """What the penalty of a candidate is the sum of, in penalty points: what it costs that the point lies beside the line, and that their
    directions, classes and forms differ."""

    bearing: int
    class_: int
    distance: int
    form: int


@dataclass(frozen=True)
class Candidate:
    """A line on which a point may lie, and where: the position in decimetres, the penalty in points. From `parts` on all is None but with
    `detail`, and `spot` but with `shape`."""

    at: int
    line: int
    penalty: int
    parts: PenaltyParts | None = asked_for()
    distance: int | None = asked_for()
    """From the point to the line, in centimetres."""
    sectors: int | None = asked_for()
    """By how many sectors of 11.25 degrees the directions differ, 0 to 16."""
    classes: int | None = asked_for()
    """By how many the classes differ."""
    form: int | None = asked_for()
    """That of the line."""
    end: int | None = asked_for()
    """How far it lies from the proper end of its line, in decimetres: from the start, and for the last point from the end."""
    spot: Spot | None = asked_for()
    """Where it is, in microdegrees."""


@dataclass(frozen=True, repr=False)
class Candidates(AboutReference):
    """The candidates of each point, by rank: the answer of `Map.candidates`. Positions are in decimetres, penalties in points.

    >>> import olr
    >>> with olr.Map("examples") as town:
    ...     found = town.candidates("CwVF/yN2yRpnBAFUAAgbpwYBAf9kK0Fa")
    ...
    >>> found
    <Candidates: 3 points, 1 + 2 + 2 lines>
    >>> found.points[0][0]
    Candidate(at=13, line=104, penalty=3)
    >>> with olr.Map("examples") as town:
    ...     found = town.candidates("CwVF/yN2yRpnBAFUAAgbpwYBAf9kK0Fa", detail=True)
    ...
    >>> found.points[0][0].distance / 100, found.points[0][0].parts.class_
    (2.57, 0)
    """

    points: tuple[tuple[Candidate, ...], ...]

    def _summary(self) -> str:
        numbers = " + ".join(str(len(point)) for point in self.points)
        return f"{counted(len(self.points), 'point')}, {numbers} lines"

    def _rows(self) -> Sequence[Mapping[str, object]]:
        return [
            {"point": number, "rank": rank, **plain(one)}
            for number, point in enumerate(self.points, 1)
            for rank, one in enumerate(point, 1)
        ]


@dataclass(frozen=True)
class Leg:
    """The path from one point to the next one: its length in decimetres, its penalty in points. The others are None but with `detail`."""

    length: int
    penalty: int
    least: int | None = asked_for()
    """The least length that the reference tells, in decimetres, without tolerances; and so the `greatest` one."""
    greatest: int | None = asked_for()
    limit: int | None = asked_for()
    """The greatest class that its lines may have."""


@dataclass(frozen=True)
class Shape:
    """Where the route of a matching lies, and its parts: None for a part that is none."""

    route: Spots
    outer: Spots | None = None
    """None for a point along a line, as `inner`."""
    inner: Spots | None = None

    def _absent(self) -> Sequence[str]:
        # The program's JSON has null for a part that is none: that of a point along a line has no parts.
        return () if "outer" in vars(self) else ("outer", "inner")


@dataclass(frozen=True)
class SpotsOnRoute:
    """Where the places of a point along a line are, and their middle."""

    earliest: Spot
    latest: Spot
    middle: Spot


class OnTheEarth(Displayed):
    """What may have been asked for with where it lies."""

    geometry: bytes | None = None
    """Of one part of it, or of the middle of a point along a line: the coordinates of its points in degrees, as an array of GeoJSON. None where
    nobody asked for it. It is no part of the answer, and not of its JSON."""


@dataclass(frozen=True, repr=False)
class Matching(OnTheEarth):
    """One way in which a reference fits the map. Lengths and positions are in decimetres, penalties in points.

    >>> import olr
    >>> with olr.Map("examples") as town:
    ...     best = town.match("CwVF/yN2yRpnBAFUAAgbpwYBAf9kK0Fa").matchings[0]
    ...
    >>> best
    <Matching: total 12, 4 lines, 561.5 m, cursor 12:1.1.1>
    >>> best.outer[0], best.outer.length()
    (Piece(line=104, from_=879, to=2435), 5615)
    """

    cursor: str
    legs: Sequence[Leg]
    points: Sequence[Candidate]
    route: Pieces
    total: int
    outer: Pieces | None = None
    inner: Pieces | None = None
    earliest: Place | None = None
    """Of a point along a line, as `latest`; None for a line."""
    latest: Place | None = None
    cost: int | None = asked_for()
    """The likely cost, in thirtieths of a penalty point. None but with `detail`, as `turns_back`."""
    turns_back: bool | None = asked_for()
    """Whether the route goes from a line to one that leads back along it."""
    shape: Shape | None = asked_for()
    """None but with `shape`."""
    spot: SpotsOnRoute | None = asked_for()
    """None but with `shape`, of a point along a line."""

    def _absent(self) -> Sequence[str]:
        return ("earliest", "latest") if self.earliest is None else ("outer", "inner")

    def _summary(self) -> str:
        row = self._row()
        return f"total {self.total}, {counted(len(self._covered()), 'line')}, {row['metres']} m, cursor {self.cursor}"

    def _row(self) -> dict[str, object]:
        """What its table and those of others have of it."""
        covered = self._covered()
        lines = [str(piece.line) for piece in covered[:MOST_IDS]]
        more = ["..."] if len(covered) > MOST_IDS else []
        return {
            "total": self.total,
            "lines": " ".join(lines + more),
            "metres": covered.length() / 10,
            "cursor": self.cursor,
        }

    def _rows(self) -> Sequence[Mapping[str, object]]:
        return [self._row()]

    def _covered(self) -> Pieces:
        """Where the location lies: the outer part, and of a point along a line the route."""
        return self.outer or self.route

    def _routes(self) -> Sequence[Spots | None]:
        shape = self.shape
        return [None if shape is None else shape.outer or shape.route]


@dataclass(frozen=True, repr=False)
class Page(AboutReference):
    """The first matchings, best first: the answer of `Map.match`. It has the length of its matchings, can be gone through, and is false without
    any.

    >>> import olr
    >>> with olr.Map("examples") as town:
    ...     page = town.match("CwVF+yN2yhpnBAFdAAsaFg==", page=3)
    ...
    >>> page
    <Page: 3 matchings, total 12 to 31, more behind 31:1.2>
    >>> [matching.total for matching in page.matchings]
    [12, 16, 31]
    >>> len(page), [matching.total for matching in page]
    (3, [12, 16, 31])
    """

    matchings: Sequence[Matching]
    next: str | None = None
    """A cursor if there are more."""

    def __len__(self) -> int:
        return len(self.matchings)

    def __iter__(self) -> Iterator[Matching]:
        return iter(self.matchings)

    def _summary(self) -> str:
        found = self.matchings
        if not found:
            return "no matching"
        totals = f"{found[0].total} to {found[-1].total}" if len(found) > 1 else found[0].total
        more = "" if self.next is None else f", more behind {self.next}"
        return f"{counted(len(found), 'matching')}, total {totals}{more}"

    def _rows(self) -> Sequence[Mapping[str, object]]:
        return [{"matching": number, **one._row()} for number, one in enumerate(self.matchings, 1)]

    def _routes(self) -> Sequence[Spots | None]:
        return [route for one in self.matchings for route in one._routes()]


@dataclass(frozen=True)
class MapDiffers:
    """How different the sender's map is, in thousandths: 0 as the same map, 1000 as that of another vendor, with an interval of 95 percent."""

    high: int
    low: int
    value: int


@dataclass(frozen=True, repr=False)
class PlaceOfReference(Displayed):
    """Matchings that cover one stretch of road, of which `matching` is the best one. `gap` is in penalty points."""

    gap: int
    matching: Matching
    members: int
    rank: int | None = asked_for()
    """By totals, from 1, among all places that were looked at. None but in the likely order, as `cost`."""
    cost: int | None = asked_for()
    """The likely cost, in thirtieths of a penalty point."""
    probability: int | None = None
    """How probable it is that the place is the right one, in millionths. None but in the likely order, as `reasons`, for a point along a line, and
    with other numbers than those of the confidence."""
    reasons: Sequence[Reason] | None = None
    """What alone halves it, or more."""

    def _absent(self) -> Sequence[str]:
        # The program's JSON has null where it says none, and no such member where it wasn't asked.
        return [name for name in ("probability", "reasons") if name not in vars(self)]

    def _summary(self) -> str:
        return f"gap {self.gap}, {counted(self.members, 'matching')}, {self.matching._summary()}"

    def _rows(self) -> Sequence[Mapping[str, object]]:
        return [{**self.matching._row(), "gap": self.gap, "matchings": self.members}]

    def _routes(self) -> Sequence[Spots | None]:
        return self.matching._routes()


@dataclass(frozen=True, repr=False)
class Places(AboutReference):
    """Whether a reference fits one place of the map, or several: the answer of `Map.places`. `margin` is in penalty points. It has the length of
    its places, can be gone through, and is false without any.

    >>> import olr
    >>> with olr.Map("examples/nodes.csv", "examples/lines.csv") as town:
    ...     found = town.places("CwVGnSN2zhvHCgDX/tIzAw==")
    ...
    >>> found
    <Places: ambiguous, 2 places, total 66, margin 7>
    >>> len(found), [(place.gap, place.matching.total) for place in found]
    (2, [(0, 66), (7, 73)])
    >>> found.to_dict()["places"][0]["matching"]["outer"][0]
    [107, 36, 2150]
    """

    looked: int
    places: tuple[PlaceOfReference, ...]
    verdict: Literal["unique", "ambiguous", "open", "none"]
    margin: int | None = None
    next: str | None = None
    cut: bool | None = asked_for()
    """Whether looking ended before a place that might be among them. None but in the likely order."""
    none_of_these: int | None = None
    """How probable it is that none of all places that were looked at is the right one, in millionths. It is None where places have no
    probability."""
    map_differs: MapDiffers | None = None
    """How different the sender's map is, if the confidence says it."""
    differs: tuple[str, ...] | None = None
    """The names of the numbers that are others than those of the confidence, so that it says nothing. None but in the likely order."""

    def _absent(self) -> Sequence[str]:
        return ("none_of_these", "map_differs", "differs") if self.differs is None else ()

    def __len__(self) -> int:
        return len(self.places)

    def __iter__(self) -> Iterator[PlaceOfReference]:
        return iter(self.places)

    def _summary(self) -> str:
        words: list[str] = [self.verdict]
        if self.places:
            words += [counted(len(self.places), "place"), f"total {self.places[0].matching.total}"]
        return ", ".join(words if self.margin is None else [*words, f"margin {self.margin}"])

    def _rows(self) -> Sequence[Mapping[str, object]]:
        found = enumerate(self.places, 1)
        return [{"place": number, **row} for number, one in found for row in one._rows()]

    def _routes(self) -> Sequence[Spots | None]:
        return [route for one in self.places for route in one._routes()]


@dataclass(frozen=True)
class NearLine:
    """A line near a point, and the conditions that it fails."""

    at: int
    class_: int
    distance: int
    form: int
    line: int
    not_: tuple[str, ...]
    penalty: int | None = None
    sector: int | None = None
    spot: Spot | None = asked_for()
    """Where it is nearest to the point, in microdegrees. None but with `shape`."""


@dataclass(frozen=True)
class WhyPoint:
    """What is near a point."""

    nearest: tuple[NearLine, ...]
    candidates: int | None = None
    """None for more than 64."""


@dataclass(frozen=True)
class Better:
    """The least class limit under which there is a path, or a shorter one."""

    class_: int
    length: int


@dataclass(frozen=True)
class Pair:
    """Two candidates that a leg doesn't admit, by their ranks."""

    first: int
    second: int
    length: int | None = None
    long: int | None = None
    short: int | None = None
    better: Better | None = None


@dataclass(frozen=True)
class WhyLeg:
    """What a leg admits."""

    admits: int
    class_: int
    from_: int
    of: int
    pairs: tuple[Pair, ...]
    to: int


@dataclass(frozen=True)
class Remedy:
    """One change that helps."""

    option: str
    matching: str | None = None
    value: int | None = None


@dataclass(frozen=True)
class Verdict:
    """The first thing that stands in the way, or the word `match`."""

    word: Literal["crowded", "point", "leg", "chain", "match"]
    at: int | None = None


@dataclass(frozen=True, repr=False)
class Why(AboutReference):
    """Why a reference has no matching, and what would help: the answer of `Map.why`. A remedy's value is in the unit of its option.

    >>> import olr
    >>> with olr.Map("examples") as town:
    ...     why = town.why("CwVGnSN2zhunAwEB/2IrAQ==")
    ...
    >>> why
    <Why: leg 1, try radius 211, slack 1323, percent 59>
    >>> why.legs[0].admits, why.legs[0].from_, why.legs[0].to
    (0, 1194, 2995)
    """

    legs: tuple[WhyLeg, ...]
    points: tuple[WhyPoint, ...]
    remedies: tuple[Remedy, ...]
    verdict: Verdict

    def _summary(self) -> str:
        at = "" if self.verdict.at is None else f" {self.verdict.at}"
        found = (f"{one.option} {'' if one.value is None else one.value}" for one in self.remedies)
        helps = ", ".join(map(str.strip, found))
        return f"{self.verdict.word}{at}" + (f", try {helps}" if helps else "")

    def _rows(self) -> Sequence[Mapping[str, object]]:
        return [plain(one) for one in self.remedies]


Answer = Candidates | Page | Places | Why
AnswerOrFault = Candidates | Page | Places | Why | Fault
