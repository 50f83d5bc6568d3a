"""Answers as rows: what the columns of some hundred of them are worked out of at once, and their geometries."""

import numpy as np
from collections.abc import Callable, Mapping, Sequence
from functools import cached_property
from itertools import groupby
from typing import TYPE_CHECKING, Any, Literal, NamedTuple, TypeVar, get_args

from olr.arrays import Booleans, Floats, Integers, sums_of
from olr.geometry.parts import Parts, Polylines, ends_of, members_of, parts_of, polylines_of
from olr.model.answers import Matching, Page, PlaceOfReference, Places
from olr.model.fault import Fault
from olr.model.pieces import Pieces, Spots, between
from olr.model.road_map import Origin
from olr.model.sources import HasSources

if TYPE_CHECKING:
    from olr.geometry.network import Network

Ground = HasSources
"""What rows have of a map besides the answers: where its lines came from."""
Located = Page | Places | Fault
"""An answer that says where a reference is."""
Extent = Literal["outer", "inner"]
"""What a location covers at most, or what at least."""
Item = TypeVar("Item")
BETWEEN = ";"
"""Stands between the lines, sources and names of a row."""


class Rows(NamedTuple):
    """Some rows of a table."""

    answers: Sequence[int]
    """The number of the answer of each row, from 0."""
    values: Mapping[str, Sequence[Any]]
    """The columns, in the order of the table."""
    shapes: Polylines
    """The geometry of each row: a size of 1 is a point, and a size of 0 none."""


def require_extent(part: str) -> None:
    """Raises `ValueError` for what is no `Extent`."""
    if part not in get_args(Extent):
        raise ValueError(f"part is outer or inner, not {part!r}")


class Row(NamedTuple):
    """A matching of an answer, or a place of it; or an answer that has none."""

    number: int
    """Of the answer, from 0."""
    candidates: int | None
    """How many all points of the reference have together, if that is known."""
    verdict: str
    answer: Places | None = None
    """The answer, if it is one to `places`."""
    rank: int | None = None
    gap: int | None = None
    matching: Matching | None = None
    place: PlaceOfReference | None = None
    likely: int | None = None
    """Of a place in the likely order, from 1: None in another one."""
    fault: str | None = None

    def is_point(self) -> bool:
        """Whether it is a point along a line."""
        return self.matching is not None and self.matching.earliest is not None

    def pieces(self, extent: Extent) -> Pieces | None:
        """What it covers; of a point along a line what lies between its two positions."""
        one = self.matching
        if one is None:
            return None
        if one.earliest is not None and one.latest is not None:
            return Pieces(between(one.route, one.earliest, one.latest))
        return one.outer if extent == "outer" else one.inner

    def shape(self, extent: Extent) -> Spots | bytes | None:
        """Where that lies; of a point along a line where its middle is. None too where nobody asked."""
        one = self.matching
        if one is None or one.shape is None:
            return None if one is None else one.geometry
        if one.spot is not None:
            return Spots([one.spot.middle])
        return one.shape.outer if extent == "outer" else one.shape.inner


def rows_of(answers: Sequence[Located], candidates: Sequence[int | None]) -> list[Row]:
    """A row for each matching of pages, and for each place of answers to `places`, in their order; one for an answer that has none."""
    return [
        row
        for number, one in enumerate(zip(answers, candidates, strict=True))
        for row in _rows(number, *one)
    ]


def _rows(number: int, answer: Located, count: int | None) -> list[Row]:
    """The rows of an answer."""
    if isinstance(answer, Fault):
        return [Row(number, count, "fault", fault=answer.text)]
    if isinstance(answer, Page):
        found = answer.matchings[:]
        return [
            Row(number, count, "match", None, rank, one.total - found[0].total, one)
            for rank, one in enumerate(found, 1)
        ] or [Row(number, count, "none")]
    whole = Row(number, count, answer.verdict, answer)
    return [
        whole._replace(
            rank=one.rank or at,
            gap=one.gap,
            matching=one.matching,
            place=one,
            likely=None if one.rank is None else at,
        )
        for at, one in enumerate(answer, 1)
    ] or [whole]


class AnswerRows:
    """Rows of answers."""

    def __init__(
        self, rows: Sequence[Row], sources: Ground | None = None, extent: Extent = "outer"
    ) -> None:
        """Rows that show the outer or the inner part of a location. Without `sources` nobody knows where lines came from."""
        self.rows, self._sources, self._extent = rows, sources, extent
        self.matchings = [row.matching for row in rows]
        self.places = [row.place for row in rows]
        self.firsts = [row.answer if row.place is None or row.likely == 1 else None for row in rows]
        """The answers, in the rows of their likeliest places, or of that they have none."""
        self._outers = [row.pieces("outer") for row in rows]
        self._outer = parts_of(self._outers)
        self._shown = self._outer
        if extent != "outer":
            self._shown = parts_of([row.pieces(extent) for row in rows])
        self._behind: Integers = np.cumsum(self._shown.counts)
        parts = self.parts()
        self._are_located: Booleans = np.array([one is not None for one in parts], dtype=np.bool_)
        self._are_points: Booleans = np.array([one == "point" for one in parts], dtype=np.bool_)

    @cached_property
    def penalties_of_legs(self) -> list[int | None]:
        """The penalty points of the paths of each matching."""
        legs = [one.legs for one in self.matchings if one is not None]
        (penalties,), counts = members_of(legs, ["penalty"])
        sums = iter(sums_of(penalties, counts).tolist())
        return [None if one is None else next(sums) for one in self.matchings]

    def penalties_of_points(self) -> list[int | None]:
        """The others of its total: its points needn't be read."""
        return [
            None if one is None or legs is None else one.total - legs
            for one, legs in zip(self.matchings, self.penalties_of_legs)
        ]

    def ends_m(self) -> list[float | None]:
        """How far the points of each place lie from the proper ends of their lines together: None without detail."""
        are_known = [
            row.place is not None and row.place.matching.cost is not None for row in self.rows
        ]
        known = [one.points for one, is_known in zip(self.matchings, are_known) if one and is_known]
        ends = iter(ends_of(known))
        return [next(ends) if is_known else None for is_known in are_known]

    def parts(self) -> list[str | None]:
        """What is shown."""
        return [
            None if one is None else self._extent if one.earliest is None else "point"
            for one in self.matchings
        ]

    def lines(self) -> list[str | None]:
        """The ids of its lines."""
        return [BETWEEN.join(some) or None for some in self._each(self._lines.texts())]

    def texts(self, text: Callable[[Origin], str]) -> list[str | None]:
        """Texts of the sources of its lines: one that several lines in a row have is there once."""
        words = self._lines.of_sources(text)
        if not any(words):
            return [None] * len(self.rows)
        return [
            BETWEEN.join([word for word, _ in groupby(filter(None, some))]) or None
            for some in self._each(words)
        ]

    def from_m(self) -> list[float | None]:
        """Where it begins on its first line."""
        there = self._shown.counts > 0
        first = (self._behind - self._shown.counts)[there]
        return _filled(there, self._shown.pieces[first, 1] / 10)

    def to_m(self) -> list[float | None]:
        """Where it ends on its last line."""
        there = self._shown.counts > 0
        return _filled(there, self._shown.pieces[self._behind[there] - 1, 2] / 10)

    def outer_m(self) -> list[float | None]:
        """The length of the outer part."""
        return _filled(self._are_located, _metres(self._outer)[self._are_located])

    def inner_m(self) -> list[float | None]:
        """The length of the inner part. Most references have no offsets, so that it is the outer one, which needn't be read twice."""
        there = self._are_located & ~self._are_points
        inners = [row.pieces("inner") for row in self.rows]
        others = [
            None if one is None or (outer is not None and one.text() == outer.text()) else one
            for one, outer in zip(inners, self._outers)
        ]
        are_others = [one is other for one, other in zip(inners, others)]
        metres = np.where(are_others, _metres(parts_of(others)), _metres(self._outer))
        return _filled(there, metres[there])

    @cached_property
    def shapes(self) -> Polylines:
        """The geometry of each row: the line of what is shown, or the point halfway between two positions."""
        return polylines_of([row.shape(self._extent) for row in self.rows])

    @cached_property
    def _lines(self) -> "_Lines":
        return _Lines(self._shown.pieces[:, 0], self._sources)

    def _each(self, words: Sequence[Item]) -> list[Sequence[Item]]:
        """The words of each row, of which each piece has one."""
        ends = zip(self._behind.tolist(), self._shown.counts.tolist())
        return [words[end - count : end] for end, count in ends]


class PieceRows:
    """Rows of the pieces of rows: those of the outer and of the inner part of each; of a point along a line those between its two positions,
    as the part `point`."""

    def __init__(
        self, rows: Sequence[Row], sources: Ground | None, network: "Network | None"
    ) -> None:
        """Without a network they have no geometries. Raises `MapRefused` if it is of another version of the map than an answer."""
        for row in rows:
            if row.matching is not None and network is not None:
                network.require_version_of(row.matching.route)
        extents: tuple[Extent, Extent] = ("outer", "inner")
        parts = [
            (row, "point" if row.is_point() else extent, row.pieces(extent))
            for row in rows
            for extent in (extents[:1] if row.is_point() else extents)
        ]
        found = parts_of([pieces for _, _, pieces in parts])
        counts = found.counts.tolist()
        self._pieces, self._network = found.pieces, network
        self.rows = [row for (row, _, _), count in zip(parts, counts) for _ in range(count)]
        self.parts = [part for (_, part, _), count in zip(parts, counts) for _ in range(count)]
        self.numbers = [number for count in counts for number in range(1, count + 1)]
        """Of the piece along its part, from 1."""
        self.lines: list[int] = found.pieces[:, 0].tolist()
        self.starts: list[float] = (found.pieces[:, 1] / 10).tolist()
        self.ends: list[float] = (found.pieces[:, 2] / 10).tolist()
        self.distinct = _Lines(found.pieces[:, 0], sources)

    @property
    def shapes(self) -> Polylines:
        """The line of each row."""
        if self._network is None:
            return polylines_of([None] * len(self._pieces))
        return self._network.polylines(self._pieces, np.ones(len(self._pieces), dtype=np.int64))


class _Lines:
    """Lines of which many are there several times: what they have is worked out once."""

    def __init__(self, lines: Integers, sources: Ground | None) -> None:
        """By their ids."""
        ids, self._numbers = np.unique(lines, return_inverse=True)
        self._ids: list[int] = ids.tolist()
        self._sources = sources

    def texts(self) -> list[str]:
        """The ids."""
        return self._each(list(map(str, self._ids)))

    def of_sources(self, value: Callable[[Origin], Item]) -> list[Item | None]:
        """What the source of each line has, if there is one."""
        if not self._origins:
            return [None] * len(self._numbers)
        return self._each([None if one is None else value(one) for one in self._origins])

    @cached_property
    def _origins(self) -> list[Origin | None]:
        """Of each line; nothing where nobody knows one."""
        if self._sources is None or not self._ids:
            return []
        found = self._sources.sources()
        return [found.get(line) for line in self._ids] if found else []

    def _each(self, values: Sequence[Item]) -> list[Item]:
        result: list[Item] = np.array(values, dtype=object)[self._numbers].tolist()
        return result


def _metres(parts: Parts) -> Floats:
    """The length of each part."""
    result: Floats = sums_of(parts.pieces[:, 2] - parts.pieces[:, 1], parts.counts) / 10
    return result


def _filled(there: Booleans, values: Floats) -> list[float | None]:
    """The values of the rows that have one."""
    found = np.full(len(there), None)
    found[there] = values
    result: list[float | None] = found.tolist()
    return result
