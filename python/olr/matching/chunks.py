"""Answers that say where references are, in chunks of some hundred rows."""

from collections.abc import Iterable, Iterator, Sequence
from functools import cached_property
from typing import TYPE_CHECKING, Generic, NamedTuple, TypeVar

from olr.matching.columns import ANSWERS, PIECES
from olr.matching.rows import AnswerRows, Extent, Ground, Located, PieceRows, Row, Rows, rows_of
from olr.matching.tables import values_of
from olr.model.answers import AnswerOrFault, Candidates, Page, Places
from olr.model.fault import Fault

if TYPE_CHECKING:
    from olr.geometry.network import Network

Item = TypeVar("Item")
Counted = Candidates | Fault | int | None
"""An answer to `candidates`, or how many it has; None where nobody asked."""
ROWS = 500
"""So many rows are made at once, or some more: those of one answer stay together."""


class Answered(NamedTuple, Generic[Item]):
    """An answer to `match` or `places`."""

    item: Item
    """What it belongs to, such as a message."""
    answer: AnswerOrFault
    candidates: Counted = None


class Chunk(Generic[Item]):
    """Some answers."""

    def __init__(self, answered: Sequence[Answered[Item]], sources: Ground | None) -> None:
        """See `chunks_of`."""
        self._sources = sources
        self._counts = [_number_of(one.candidates) for one in answered]
        self.items = [one.item for one in answered]
        self.answers = [_located(one.answer) for one in answered]

    def cut_off(self) -> int:
        """How many answers may lack a place that would be shown: looking was cut off before."""
        return sum(isinstance(one, Places) and bool(one.cut) for one in self.answers)

    def rows(self, extent: Extent = "outer") -> Rows:
        """The table of answers: of lines the outer or the inner part. They have the geometries that were asked for. Raises as `Sources`."""
        made = AnswerRows(self._rows, self._sources, extent)
        return Rows([row.number for row in made.rows], values_of(ANSWERS, made), made.shapes)

    def pieces(self, network: "Network | None") -> Rows:
        """The table of pieces, which have geometries if a network is given. Raises `ToolError` if it hasn't a line of an answer, `MapRefused`
        if it is of another version of the map, and as `Sources`."""
        made = PieceRows(self._rows, self._sources, network)
        return Rows([row.number for row in made.rows], values_of(PIECES, made), made.shapes)

    @cached_property
    def _rows(self) -> list[Row]:
        return rows_of(self.answers, self._counts)


def chunks_of(answered: Iterable[Answered[Item]], sources: Ground | None) -> Iterator[Chunk[Item]]:
    """Answers in chunks of some hundred rows. Raises `TypeError` for an answer to another question."""
    some: list[Answered[Item]] = []
    rows = 0
    for one in answered:
        some.append(one)
        rows += _count(_located(one.answer))
        if rows >= ROWS:
            yield Chunk(some, sources)
            some, rows = [], 0
    if some:
        yield Chunk(some, sources)


def _located(answer: AnswerOrFault) -> Located:
    """An answer that says where a reference is. Raises `TypeError` for another one."""
    if isinstance(answer, (Page, Places, Fault)):
        return answer
    raise TypeError(f"{type(answer).__name__} has no matchings: ask match or places")


def _count(answer: Located) -> int:
    """How many rows an answer has at most."""
    if isinstance(answer, Fault):
        return 1
    return max(1, len(answer.matchings if isinstance(answer, Page) else answer.places))


def _number_of(counted: Counted) -> int | None:
    """How many candidates all points of a reference have together."""
    if isinstance(counted, Candidates):
        return sum(map(len, counted.points))
    return counted if isinstance(counted, int) else None
