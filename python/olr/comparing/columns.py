"""The table of changes. Each column stands below its name with the sentence of docs/COLUMNS.md about it."""

from collections.abc import Callable, Sequence
from typing import Any, Literal, NamedTuple, TypeVar

from olr.comparing.changes import Compared, Side
from olr.matching.columns import Answers, remedy_words
from olr.matching.rows import AnswerRows
from olr.matching.tables import Column, Columns, columns_of
from olr.model.answers import Why
from olr.model.fault import Fault

Item = TypeVar("Item")
DIGITS = 2
"""Of a metre: a centimetre."""


class ChangeRow(NamedTuple):
    """A reference on one of the maps."""

    reference: Compared
    which: Literal["old", "new"]
    side: Side

    def moved(self) -> float | None:
        """How far its places on both maps are apart."""
        return self.reference.difference and self.reference.difference.moved

    def alone(self) -> float | None:
        """The longest run that the other map lacks."""
        differs = self.reference.difference
        return differs and (differs.old_alone if self.which == "old" else differs.new_alone)


class ChangeRows(NamedTuple):
    """Two rows for each reference, of the old map and of the new one."""

    rows: Sequence[ChangeRow]
    old: AnswerRows
    """The row of each reference on the old map; and so on the new one."""
    new: AnswerRows


def of_rows(value: Callable[[ChangeRow], Any]) -> Callable[[ChangeRows], Sequence[Any]]:
    """What each row has of how its reference changes."""
    return lambda rows: [value(row) for row in rows.rows]


def of_answers(column: Column[AnswerRows]) -> Column[ChangeRows]:
    """A column that each table of answers has."""
    return Column(
        column.kind, lambda rows: alternating(column.values(rows.old), column.values(rows.new))
    )


def alternating(one: Sequence[Item], other: Sequence[Item]) -> list[Item]:
    """Items of both, one of each in turn."""
    return [item for pair in zip(one, other) for item in pair]


def rounded(metres: float | None) -> float | None:
    """A length to a centimetre."""
    return None if metres is None else round(metres, DIGITS)


def reason_of(why: Why | Fault | None) -> str | None:
    """What stands in the way of a reference, such as `leg 1`."""
    if not isinstance(why, Why):
        return None
    return why.verdict.word if why.verdict.at is None else f"{why.verdict.word} {why.verdict.at}"


def remedy_of(why: Why | Fault | None) -> str | None:
    """The remedy to try first, such as `lowest 2`."""
    return remedy_words(why.remedies[0]) if isinstance(why, Why) and why.remedies else None


class Changes:
    """Those behind the record and the key."""

    side = Column("str", of_rows(lambda it: it.which))
    """`old` or `new`: the map that the row is about"""
    change = Column("str", of_rows(lambda it: it.reference.change))
    """of both rows of a message: `same`, `moved`, `lost` (it has a place on the old map alone), `found` (on the new one alone), `none` (on
    neither) or `refused`"""
    certainty = Column("str", of_rows(lambda it: it.reference.certainty))
    """of both rows: `less` if the verdict was `unique` and isn't any more, `more` if it wasn't and is now, else `same`; nothing unless the
    message has a place on both maps"""
    agreement = Column("float", of_rows(lambda it: it.reference.agreement))
    """of both rows: the share of each other that the two places cover, the lesser of the two shares, 0 to 1; nothing unless the message has a
    place on both maps, of which one has a length"""
    verdict = of_answers(Answers.verdict)
    """`unique`, `ambiguous`, `open` or `none`; `fault` for a message that is refused"""
    probability = of_answers(Answers.probability)
    """how probable it is that the place is the right one, 0 to 1, by this map alone"""
    none_of_these = of_answers(Answers.none_of_these)
    """how probable it is that none of the places on this map is"""
    total = of_answers(Answers.total)
    """penalty points of the place"""
    margin = of_answers(Answers.margin)
    """by how many points the second place of the program is worse than its first one"""
    turns_back = of_answers(Answers.turns_back)
    """1 if the route to the place turns back, which with the usual bans is at a dead end, else 0"""
    moved_m = Column("float", of_rows(lambda it: rounded(it.moved())))
    """of both rows: how far the two places are apart at most, in metres (their Hausdorff distance; of points along lines their distance)"""
    alone_m = Column("float", of_rows(lambda it: rounded(it.alone())))
    """the longest stretch of this place that the other one lacks, in metres; nothing for a point along a line"""
    outer_m = of_answers(Answers.outer_m)
    """the length of the outer part in metres, as the map has it"""
    lines = of_answers(Answers.lines)
    """the ids of its lines in the order of travel, with `;` between them"""
    reason = Column("str", of_rows(lambda it: reason_of(it.side.why)))
    """why the message has no place on this map, such as `leg 1`: what `why` says, with its number"""
    remedy = Column("str", of_rows(lambda it: remedy_of(it.side.why)))
    """the option of the program to try first, in its own unit, such as `lowest 2`"""
    reasons = of_answers(Answers.reasons)
    """why the place is no more probable, with `; ` between them"""
    fault = Column("str", of_rows(lambda it: it.side.fault()))
    """why the message is refused by this map, in the program's words; or why it says no reason"""


CHANGES: Columns[ChangeRows] = columns_of(Changes)
