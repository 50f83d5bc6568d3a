"""The tables of answers. Each column stands below its name with the sentence of docs/COLUMNS.md about it. It needs no numpy."""

from collections.abc import Callable, Mapping, Sequence
from typing import TYPE_CHECKING, Any

from olr.matching.tables import Column, Columns, columns_of
from olr.messages.message import Message
from olr.model.answers import MapDiffers, Matching, PlaceOfReference, Places, Remedy, Why
from olr.model.fault import Fault
from olr.model.questions import What
from olr.model.reasons import sentence_of
from olr.model.road_map import Origin

if TYPE_CHECKING:
    from olr.matching.rows import AnswerRows, PieceRows, Row

Reasons = Why | Fault
Values = list[Any]
DIGITS = 3
"""Of probabilities behind the point."""


def of_rows(value: "Callable[[Row], Any]") -> "Callable[[AnswerRows], Values]":
    """What each row has of its answer."""
    return lambda rows: [value(row) for row in rows.rows]


def of_matchings(value: Callable[[Matching], Any]) -> "Callable[[AnswerRows], Values]":
    """What each row has of its matching, or of that of its place."""
    return lambda rows: [None if one is None else value(one) for one in rows.matchings]


def of_places(value: Callable[[PlaceOfReference], Any]) -> "Callable[[AnswerRows], Values]":
    """What each row has of its place."""
    return lambda rows: [None if one is None else value(one) for one in rows.places]


def of_first(value: Callable[[Places], Any]) -> "Callable[[AnswerRows], Values]":
    """What the first row of an answer has of all of its places."""
    return lambda rows: [None if one is None else value(one) for one in rows.firsts]


def of_difference(value: Callable[[MapDiffers], int]) -> "Callable[[AnswerRows], Values]":
    """What that row has of how different maps are."""
    return of_first(lambda it: it.map_differs and value(it.map_differs) / 1000)


def share(millionths: int | None) -> float | None:
    """A probability, 0 to 1, with the digits that are shown."""
    return None if millionths is None else round(millionths / 1_000_000, DIGITS)


def whole(fact: bool | None) -> int | None:
    """1 for what is so, and 0 for what isn't."""
    return None if fact is None else int(fact)


class Answers:
    """Those of matchings and of places, between the key and the geometry."""

    likely = Column("int64", of_rows(lambda it: it.likely))
    """of a place in the likely order of those that are shown, from 1"""
    rank = Column("int64", of_rows(lambda it: it.rank))
    """of the matching or place in the program's order, from 1: that of totals"""
    verdict = Column("str", of_rows(lambda it: it.verdict))
    """`match` or `none`; with `--places` `unique`, `ambiguous`, `open` or `none`, by totals; `fault` for a message that is refused"""
    probability = Column("float", of_places(lambda it: share(it.probability)))
    """how probable it is that the place is the right one, 0 to 1 ([CONFIDENCE.md](CONFIDENCE.md))"""
    none_of_these = Column("float", of_first(lambda it: share(it.none_of_these)))
    """once a message: how probable it is that none of all places that were found is the right one, 0 to 1"""
    map_differs = Column("float", of_difference(lambda it: it.value))
    """once a message: how different the map of the sender seems from yours, 0 as the same one and 1 as another vendor's"""
    map_differs_low = Column("float", of_difference(lambda it: it.low))
    """once a message: the lower end of its interval of 95 percent"""
    map_differs_high = Column("float", of_difference(lambda it: it.high))
    """once a message: the upper end"""
    total = Column("int64", of_matchings(lambda it: it.total))
    """penalty points in all: `point_penalty` and `leg_penalty` together"""
    point_penalty = Column["AnswerRows"]("int64", lambda rows: rows.penalties_of_points())
    """penalty points of the points of the reference: for distance, direction, class and form"""
    leg_penalty = Column["AnswerRows"]("int64", lambda rows: rows.penalties_of_legs)
    """penalty points of the paths between them: for their lengths"""
    gap = Column("int64", of_rows(lambda it: it.gap))
    """by how many points its total is worse than the best one"""
    margin = Column("int64", of_rows(lambda it: None if it.answer is None else it.answer.margin))
    """the gap of the second place in the program's order, whether it is shown or not"""
    ends_m = Column["AnswerRows"]("float", lambda rows: rows.ends_m())
    """how far the points of the place lie from the proper ends of their lines, all added up, in metres, 50 at most of each point: the start
    of a line, and for the last point its end"""
    turns_back = Column("int64", of_places(lambda it: whole(it.matching.turns_back)))
    """1 if the route of the place turns back, which with the usual bans is at a dead end, else 0"""
    members = Column("int64", of_places(lambda it: it.members))
    """how many matchings are this place"""
    candidates = Column("int64", of_rows(lambda it: it.candidates))
    """how many lines all points of the reference may lie on: those of each point, added up"""
    part = Column["AnswerRows"]("str", lambda rows: rows.parts())
    """which part of the location `lines` to `to_m` and the geometry are of: `outer`, which covers it, `inner`, which it covers at least, or
    `point`"""
    lines = Column["AnswerRows"]("str", lambda rows: rows.lines())
    """the ids of the lines of that part in the order of travel, with `;` between them"""
    sources = Column["AnswerRows"]("str", lambda rows: rows.texts(lambda it: it.source))
    """their sources, by the map's `ids.csv`, with `;` between them: one that several lines in a row have is there once"""
    names = Column["AnswerRows"]("str", lambda rows: rows.texts(lambda it: it.name))
    """their names, likewise; lines without a name are left out, so that lines of one name that have such between them count as in a
    row"""
    from_m = Column["AnswerRows"]("float", lambda rows: rows.from_m())
    """where the part begins, in metres from the start of its first line"""
    to_m = Column["AnswerRows"]("float", lambda rows: rows.to_m())
    """where it ends, in metres from the start of its last line"""
    outer_m = Column["AnswerRows"]("float", lambda rows: rows.outer_m())
    """the length of the outer part in metres"""
    inner_m = Column["AnswerRows"]("float", lambda rows: rows.inner_m())
    """the length of the inner part in metres: 0 where the location may be nothing"""
    reasons = Column("str", of_places(lambda it: sentence_of(it.reasons)))
    """why the place is no more probable: what alone halves its probability, or more, with `; ` between them"""
    cursor = Column("str", of_matchings(lambda it: it.cursor))
    """names the matching, as `olr match --after` takes it"""
    fault = Column("str", of_rows(lambda it: it.fault))
    """why a message is refused, in the program's words"""


def of_sources(value: Callable[[Origin], Any]) -> "Callable[[PieceRows], Values]":
    """What each piece has of the source of its line."""
    return lambda rows: rows.distinct.of_sources(value)


class Pieces:
    """Those of pieces of lines, between the key and the geometry."""

    rank = Column["PieceRows"]("int64", lambda rows: [row.rank for row in rows.rows])
    """of the matching or place, as in the answers"""
    part = Column["PieceRows"]("str", lambda rows: rows.parts)
    """`outer` or `inner`; of a point along a line `point`, for what lies between its two positions"""
    piece = Column["PieceRows"]("int64", lambda rows: rows.numbers)
    """the number of the piece along its part, from 1, in the order of travel"""
    line = Column["PieceRows"]("int64", lambda rows: rows.lines)
    """the id of the line in the map"""
    source = Column("str", of_sources(lambda it: it.source))
    """what the line was made of, by the map's `ids.csv`: the number of your link, or of a way"""
    source_part = Column("int64", of_sources(lambda it: it.part))
    """which part of it the line is, from 0, because links are cut at junctions"""
    direction = Column("str", of_sources(lambda it: it.direction))
    """`forward` where the line goes as the source is drawn, `backward` where it goes against it"""
    name = Column("str", of_sources(lambda it: it.name or None))
    """the source's name"""
    from_m = Column["PieceRows"]("float", lambda rows: rows.starts)
    """where the piece begins, in metres from the start of the line"""
    to_m = Column["PieceRows"]("float", lambda rows: rows.ends)
    """where it ends, in metres from the start of the line"""


def of_reasons(value: Callable[[Why], Any]) -> Callable[[Sequence[Reasons | None]], Values]:
    """What each row has of its answer to `why`, if it has one."""
    return lambda rows: [value(one) if isinstance(one, Why) else None for one in rows]


def words_of(rows: Sequence[Reasons | None]) -> Values:
    """What stands in the way, in a word for each row; None where nothing was asked."""
    return [
        None if one is None else "fault" if isinstance(one, Fault) else one.verdict.word
        for one in rows
    ]


def remedy_words(remedy: Remedy) -> str:
    """A remedy as an option with its value, such as `lowest 2`."""
    return remedy.option if remedy.value is None else f"{remedy.option} {remedy.value}"


class WhyNot:
    """Those of what `why` says, between the key and the geometry."""

    verdict = Column[Sequence[Reasons]]("str", words_of)
    """`crowded`, `point`, `leg` or `chain`: what stands in the way; `match` if nothing does; `fault` for a message that is refused"""
    at = Column("int64", of_reasons(lambda it: it.verdict.at))
    """at which point or leg, from 1"""
    remedies = Column("str", of_reasons(lambda it: ", ".join(map(remedy_words, it.remedies))))
    """options of the program that help, the first one to be tried first, each in the option's own unit: `slack 300` is in decimetres"""
    cursor = Column("str", of_reasons(lambda it: it.remedies[0].matching if it.remedies else None))
    """of the matching that the first remedy brings"""
    fault = Column[Sequence[Reasons]](
        "str", lambda rows: [one.text if isinstance(one, Fault) else None for one in rows]
    )
    """why a message is refused, in the program's words"""


class WhyNoPlace:
    """Those of what `why` says of messages without a place, behind the columns of answers."""

    why = Column("str", words_of)
    """what stands in the way, as the `verdict` of the [reasons](#reasons) says it; `fault` for a message that is refused"""
    at = WhyNot.at
    """at which point or leg, from 1"""
    remedies = WhyNot.remedies
    """options of the program that help, the first one to be tried first, each in the option's own unit"""
    remedy_cursor = WhyNot.cursor
    """of the matching that the first remedy brings"""


class InFront:
    """Those of messages, in front of all others in a file."""

    record = Column[Sequence[Message]]("int64", lambda messages: [one.record for one in messages])
    """the number of the message in its file, from 1"""
    key = Column[Sequence[Message]]("str", lambda messages: [one.key for one in messages])
    """its key, or nothing where it has none"""


ANSWERS: "Columns[AnswerRows]" = columns_of(Answers)
PIECES: "Columns[PieceRows]" = columns_of(Pieces)
REASONS: Columns[Sequence[Reasons]] = columns_of(WhyNot)
NO_PLACE: Columns[Sequence[Reasons | None]] = columns_of(WhyNoPlace)
IN_FRONT: Columns[Sequence[Message]] = columns_of(InFront)
OF_QUESTION: Mapping[What, Columns[Any]] = {"match": ANSWERS, "places": ANSWERS, "why": REASONS}
"""The columns of the table of answers to a question."""
