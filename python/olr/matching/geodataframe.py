"""Answers as tables with geometries. docs/COLUMNS.md says what is in each column."""

from collections.abc import Iterable, Iterator, Mapping, Sequence
from typing import Any

from olr.extras import needed_by
from olr.model.answers import AboutReference, Page, Places
from olr.model.fault import Fault
from olr.model.questions import many
from olr.model.sources import HasSources

with needed_by("olr.to_geodataframe", "geo"):
    import geopandas
    import numpy as np
    import pandas

    from olr.geometry.network import Network
    from olr.matching.chunks import Answered, Counted, chunks_of
    from olr.matching.columns import ANSWERS, PIECES
    from olr.matching.rows import Extent, Located, Rows, require_extent
    from olr.matching.shapes import wkb
    from olr.matching.tables import TYPES, Columns

CRS = "EPSG:4326"
ASKED_WITH = "asked_with"
"""The name in `attrs` of a table of how its answers were asked: as `olr.Map.asked_with` has it."""


def to_geodataframe(
    answers: Iterable[Located],
    sources: HasSources | None = None,
    keys: Iterable[object] | None = None,
    part: Extent = "outer",
    candidates: Iterable[Counted] | None = None,
) -> "geopandas.GeoDataFrame":
    """A row for each matching of pages, and for each place of answers to `places`, in the order of the answers, in metres and degrees
    (EPSG:4326).

    The geometry is the line of the outer or the inner part; of a point along a line it is the point halfway between its two places. Answers
    have it that were asked for with `shape=True`.
    An answer without a matching, and a fault, has one row without a geometry, so no reference is lost. `key` comes from `keys`, of
    which there have to be as many as answers, and else counts answers from 0. `candidates` are the answers to that question about
    the same references: without them nobody knows how many there are. Sources and names are those of `sources`, which is the map that was asked: without
    it these columns are empty.

    The columns of places are those of `olr-tools match --places` if the answers are asked for as it does: by `order="likely", detail=True,
    shape=True`. Without `order="likely"` there are no probabilities, `likely` is empty, and `rank` is the number in the answer; without
    `detail` `ends_m` and `turns_back` are empty. Probabilities are by the `confidence` of the map that was asked.

    >>> import olr
    >>> with olr.Map("examples") as town:
    ...     pages = town.matches(["CwVF/yN2yRpnBAFUAAgbpwYBAf9kK0Fa", "CwVGnSN2zhvHCgDX"], shape=True)
    ...     table = olr.to_geodataframe(pages, town, keys=["m1", "m2"])
    ...
    >>> table[["key", "verdict", "lines", "outer_m", "fault"]].values.tolist()
    [['m1', 'match', '104;107;201;501', 561.5, None], ['m2', 'fault', None, nan, 'BadLength 12']]
    >>> table.attrs
    {'asked_with': {'profile': 'feed'}}

    `attrs` has the `asked_with` of the maps that were asked, if it is the same for all answers that know it.

    The columns and their types are the same whatever is in them: `Int64`, `float64`, or `object` with texts or None. Raises `ValueError`
    for answers without geometries, if there are more keys than answers or fewer, or the part is another one, and `TypeError` for one answer or
    one key in place of many; and `ToolError` if the sources can't be read.
    """
    require_extent(part)
    if sources is not None and not hasattr(sources, "sources"):
        name = type(sources).__name__
        raise TypeError(f"to_geodataframe takes the map that was asked, not {name}")
    asked: list[Mapping[str, Any]] = []
    answered = map(_with_shape, _answered("to_geodataframe", asked, answers, keys, candidates))
    chunks = chunks_of(answered, sources)
    return _table(((one.items, one.rows(part)) for one in chunks), ANSWERS, keys is None, asked)


def to_pieces(
    answers: Iterable[Located], network: Network, keys: Iterable[object] | None = None
) -> "geopandas.GeoDataFrame":
    """A row for each piece of a line that an answer covers, in metres and degrees (EPSG:4326): those of the outer part of each matching
    or place, then those of its inner part. A point along a line has the part `point`: what lies between its two positions.

    `key` and `rank` are those of `to_geodataframe`, of the same answers. `piece` counts from 1 along a part. An answer that fits
    nothing has no row. Raises as `to_geodataframe`, `MapRefused` if the network is of another version of the map than an answer, and `ToolError` if
    it hasn't a line of one.

    >>> import olr
    >>> with olr.Map("examples") as town:
    ...     page = town.match("CwVF/yN2yRpnBAFUAAgbpwYBAf9kK0Fa")
    ...     pieces = olr.to_pieces([page], town.network())
    ...
    >>> pieces[["part", "line", "from_m", "to_m"]].values.tolist()[0]
    ['outer', 104, 87.9, 243.5]
    """
    if not isinstance(network, Network):
        name = type(network).__name__
        raise TypeError(f"to_pieces takes the network of a map, such as town.network(), not {name}")
    asked: list[Mapping[str, Any]] = []
    chunks = chunks_of(_answered("to_pieces", asked, answers, keys), network)
    rows = ((one.items, one.pieces(network)) for one in chunks)
    return _table(rows, PIECES, keys is None, asked)


def _with_shape(one: "Answered[object]") -> "Answered[object]":
    """An answer with geometries, or without any matching. Raises `ValueError` for another one."""
    found = one.answer
    if isinstance(found, Page):
        matchings = found.matchings[:1]
    else:
        matchings = [it.matching for it in found.places[:1]] if isinstance(found, Places) else []
    if any(it.shape is None for it in matchings):
        raise ValueError("these answers have no geometries: ask for them with shape=True")
    return one


def _answered(
    call: str,
    asked: list[Mapping[str, Any]],
    answers: Iterable[Located],
    keys: Iterable[object] | None,
    candidates: "Iterable[Counted] | None" = None,
) -> "Iterator[Answered[object]]":
    """Answers with what was given of each; without keys they are counted. `asked` gets each `asked_with` of them once. Raises `TypeError` for one
    in place of many, and `ValueError` where there are more or fewer."""
    if isinstance(answers, (Page, Places, Fault)):
        raise TypeError(f"{call} takes many answers, not one: give a list of it")
    others = {"keys": keys, "candidates": candidates}
    for name, items in others.items():
        if items is not None:
            many(f"{call} takes many {name}", items, "give a list, with one for each answer")
    columns = {"keys": keys, "answers": answers} | others
    given = {name: items for name, items in columns.items() if items is not None}
    for number, values in enumerate(zip(*given.values(), strict=True)):
        one: dict[str, Any] = {"keys": number} | dict(zip(given, values))
        answer = one["answers"]
        known = answer.asked_with if isinstance(answer, AboutReference) else None
        if known is not None and known not in asked:
            asked.append(known)
        yield Answered(one["keys"], answer, one.get("candidates"))


def _table(
    chunks: Iterable[tuple[Sequence[object], Rows]],
    columns: "Columns[Any]",
    are_counted: bool,
    asked: Sequence[Mapping[str, Any]],
) -> "geopandas.GeoDataFrame":
    """A table of rows, with the keys of their answers in front of these columns. It says how they were `asked`, if all were asked so: that
    is known once the last chunk is there."""
    keys: list[object] = []
    values: Mapping[str, list[Any]] = {name: [] for name in columns}
    geometries: list[bytes | None] = []
    for items, rows in chunks:
        keys.extend([items[number] for number in rows.answers])
        for name, found in rows.values.items():
            values[name].extend(found)
        geometries.extend(wkb(rows.shapes))
    kind = "int64" if are_counted else None if keys else "object"
    table = {"key": pandas.Series(keys, dtype=kind)} | {
        name: pandas.Series(found, dtype=TYPES[columns[name].kind])
        for name, found in values.items()
    }
    shapes = geopandas.array.from_wkb(np.array(geometries, dtype=object), crs=CRS)
    made = geopandas.GeoDataFrame(table, geometry=shapes, crs=CRS)
    made.attrs.update({ASKED_WITH: dict(asked[0])} if len(asked) == 1 else {})
    return made
