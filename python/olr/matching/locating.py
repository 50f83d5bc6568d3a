"""A table of references, and where each of them is: `olr.locate`."""

from collections.abc import Hashable, Iterable, Iterator
from contextlib import closing
from typing import Any

from olr.client.given_map import MapOrPath, opened
from olr.extras import needed_by
from olr.messages.message import Base64
from olr.messages.texts import plain_base64, require_base64
from olr.model.fault import Fault
from olr.model.questions import LIKELY
from olr.progress import watched

with needed_by("olr.locate", "geo"):
    import geopandas
    import pandas

    from olr.confidence.choosing import chosen_for
    from olr.confidence.confidence import Confidence
    from olr.matching.columns import ANSWERS
    from olr.matching.geodataframe import ASKED_WITH, CRS, to_geodataframe
    from olr.matching.kept_columns import kept_name
    from olr.matching.rows import Extent, Located, require_extent


def locate(
    data: "pandas.DataFrame | pandas.Series",
    ref: Hashable = None,
    map: MapOrPath | None = None,
    *,
    places: bool = True,
    part: Extent = "outer",
    confidence: "Confidence | None" = None,
    prefix: str = "",
    base64: Base64 = "plain",
) -> "geopandas.GeoDataFrame":
    """Where each reference of a table is: the rows of `data`, in their order and with their index and columns, and behind them the columns
    of `to_geodataframe` of the likeliest place of each, in metres and degrees (EPSG:4326). docs/COLUMNS.md has these.

    All columns of `data` stay. One that has a name of the answers', in whatever case, gets `kept_` in front, as `--keep` of the commands has
    it: `fault` of the table is `kept_fault`, and `fault` is that of the answers. If that is there too it is `kept_fault_2`. With a `prefix`,
    which stands before the names of the answers, yours stay as they are.

    `data` is a DataFrame whose column `ref` has the references, or a Series of them, which becomes a column of that name: by default its
    own. `map` is an `olr.Map`, or the path of a folder or store, which is asked as `olr.Map(path)`: tolerances and profile are those of the
    map, and `attrs` of the result has its `asked_with`. With `places=False` it is the first matching in place of the likeliest place, and
    without probabilities.

    A cell that is empty, None or NaN has the fault `Empty`, and one of another type such as a number `BadCell` with the type: each row stays,
    and those without a place have no geometry. `fault` says why there is none.

    With `base64="url"` the references are in base64 for URLs: `-` and `_` in place of `+` and `/`, and perhaps without `=`. The table keeps them
    as they are.

    Probabilities are by the `confidence`, or else by that of the map. The one that comes with the package is for the profile `feed`: with other
    tolerances these columns are empty. `part` is that of the geometry, `outer` or `inner`.

    >>> import olr, pandas
    >>> jams = pandas.DataFrame({"ref": ["CwVF/yN2yRpnBAFUAAgbpwYBAf9kK0Fa", None], "delay_s": [300, 120]}, index=["a", "b"])
    >>> found = olr.locate(jams, "ref", "examples")
    >>> found[["delay_s", "verdict", "lines", "outer_m", "fault"]].values.tolist()
    [[300, 'unique', '104;107;201;501', 561.5, None], [120, 'fault', None, nan, 'Empty']]
    >>> found.index.tolist(), found.crs.to_string(), found.attrs
    (['a', 'b'], 'EPSG:4326', {'asked_with': {'profile': 'feed'}})

    Raises `ValueError` where `data` has more than one column `ref`, and for another part or base64; `KeyError` where it has none, and
    `TypeError` for other things than a table and a map. Raises `ToolError` where
    the `confidence` is for other tolerances, and as `Map.answers` where the map can't be asked: `MapRefused`, `ProgramNotFound`, `ProgramEnded`
    and `TimedOut`, with the number of the row from 1.
    """
    require_extent(part)
    require_base64(base64)
    if map is None:
        raise TypeError("locate needs a map: give an olr.Map, or the path of one")
    table, cells = _table_of(data, ref)
    columns = {name: f"{prefix}{name}" for name in (*ANSWERS, "geometry")}
    texts = [plain_base64(cell, base64) if isinstance(cell, str) else "" for cell in cells]
    with opened(map, confidence) as asked:
        if confidence is not None:
            chosen_for(asked, {}, is_named=True)
        answers: Iterator[Any] = (
            asked.answers("places", texts, shape=True, most=1, **LIKELY)
            if places
            else asked.answers("match", texts, page=1, shape=True)
        )
        with closing(watched(answers, "locating", len(texts))) as shown:
            found = to_geodataframe(
                _with_faults(shown, cells),
                asked,
                part=part,
                candidates=asked.answers("candidates", texts),
            )
    kept = pandas.DataFrame(table).rename(columns=_kept_names(table, columns.values()))
    result = kept.assign(**{new: found[name].array for name, new in columns.items()})
    located = geopandas.GeoDataFrame(result, geometry=columns["geometry"], crs=CRS)
    located.attrs = {**data.attrs, ASKED_WITH: asked.asked_with}
    return located


def _table_of(data: Any, ref: Hashable) -> "tuple[pandas.DataFrame, pandas.Series]":
    """A table, and its column of references. Raises `TypeError`, `KeyError` and `ValueError`."""
    if isinstance(data, pandas.Series):
        name = next((it for it in (ref, data.name) if it is not None), "ref")
        return data.to_frame(name), data
    if not isinstance(data, pandas.DataFrame):
        raise TypeError(
            f"locate takes a DataFrame or a Series, not {type(data).__name__}: give pandas.Series of references"
        )
    if ref is None:
        raise TypeError("locate needs the name of the column of references")
    if ref not in data.columns:
        raise KeyError(
            f"the table has no column {ref!r}: it has {', '.join(map(str, data.columns))}"
        )
    cells = data[ref]
    if not isinstance(cells, pandas.Series):
        raise ValueError(f"the table has more than one column {ref!r}: rename them")
    return data, cells


def _kept_names(table: "pandas.DataFrame", names: Iterable[str]) -> dict[Hashable, str]:
    """Other names for the columns of a table that have one of these names, in whatever case."""
    ours = {name.casefold() for name in names}
    labels = {label: label.casefold() for label in table.columns if isinstance(label, str)}
    taken = ours.union(labels.values())
    return {label: kept_name(label, ours, taken) for label in labels if labels[label] in ours}


def _with_faults(answers: Iterable[Located], cells: "pandas.Series") -> Iterator[Located]:
    """Answers, and in place of those to cells that are no texts a fault."""
    for answer, cell, is_missing in zip(answers, cells, cells.isna()):
        if isinstance(cell, str) or is_missing:
            yield answer
        else:
            yield Fault(f"BadCell {type(cell).__name__}")
