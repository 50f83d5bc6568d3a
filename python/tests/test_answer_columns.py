"""The columns of tables of answers, beside the program's JSON, and pieces beside the columns."""

import csv
import math
import numpy as np
import pandas
import pytest
import random
from dataclasses import replace
from pathlib import Path
from pyproj import Geod
from shapely.affinity import scale
from shapely.geometry import LineString
from shapely.ops import substring
from typing import Any

import olr
from asking import batch_of, draw_map, draw_references
from conftest import REFERENCE, TOP, Program
from olr.comparing.columns import CHANGES, Changes
from olr.matching.columns import (
    ANSWERS,
    NO_PLACE,
    PIECES,
    REASONS,
    Answers,
    Pieces,
    WhyNoPlace,
    WhyNot,
)
from olr.matching.tables import Columns, sentences_of
from olr.model.map_folder import read_map

ELLIPSOID = Geod(ellps="WGS84")
KIOSK = "KwVGnCN20HPDBwFCATFjT5Y="
UNMATCHED = "CwVGnSN2zhtnBgEB/2IjAQ=="
Row = dict[str, Any]


@pytest.fixture(scope="module")
def folder(tmp_path_factory: pytest.TempPathFactory) -> Path:
    """A drawn map, whose lines have sources: two lines in a row often share one, some have no name, and some aren't in `ids.csv`."""
    made = draw_map(tmp_path_factory.mktemp("drawn") / "map", 800, 1600)
    with (made / "ids.csv").open("w", encoding="utf-8", newline="") as stream:
        writer = csv.writer(stream)
        writer.writerow(("line", "source", "direction", "part", "name"))
        for line in read_map(made).lines:
            if line.id % 11:
                name = f"Gässchen {line.start % 3}" if line.end % 4 else ""
                writer.writerow((line.id, f"w{line.start % 5}", "forward", line.id % 7, name))
    return made


@pytest.fixture(scope="module")
def texts(folder: Path) -> list[str]:
    """References, some of which are damaged."""
    return draw_references(folder, 150)


def origins_of(folder: Path) -> dict[int, Row]:
    """The records of `ids.csv` by their lines."""
    with (folder / "ids.csv").open(encoding="utf-8", newline="") as stream:
        return {int(row["line"]): row for row in csv.DictReader(stream)}


def runs_of(values: list[str | None]) -> str | None:
    """Values in their order, where those in a row that are the same are there once."""
    kept: list[str] = []
    for before, value in zip([None, *values], values):
        if value and (value != before):
            kept.append(value)
    return ";".join(kept) or None


def expected(matching: Row, part: str, origins: dict[int, Row]) -> Row:
    """What a row has to say of a matching in the program's JSON."""
    pieces = matching[part] or []
    found: list[Row] = [origins.get(line, {}) for line, _, _ in pieces]
    names = [one["name"] for one in found if one.get("name")]
    sources = [one["source"] for one in found if one]
    return {
        "total": matching["total"],
        "point_penalty": sum(point["penalty"] for point in matching["points"]),
        "leg_penalty": sum(leg["penalty"] for leg in matching["legs"]),
        "part": part,
        "lines": ";".join(str(line) for line, _, _ in pieces) or None,
        "sources": runs_of(sources),
        "names": runs_of(names),
        "from_m": pieces[0][1] / 10 if pieces else None,
        "to_m": pieces[-1][2] / 10 if pieces else None,
        "outer_m": sum(to - at for _, at, to in matching["outer"] or []) / 10,
        "inner_m": sum(to - at for _, at, to in matching["inner"] or []) / 10,
        "cursor": matching["cursor"],
    }


def rows_of(table: pandas.DataFrame) -> list[Row]:
    """The rows of a table, with None for what isn't there."""
    plain = pandas.DataFrame(table.drop(columns="geometry")).astype(object)
    rows: list[Row] = plain.where(plain.notna(), None).to_dict("records")
    return rows


@pytest.mark.parametrize("part", ["outer", "inner"])
def test_columns_are_those_of_the_json(
    folder: Path, texts: list[str], program: Program, tmp_path: Path, part: Any
) -> None:
    records = tmp_path / "records"
    records.write_text("".join(f"{number}\t{text}\n" for number, text in enumerate(texts)))
    pages = batch_of(program, "match", records, ["--map", folder])
    candidates = batch_of(program, "candidates", records, ["--map", folder])
    origins = origins_of(folder)
    wanted: list[Row] = []
    for key, (page, points) in enumerate(zip(pages, candidates)):
        empty = dict.fromkeys(expected({**NOTHING, "outer": None, "inner": None}, part, {}))
        row: Row = {"key": key, "rank": None, "verdict": "none", "gap": None, "fault": None}
        row |= {**dict.fromkeys(OF_PLACES), "candidates": None, **empty}
        if isinstance(page, str):
            wanted.append(row | {"verdict": "fault", "fault": page})
            continue
        row["candidates"] = sum(map(len, points["points"]))
        for rank, matching in enumerate(page["matchings"], 1):
            about = {"rank": rank, "verdict": "match", "part": part}
            about["gap"] = matching["total"] - page["matchings"][0]["total"]
            wanted.append(row | expected(matching, part, origins) | about)
        if not page["matchings"]:
            wanted.append(row)
    with olr.Map.of_folder(folder, program=program.path, profile="program") as asked:
        table = olr.to_geodataframe(
            asked.matches(texts, shape=True),
            asked,
            part=part,
            candidates=asked.answers("candidates", texts),
        )
    assert len(wanted) > 300 and {row["verdict"] for row in wanted} == {"match", "fault"}
    assert any(row["sources"] and ";" in row["sources"] for row in wanted)
    assert any(row["names"] is None for row in wanted if row["lines"])
    assert rows_of(table) == [{name: row[name] for name in table.columns[:-1]} for row in wanted]
    for geometry, metres in zip(table.geometry, table["outer_m"]):
        if geometry is not None and part == "outer":
            assert 0.95 < ELLIPSOID.geometry_length(geometry) / metres < 1.005


OF_PLACES = [
    *("likely", "probability", "none_of_these", "margin", "ends_m", "turns_back", "members"),
    *("map_differs", "map_differs_low", "map_differs_high", "reasons"),
]
"""Columns that matchings don't have."""
NOTHING: Row = {"total": 0, "points": [], "legs": [], "cursor": ""}


def test_columns_by_hand(program: Program) -> None:
    """The first message of the guide, a kiosk, and one that fits nothing. The kiosk lies on line 701, 269.7 to 271.6 m along it."""
    texts = [REFERENCE, KIOSK, UNMATCHED]
    with olr.Map.of_folder(TOP / "examples", program=program.path, profile="program") as town:
        counted = town.answers("candidates", texts)
        answers = list(town.answers("places", texts, shape=True))
        table = olr.to_geodataframe(answers, town, list("abc"), candidates=counted)
        pieces = olr.to_pieces(answers, town.network(), list("abc"))
    first, kiosk, none = rows_of(table)
    assert (first["lines"], first["part"]) == ("104;107;201;501", "outer")
    assert (first["from_m"], first["to_m"]) == (87.9, 158.5)
    assert (first["outer_m"], first["inner_m"]) == (561.5, 560.5)
    assert (first["total"], first["point_penalty"], first["leg_penalty"]) == (8, 8, 0)
    assert (first["candidates"], first["members"], first["verdict"]) == (6, 1, "unique")
    assert (first["sources"], first["names"]) == (None, None)
    assert (kiosk["part"], kiosk["lines"], kiosk["inner_m"]) == ("point", "701", None)
    assert (kiosk["from_m"], kiosk["to_m"], kiosk["outer_m"]) == (269.7, 271.6, 1.9)
    assert (none["verdict"], none["lines"], none["outer_m"]) == ("none", None, None)
    assert none["candidates"] > 0
    parts = pieces[["key", "rank", "part", "piece", "line", "from_m", "to_m"]].values.tolist()
    assert parts[0] == ["a", 1, "outer", 1, 104, 87.9, 243.5]
    assert parts[4] == ["a", 1, "inner", 1, 104, 88.9, 243.5]
    assert parts[8:] == [["b", 1, "point", 1, 701, 269.7, 271.6]]


def test_a_line_that_is_there_twice_is_named_twice(program: Program) -> None:
    with olr.Map.of_folder(TOP / "examples", program=program.path) as town:
        page = town.match(REFERENCE, shape=True)
    (one, *_) = page.matchings
    assert one.outer is not None
    there_and_back = type(one.outer)([*one.outer[:2], one.outer[0]])
    page = replace(page, matchings=(replace(one, outer=there_and_back),))
    assert olr.to_geodataframe([page])["lines"].tolist() == ["104;107;104"]


def test_pieces_sum_to_the_lengths(folder: Path, texts: list[str], program: Program) -> None:
    origins = origins_of(folder)
    with olr.Map.of_folder(folder, program=program.path) as asked:
        answers = list(asked.matches(texts[:75], shape=True))
        table = olr.to_geodataframe(answers, asked)
        pieces = olr.to_pieces(answers, asked.network())
        network = asked.network()
    pieces["metres"] = pieces["to_m"] - pieces["from_m"]
    # Without geometries a group is made sooner.
    of_parts = pandas.DataFrame(pieces.drop(columns="geometry")).groupby(["key", "rank", "part"])
    sums = of_parts["metres"].sum()
    for row in rows_of(table[table["rank"].notna()]):
        where = (row["key"], row["rank"])
        for part in ("outer", "inner"):
            assert sums.get((*where, part), 0) == pytest.approx(row[f"{part}_m"], abs=1e-6)
        group = of_parts.get_group((*where, "outer"))
        assert ";".join(map(str, group["line"])) == row["lines"]
        assert group["piece"].tolist() == list(range(1, len(group) + 1))
        assert group["from_m"].iloc[0] == row["from_m"] and group["to_m"].iloc[-1] == row["to_m"]
    for one in rows_of(pieces):
        origin = origins.get(one["line"])
        name = None if origin is None else origin["name"] or None
        assert one["name"] == name
        assert one["source"] == (None if origin is None else origin["source"])
        assert one["source_part"] == (None if origin is None else int(origin["part"]))
        assert one["direction"] == (None if origin is None else "forward")
    some: Any = pieces.iloc[::37].itertuples()
    for piece in some:
        wanted = network.path([(piece.line, round(piece.from_m * 10), round(piece.to_m * 10))])
        assert np.allclose(piece.geometry.coords, wanted, rtol=0, atol=1e-12)


def test_types_never_change(program: Program) -> None:
    """Of tables and of pieces, whatever fits, with a source or without."""
    seen = set()
    with olr.Map.of_folder(TOP / "examples", program=program.path) as town:
        network = town.network()
        pages = list(town.matches([REFERENCE, KIOSK, "", UNMATCHED], shape=True))
    several: list[list[olr.Page | olr.Fault]]
    several = [[], pages[:1], pages[1:2], pages[2:3], pages[3:], pages]
    for answers in several:
        for keys in (None, list(map(str, range(len(answers))))):
            table = olr.to_geodataframe(answers, town, keys)
            pieces = olr.to_pieces(answers, network, keys)
            shown = [
                tuple((name, str(kind)) for name, kind in one.dtypes.items() if name != "key")
                for one in (table, pieces)
            ]
            assert (table.crs, pieces.crs) == ("EPSG:4326", "EPSG:4326")
            seen.add(tuple(shown))
    assert len(seen) == 1
    ((of_answers, of_pieces),) = seen
    assert dict(of_pieces)["from_m"] == "float64" and dict(of_answers)["lines"] == "object"


@pytest.mark.parametrize(
    ("title", "table", "columns"),
    [
        ("Answers", Answers, ANSWERS),
        ("Pieces", Pieces, PIECES),
        ("Reasons", WhyNot, REASONS),
        ("Places and reasons", WhyNoPlace, NO_PLACE),
        ("Changes", Changes, CHANGES),
    ],
)
def test_the_page_of_columns_is_that_of_the_tables(
    title: str, table: type, columns: Columns[Any]
) -> None:
    """Names, types and sentences, in the order of the tables. What is called `_m` is a number of metres, and nothing else is."""
    page = (TOP / "docs/COLUMNS.md").read_text(encoding="utf-8")
    section = page.split(f"\n## {title}")[1].split("\n## ")[0]
    rows = [line.split(" | ") for line in section.splitlines() if line.startswith("| `")]
    kinds = {"int64": "whole number", "float": "number", "str": "text"}
    sentences = sentences_of(table)
    assert [(name.strip("| `"), kind, text.removesuffix(" |")) for name, kind, text in rows] == [
        (name, kinds[column.kind], sentences[name]) for name, column in columns.items()
    ]
    for name, column in columns.items():
        assert name.endswith("_m") == ("in metres" in sentences[name])
        assert column.kind == "float" or not name.endswith("_m")


def test_lines_of_many_rows_at_once(folder: Path) -> None:
    """Beside shapely's `substring`, in the plane in which the program measures: rows of 0 to 4 pieces."""
    network = olr.Network.read(folder)
    draw = random.Random(7)
    lines = read_map(folder).lines
    pieces, counts = [], []
    for _ in range(400):
        counts.append(draw.randrange(5))
        for line in draw.choices(lines, k=counts[-1]):
            start = draw.choice([0, draw.randrange(line.length + 1)])
            end = draw.choice([line.length, draw.randint(start, line.length)])
            pieces.append((line.id, start, end))
    found = network.polylines(np.array(pieces), np.array(counts))
    assert found.sizes.sum() == len(found.points)
    points, rest = iter(found.points.tolist()), iter(pieces)
    lengths = {line.id: line.length for line in lines}
    for count, size in zip(counts, found.sizes.tolist()):
        row = [next(points) for _ in range(size)]
        wanted: list[tuple[float, float]] = []
        for id, start, end in (next(rest) for _ in range(count)):
            whole = LineString(network.path([(id, 0, lengths[id])]))
            east = math.cos(math.radians(whole.coords[0][1]))
            plane = scale(whole, east, 1, origin=(0, 0))
            part = substring(plane, start / lengths[id], end / lengths[id], normalized=True)
            back = [(x / east, y) for x, y in part.coords]
            wanted += back * 2 if len(back) == 1 else back
        if not count:
            assert row == []
            continue
        assert LineString(row).hausdorff_distance(LineString(wanted)) < 1e-9
        assert np.allclose(row[0], wanted[0], atol=1e-9, rtol=0)
        assert np.allclose(row[-1], wanted[-1], atol=1e-9, rtol=0)


def test_rows_that_meet_keep_their_ends() -> None:
    """Lines 104 and 107 of the example meet, with three points each: in one row the point where they do is there once, in two rows twice."""
    network = olr.Network.read(TOP / "examples")
    pieces = np.array([(104, 0, 2435), (107, 0, 2150)])
    joined = network.polylines(pieces, np.array([2]))
    apart = network.polylines(pieces, np.array([0, 1, 0, 1]))
    assert (joined.sizes.tolist(), apart.sizes.tolist()) == ([5], [0, 3, 0, 3])
    lines = [tuple(it) for piece in pieces.tolist() for it in network.path([piece]).tolist()]
    assert list(map(tuple, apart.points.tolist())) == lines
    assert list(map(tuple, joined.points.tolist())) == [*lines[:3], *lines[4:]]
