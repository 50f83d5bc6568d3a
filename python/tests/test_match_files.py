"""The files of `olr-tools match`: pieces, several runs in one file, many references, and links of one's own."""

import csv
import fiona
import geopandas
import json
import numpy as np
import os
import pandas
import pytest
import random
import sqlite3
import subprocess
import sys
from pathlib import Path
from typing import Any

import olr
from asking import draw_map, draw_references
from conftest import OF_PROGRAM, REFERENCE, TOP, Program
from exact_paths import LineGraph, drawn_references
from olr.asking.exchange import Asked
from olr.errors import ToolError
from olr.matching.columns import ANSWERS
from olr.matching.writing import Output, writing_rows
from olr.model.map_folder import read_map
from olr.tools import run
from olr.trials.encoder import text_of
from test_outputs import contents, full_disk
from vector_files import STREETS

EXAMPLES = TOP / "examples"
MORE_BYTES = 6 << 20
"""So much more memory ten times the references may take."""


@pytest.fixture(autouse=True)
def environment(program: Program, monkeypatch: pytest.MonkeyPatch) -> None:
    """The command finds the program by its environment."""
    monkeypatch.setenv("OLR_PROGRAM", os.fspath(program.path))


def match(out: Path, *words: object, messages: Path = EXAMPLES / "messages.tsv") -> int:
    """Runs `match` on the example's map, and answers its status."""
    given = ["match", messages, "--map", EXAMPLES, "--out", out, *OF_PROGRAM, *words]
    return run(list(map(str, given)))


def rows(file: Path, layer: str, columns: str = "record, key, rank, lines") -> list[tuple[object]]:
    """What a layer of a GeoPackage has."""
    with sqlite3.connect(file) as base:
        return base.execute(f"SELECT {columns} FROM {layer} ORDER BY fid").fetchall()


def test_pieces_in_each_kind_of_file(tmp_path: Path, capsys: pytest.CaptureFixture[str]) -> None:
    """All three have the same rows, which sum to the lengths of the rows of the answers."""
    kinds = ("csv", "gpkg", "geojson")
    for kind in kinds:
        pieces = tmp_path / f"pieces.{kind}"
        assert match(tmp_path / f"out.{kind}", "--pieces", pieces) == 0
        assert f"{pieces}: 32 rows\n" in capsys.readouterr().out
    tables = [
        pandas.DataFrame(geopandas.read_file(tmp_path / f"{name}.{kind}"))
        for name in ("pieces", "out")
        for kind in kinds[1:]
    ]
    tables.insert(0, pandas.read_csv(tmp_path / "pieces.csv", dtype={"key": str}))
    wanted = [
        tuple(row.split(",")) for row in (tmp_path / "pieces.csv").read_text().splitlines()[1:]
    ]
    assert wanted[0] == ("1", "m1", "1", "outer", "1", "104", "", "", "", "", "87.9", "243.5")
    for pieces_of in tables[:3]:
        pieces_of["metres"] = pieces_of["to_m"] - pieces_of["from_m"]
        shown = pieces_of[["key", "rank", "part", "piece", "line", "from_m", "to_m"]].values
        assert [tuple(map(str, row)) for row in shown] == [
            (row[1], row[2], row[3], row[4], row[5], row[10], row[11]) for row in wanted
        ]
        sums = pieces_of[pieces_of["part"] == "outer"].groupby(["key", "rank"])["metres"].sum()
        answers = tables[3].dropna(subset=["rank"]).set_index(["key", "rank"])
        assert sums.round(6).to_dict() == answers["outer_m"].to_dict()
    assert all(it.geom_type == "LineString" for it in tables[2]["geometry"])
    assert (tmp_path / "out.csv").read_text().splitlines()[0].startswith("record,key,likely,rank,")


def test_what_rows_are_made_of(tmp_path: Path, monkeypatch: pytest.MonkeyPatch) -> None:
    """Of answers, with coordinates where there is room for them, and of nothing else of the map."""
    asked: list[bool] = []
    answers = olr.Map._answers

    def noted(town: olr.Map, question: Asked, *others: Any) -> Any:
        asked.append("geojson" in question.words)
        assert "--shape" not in question.words
        return answers(town, question, *others)

    monkeypatch.setattr(olr.Map, "_answers", noted)
    monkeypatch.setattr(olr.Map, "network", None)
    ways: list[tuple[str, ...]] = [("csv",), ("csv", "--places"), ("gpkg",), ("geojson",)]
    for kind, *words in ways:
        out, pieces = tmp_path / f"out.{kind}", tmp_path / "pieces.csv"
        assert match(out, *words, "--pieces", pieces, "--force") == 0
        assert sum(asked) == (kind != "csv")
        asked.clear()


def test_geojson_is_read_by_others(tmp_path: Path) -> None:
    """Also where there is no row, and where a key has quotes."""
    for text, count in (("", 0), ('a"\\ö\t' + REFERENCE + "\n", 1)):
        (tmp_path / "messages.tsv").write_text(text)
        out = tmp_path / f"{count}.geojson"
        assert match(out, "--format", "tab", messages=tmp_path / "messages.tsv") == 0
        features = json.loads(out.read_text(encoding="utf-8"))["features"]
        assert len(features) == count
        with fiona.open(out) as layer:
            assert len(layer) == count and layer.crs.to_epsg() == 4326
    assert features[0]["properties"]["key"] == 'a"\\ö'
    (first,) = olr.Network.read(EXAMPLES).points_at(np.array([(104, 879)])).tolist()
    drawn = features[0]["geometry"]["coordinates"][0]
    assert drawn == [7.416942, 49.87128] == pytest.approx(first, abs=1e-6)


@pytest.mark.parametrize("kind", ["gpkg", "csv"])
def test_two_runs_in_one_file(kind: str, tmp_path: Path) -> None:
    """The second run adds its rows behind those of the first, as if one run had written all; other programs see all of them."""
    once, twice = tmp_path / f"once.{kind}", tmp_path / f"twice.{kind}"
    pieces = tmp_path / "pieces.gpkg"
    lines = (EXAMPLES / "messages.tsv").read_text().splitlines(keepends=True)
    for number, part in enumerate((lines[:2], lines[2:])):
        (tmp_path / "part.tsv").write_text("".join(part))
        words = ("--append", "--pieces", pieces)
        assert match(twice, *words, messages=tmp_path / "part.tsv") == 0
    assert match(once) == 0
    if kind == "csv":
        found, wanted = (list(csv.reader(file.open())) for file in (twice, once))
        assert [row[1:] for row in found] == [row[1:] for row in wanted]
        return
    columns = "fid, key, rank, lines, from_m, outer_m, geom"
    assert rows(twice, "match", columns) == rows(once, "match", columns)
    about = "feature_count, min_x, max_x, min_y, max_y"
    joined = "gpkg_contents JOIN gpkg_ogr_contents USING (table_name)"
    index = "SELECT id, minx, maxx, miny, maxy FROM rtree_match_geom ORDER BY id"
    for query in (f"SELECT {about} FROM {joined}", index, "SELECT rtreecheck('rtree_match_geom')"):
        seen = []
        for file in (once, twice):
            with sqlite3.connect(file) as base:
                seen.append(base.execute(query).fetchall())
        assert seen[0] == seen[1] and seen[0]
    assert seen[0] == [("ok",)]
    with fiona.open(twice) as layer:
        assert len(layer) == 8
        near = list(layer.filter(bbox=(7.4156, 49.8712, 7.4158, 49.8713)))
        assert near and len(near) < 8
        feature = next(iter(layer))
    with fiona.open(twice, "a") as layer:
        layer.write(feature)
    assert len(rows(twice, "match")) == 9
    assert len(rows(pieces, "pieces", "line")) == 32


def test_rows_are_added_to_the_same_columns_alone(
    tmp_path: Path, capsys: pytest.CaptureFixture[str]
) -> None:
    """What differs is named, and the file stays as it was."""
    places = tmp_path / "places.gpkg"
    assert match(places, "--places") == 0
    other, typed = tmp_path / "other.gpkg", tmp_path / "typed.gpkg"
    for file, change in (
        (other, "ALTER TABLE match RENAME COLUMN from_m TO begin"),
        (typed, "ALTER TABLE match DROP COLUMN fault; ALTER TABLE match ADD COLUMN fault INTEGER"),
    ):
        assert match(file) == 0
        with sqlite3.connect(file) as base:
            for trigger in base.execute(
                "SELECT name FROM sqlite_master WHERE type = 'trigger' AND tbl_name = 'match'"
            ).fetchall():
                base.execute(f"DROP TRIGGER {trigger[0]}")
            base.executescript(change)
    (tmp_path / "table.csv").write_text("record,key\n1,a\n")
    (tmp_path / "cut.csv").write_text("record,key\n1,a")
    (tmp_path / "none.gpkg").write_text("some text that is none\n")
    (tmp_path / "features.geojson").write_text("{}")
    assert match(tmp_path / "open.gpkg") == 0
    (tmp_path / "open.gpkg-wal").write_text("")
    before = contents(tmp_path)
    for name, words in {
        "places.gpkg": "has no layer match, but places: name another file",
        "other.gpkg": "its layer match lacks from_m, has begin: name another file",
        "typed.gpkg": "its layer match has fault as INTEGER and not TEXT",
        "table.csv": "has other columns, so rows can't be added: its first line isn't record,key,likely",
        "cut.csv": "ends within a line",
        "none.gpkg": "isn't a GeoPackage",
        "features.geojson": "is GeoJSON, to which rows can't be added: name a file .gpkg or .csv",
        "open.gpkg": "is open in another program",
    }.items():
        capsys.readouterr()
        assert match(tmp_path / name, "--append") == 1
        said = capsys.readouterr().err
        assert words in said and said.count("\n") == 1, said
        assert str(tmp_path / name) in said
    assert contents(tmp_path) == before


def test_rows_are_added_whole_or_not_at_all(
    tmp_path: Path, capsys: pytest.CaptureFixture[str]
) -> None:
    out, pieces = tmp_path / "out.gpkg", tmp_path / "pieces.csv"
    assert match(out, "--pieces", pieces) == 0
    before = contents(tmp_path)
    with full_disk():
        assert match(out, "--append", "--pieces", pieces) == 1
    assert match(out, "--append", "--pieces", pieces, "--radius", "0") == 1
    messages = tmp_path.parent / "messages.jsonl"
    messages.write_text(f'{{"ref":"{REFERENCE}"}}\n' * 300 + "{\n")
    assert match(out, "--append", messages=messages) == 1
    assert contents(tmp_path) == before


@pytest.mark.parametrize("name", ["out.csv", "out.gpkg"])
def test_a_file_that_changes_while_rows_are_added(name: str, tmp_path: Path) -> None:
    """What another program writes into it meanwhile isn't lost."""
    out = tmp_path / name
    assert match(out) == 0
    changed = out.read_bytes() + b"\n"
    with pytest.raises(ToolError, match="was changed while rows were added to it: append again"):
        with writing_rows(Output(out, "match", ANSWERS), "append"):
            out.write_bytes(changed)
    assert out.read_bytes() == changed and os.listdir(tmp_path) == [name]


@pytest.mark.parametrize(
    ("words", "said"),
    [
        (["--force", "--append"], "give one of them"),
        (["--why", "--pieces", "pieces.csv"], "not for --why"),
        (["--pieces", "OUT"], "name two"),
        (["--pieces", "pieces.shp"], "pieces.shp has no suffix that is known"),
        (["--pieces", str(EXAMPLES / "messages.tsv")], "has no suffix that is known"),
    ],
)
def test_words_that_dont_go_together(
    words: list[str], said: str, tmp_path: Path, capsys: pytest.CaptureFixture[str]
) -> None:
    out = tmp_path / "out.gpkg"
    assert match(out, *[str(out) if word == "OUT" else word for word in words]) in (1, 2)
    assert said in capsys.readouterr().err and not list(tmp_path.iterdir())


def test_memory_doesnt_grow_with_the_references(tmp_path: Path) -> None:
    """The greatest memory of a run on 1,400 and on 9,000 references."""
    folder = draw_map(tmp_path / "map", 200, 400)
    texts = draw_references(folder, 100)
    peaks = []
    for count in (1_400, 9_000):
        messages = tmp_path / "messages.tsv"
        messages.write_text("".join(f"{key}\t{texts[key % len(texts)]}\n" for key in range(count)))
        words = ["match", messages, "--map", folder, "--out", tmp_path / "out.gpkg", "--page", 1]
        words += ["--format", "tab", "--force"]
        process = subprocess.Popen([str(TOP / "olr-tools"), *map(str, words)], stdout=-3)
        _, status, usage = os.wait4(process.pid, 0)
        process.returncode = os.waitstatus_to_exitcode(status)
        assert process.returncode == 0
        assert len(rows(tmp_path / "out.gpkg", "match", "fid")) == count
        with sqlite3.connect(tmp_path / "out.gpkg") as base:
            assert base.execute("SELECT rtreecheck('rtree_match_geom')").fetchall() == [("ok",)]
            located = "SELECT count(*) FROM match WHERE geom IS NOT NULL"
            indexed = "SELECT count(*) FROM rtree_match_geom"
            assert base.execute(located).fetchall() == base.execute(indexed).fetchall()
        peaks.append(usage.ru_maxrss * 1024)
    print(f"peaks of {peaks[0] >> 20} and {peaks[1] >> 20} MiB", file=sys.stderr)
    assert peaks[1] < peaks[0] + MORE_BYTES


def test_links_of_ones_own(tmp_path: Path) -> None:
    """References on the streets of Tempe: each piece lies on the street that it names, by its ID, and covers as much of the message
    as the columns say."""
    folder, out, pieces = tmp_path / "map", tmp_path / "out.csv", tmp_path / "pieces.gpkg"
    words = ["import", "vector", STREETS, "--class", "5", "--form", "3", "--id", "ID"]
    assert run(list(map(str, [*words, "--out", folder]))) == 0
    network = LineGraph(read_map(folder), turning_back=False)
    drawn = drawn_references(network, 30, random.Random(4), turning_back=False)
    messages = tmp_path / "messages.tsv"
    texts = (f"{key}\t{text_of(points)}\n" for key, (_, points) in enumerate(drawn))
    messages.write_text("".join(texts))
    words = ["match", messages, "--map", folder, "--places", "--out", out, "--pieces", pieces]
    assert run(list(map(str, words))) == 0
    streets = geopandas.read_file(STREETS)
    covered = geopandas.read_file(pieces)
    covered["ID"] = covered["source"].astype(float)
    assert len(covered) > 200
    both = covered.to_crs(streets.crs).merge(
        streets[["ID", "geometry"]], on="ID", suffixes=("", "_of_link")
    )
    assert len(both) == len(covered)
    feet = [
        piece.hausdorff_distance(link.intersection(piece.buffer(3)))
        for piece, link in zip(both.geometry, both.geometry_of_link)
    ]
    assert max(feet) < 5
    covered["metres"] = covered["to_m"] - covered["from_m"]
    sums = covered.groupby(["record", "rank", "part"])["metres"].sum()
    answers = pandas.read_csv(out)
    for row in answers.itertuples():
        assert sums[row.record, row.rank, "outer"] == pytest.approx(row.outer_m)
        of_row = covered[(covered["record"] == row.record) & (covered["rank"] == row.rank)]
        assert row.sources.split(";")[0] == of_row["source"].iloc[0]
