"""`olr-tools run --geometries` and `--pieces`: the rows that `olr-tools match` writes, part by part."""

import fiona
import json
import pytest
from pathlib import Path
from shapely.geometry import shape
from typing import Any

from olr.arrays import Integers
from olr.geometry import store_network
from olr.regions.making import make_store_of_folder
from olr.regions.store import Store
from olr.tools import run
from runs import Town
from test_outputs import full_disk

ROUNDED = 1e-12
"""Degrees: how far along its line a point is, is counted from the first line that was read."""


def olr_tools(*words: object) -> int:
    """Runs the command line, and answers its status."""
    return run(list(map(str, words)))


def rows_of(file: Path, layer: str) -> list[tuple[Any, ...]]:
    """The rows of a file, by records: all columns but the number of candidates, and the geometry."""
    with fiona.open(file, layer=layer) as read:
        rows = [
            (
                dict(one["properties"]) | {"candidates": None},
                one["geometry"] and shape(one["geometry"]),
            )
            for one in read
        ]
    names = ("record", "rank", "part", "piece")
    return sorted(rows, key=lambda row: [str(row[0].get(name)).zfill(9) for name in names])


def assert_same(found: list[tuple[Any, ...]], expected: list[tuple[Any, ...]]) -> None:
    """Two lists of rows are the same."""
    assert [row for row, _ in found] == [row for row, _ in expected]
    for (_, one), (_, other) in zip(found, expected):
        assert one is other is None or one.equals_exact(other, ROUNDED)


@pytest.mark.parametrize("map_option", ["--store", "--map"])
@pytest.mark.parametrize("places", [[], ["--places", "--most", 3]])
def test_the_rows_of_match(
    places: list[object],
    map_option: str,
    here: None,
    town: Town,
    tmp_path: Path,
    monkeypatch: pytest.MonkeyPatch,
) -> None:
    """Of which part whatever, of a store with the lines of some rows at a time."""
    monkeypatch.setattr("olr.matching.chunks.ROWS", 40)
    read: list[int] = []
    files = [tmp_path / "run.gpkg", tmp_path / "run-pieces.gpkg"]
    of_store = map_option == "--store"
    asked = town.store if of_store else town.folder
    words = ["run", town.plain, map_option, asked, "--out", tmp_path / "out", *places]
    words += ["--per-group", 60, "--geometries", files[0], "--pieces", files[1]]
    with monkeypatch.context() as patched:
        patched.setattr(store_network.PartOfNetwork, "__init__", _counting(read))
        assert olr_tools(*words) == 0
    assert (len(read) > 5 and max(read) < 1000) if of_store else not read
    whole = [tmp_path / "match.gpkg", tmp_path / "match-pieces.gpkg"]
    words = ["match", town.plain, "--map", town.folder, *places]
    assert olr_tools(*words, "--out", whole[0], "--pieces", whole[1]) == 0
    question = "places" if places else "match"
    for found, expected, layer in zip(files, whole, (question, "pieces")):
        rows = rows_of(found, layer)
        assert_same(rows, rows_of(expected, layer))
        assert len(rows) > 250


def test_looking_that_was_cut_off(
    here: None, town: Town, tmp_path: Path, capsys: pytest.CaptureFixture[str]
) -> None:
    """What `match` says of it."""
    rows = tmp_path / "rows.csv"
    more = ["--places", "--look", 2]
    words = ["run", town.plain, "--store", town.store, "--out", tmp_path / "out", *more]
    assert olr_tools(*words, "--geometries", rows) == 0
    found = capsys.readouterr().out.splitlines()
    words = ["match", town.plain, "--map", town.folder, "--out", rows, "--force", *more]
    assert olr_tools(*words) == 0
    expected = [line for line in capsys.readouterr().out.splitlines() if "cut off" in line]
    assert len(expected) == 1 and expected[0] in found


def _counting(read: list[int]) -> Any:
    """How a part of a network is read, with how many lines it has noted."""
    usual = store_network.PartOfNetwork.__init__

    def init(self: Any, store: Store, lines: Integers) -> None:
        read.append(len(lines))
        usual(self, store, lines)

    return init


def test_words_and_files(
    here: None, town: Town, tmp_path: Path, capsys: pytest.CaptureFixture[str]
) -> None:
    """Nothing is begun where the rows can't be written; a run that is there gets them later, and a full disk leaves the old file."""
    words = ["run", town.plain, "--store", town.store, "--out", tmp_path / "out", "--page", 1]
    out = tmp_path / "rows.geojson"
    assert olr_tools(*words, "--geometries", tmp_path / "rows.parquet") == 1
    assert "rows.parquet has no suffix that is known" in capsys.readouterr().err
    assert olr_tools(*words, "--why", "--geometries", out) == 2
    assert olr_tools(*words, "--geometries", out, "--join", out) == 2
    assert olr_tools(*words, "--join", tmp_path / "rows.gpkg") == 2
    assert olr_tools(*words, "--geometries", town.store, "--force") == 1
    assert not (tmp_path / "out").exists()
    assert olr_tools(*words) == 0
    out.write_text("old")
    assert olr_tools(*words, "--resume", "--geometries", out) == 1
    capsys.readouterr()
    with full_disk():
        assert olr_tools(*words, "--resume", "--geometries", out, "--force") == 1
    assert "can't be written: File too large" in capsys.readouterr().err
    assert out.read_text() == "old"
    assert olr_tools(*words, "--resume", "--geometries", out, "--force") == 0
    features = json.loads(out.read_text())["features"]
    assert f"{out}: {len(features):,} rows\n" in capsys.readouterr().out
    assert {one["properties"]["record"] for one in features} == set(range(1, 301))
    assert all(one["geometry"] for one in features if one["properties"]["rank"])
    # The lines have coordinates from now on, whether it is asked for them again or not.
    before = sorted((tmp_path / "out/parts").iterdir())
    texts = [part.read_bytes() for part in before]
    assert olr_tools(*words, "--resume") == 0 and b'"shape"' in texts[0]
    assert [part.read_bytes() for part in before] == texts


def test_another_store(
    here: None, town: Town, tmp_path: Path, capsys: pytest.CaptureFixture[str]
) -> None:
    """Rows are made with the map of the run alone."""
    store = tmp_path / "some.gpkg"
    make_store_of_folder(town.folder, store)
    words = ["run", town.plain, "--store", store, "--out", tmp_path / "out", "--page", 1]
    assert olr_tools(*words) == 0
    store.unlink()
    make_store_of_folder(Path(__file__).parents[2] / "examples", store)
    assert olr_tools(*words, "--resume", "--geometries", tmp_path / "rows.gpkg") == 1
    assert "holds a run with other map (" in capsys.readouterr().err
    assert not (tmp_path / "rows.gpkg").exists()
