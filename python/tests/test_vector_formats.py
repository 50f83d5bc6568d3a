"""The same roads in files of several formats: the map is the same, but for what the order of the records decides."""

import pytest
import random
from pathlib import Path
from typing import Any

from olr.tools import run
from vector_files import about, road, rows, write

STEP = 0.001
FILES = ("nodes.csv", "lines.csv", "bans.csv", "ids.csv")
BY_ID = ("--id", "code")


def drawn() -> list[dict[str, Any]]:
    """Sixty roads between neighbouring points of a grid, with a bend in each, in any order."""
    draw = random.Random(3)
    roads = []
    for code in range(1, 61):
        x, y = draw.randrange(8), draw.randrange(8)
        start, end = (9 + x * STEP, 49 + y * STEP), (
            9 + (x + draw.choice((-1, 0, 1))) * STEP,
            49 + (y + 1) * STEP,
        )
        bend = (start[0] + end[0]) / 2 + STEP / 50, (start[1] + end[1]) / 2
        kind, dir = draw.choice(("1", "3", "6")), draw.choice(("F", "T", "B", "", None))
        roads.append(road([start, bend, end], kind, draw.choice((1, 3, None)), dir, code))
    return roads


def imported(file: Path, *words: str) -> Path:
    """The map of a file."""
    out = file.with_name(f"map of {file.name}")
    kinds = ["--class", "kind", "--form", "carriageways", "--oneway", "dir", "--keep", "dir"]
    assert run(["import", "vector", str(file), *kinds, *words, "--out", str(out)]) == 0
    return out


def lines_of(folder: Path, without_ids: bool = False) -> set[tuple[object, ...]]:
    """The lines of a map: each with the positions of its ends in place of their ids, with its source, and with the lines into which it may
    not turn; or without what is of ids."""
    nodes = {id: (lon, lat) for id, lon, lat in rows(folder, "nodes.csv")}
    sources = {id: tuple(more) for id, *more in rows(folder, "ids.csv")}
    banned: dict[str, list[str]] = {}
    for first, second in rows(folder, "bans.csv"):
        banned.setdefault(first, []).append(second)
    return {
        (nodes[start], nodes[end], *more)
        if without_ids
        else (id, nodes[start], nodes[end], *more, *sources[id], *sorted(banned.get(id, ())))
        for id, start, end, *more in rows(folder, "lines.csv")
    }


@pytest.fixture
def geopackage(tmp_path: Path) -> Path:
    """The roads as a GeoPackage, whose records are in the order in which they were written."""
    return write(tmp_path / "roads.gpkg", drawn(), crs=4326)


@pytest.fixture
def indexed(tmp_path: Path) -> Path:
    """The roads as a FlatGeobuf with an index, which puts its records into another order."""
    return write(tmp_path / "roads.fgb", drawn(), "FlatGeobuf", 4326)


def test_a_flatgeobuf_with_ids(geopackage: Path, indexed: Path) -> None:
    expected, found = imported(geopackage, *BY_ID), imported(indexed, *BY_ID)
    assert lines_of(found) == lines_of(expected) and len(lines_of(found)) > 50
    assert rows(found, "nodes.csv") != rows(expected, "nodes.csv")
    assert about(found) | {"file": "roads.gpkg"} == about(expected)


def test_a_flatgeobuf_without_ids(geopackage: Path, indexed: Path) -> None:
    """Roads are numbered by their records, so only the ids differ."""
    expected, found = imported(geopackage), imported(indexed)
    assert lines_of(found) != lines_of(expected)
    assert lines_of(found, without_ids=True) == lines_of(expected, without_ids=True)


@pytest.mark.parametrize("words", [BY_ID, ()])
def test_a_flatgeobuf_without_an_index(
    geopackage: Path, tmp_path: Path, words: tuple[str, ...]
) -> None:
    """It keeps the order of its records, so all is the same."""
    file = tmp_path / "plain.fgb"
    write(file, drawn(), "FlatGeobuf", 4326, SPATIAL_INDEX="NO")
    expected, found = imported(geopackage, *words), imported(file, *words)
    for name in FILES:
        assert (found / name).read_bytes() == (expected / name).read_bytes()
