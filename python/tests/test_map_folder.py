"""A map as files in a folder."""

import csv
import json
import os
import pytest
from collections.abc import Mapping
from dataclasses import replace
from pathlib import Path
from typing import Any

from conftest import Program
from olr.errors import ToolError
from olr.model import map_folder
from olr.model.map_folder import read_map, write_map
from olr.model.road_map import Ban, Line, Node, Origin, Position, RoadMap, require_within_limits

FILES = {"nodes.csv", "lines.csv", "bans.csv", "ids.csv", "import.json"}
SMALL = RoadMap(
    [Node(1, Position(0, 0)), Node(2, Position(1000, -5))],
    [
        Line(7, 1, 2, 3, 3, 1113, (Position(300, 1), Position(600, 2))),
        Line(8, 2, 1, 3, 3, 1113, ()),
    ],
    [Ban(7, 8)],
    [Origin(7, "High Street, east", "forward", 0), Origin(8, 'the "old" road', "backward", 0)],
)
READ = replace(SMALL, origins=())
"""What is read of its files: not where its lines came from."""
ABOUT: Mapping[str, Any] = {"importer": "test", "left_out": {"Größen": 3}}


def test_written_and_read_again(tmp_path: Path, program: Program) -> None:
    folder = tmp_path / "deep" / "map"
    write_map(SMALL, folder, ABOUT)
    assert read_map(folder) == READ
    assert json.loads((folder / "import.json").read_text(encoding="utf-8")) == ABOUT
    assert program.fault(folder) == ""
    assert sorted(os.listdir(tmp_path / "deep")) == ["map"]


def test_the_files_are_those_of_the_specification(tmp_path: Path) -> None:
    write_map(SMALL, tmp_path / "map", ABOUT)
    texts = {name: (tmp_path / "map" / name).read_bytes().decode() for name in FILES}
    assert texts["nodes.csv"] == "id,lon,lat\n1,0,0\n2,1000,-5\n"
    assert texts["lines.csv"] == (
        "id,from,to,class,form,length,shape\n7,1,2,3,3,1113,300 1;600 2\n8,2,1,3,3,1113,\n"
    )
    assert texts["bans.csv"] == "from,to\n7,8\n"
    assert texts["ids.csv"] == (
        'line,source,direction,part,name\n7,"High Street, east",forward,0,\n8,"the ""old"" road",backward,0,\n'
    )


def test_reading_needs_nodes_and_lines_alone(tmp_path: Path) -> None:
    write_map(SMALL, tmp_path / "map", ABOUT)
    for name in ("bans.csv", "ids.csv", "import.json"):
        (tmp_path / "map" / name).unlink()
    assert read_map(tmp_path / "map") == RoadMap(SMALL.nodes, SMALL.lines, [])


def test_an_empty_folder_is_filled(tmp_path: Path) -> None:
    write_map(SMALL, tmp_path, ABOUT)
    assert set(os.listdir(tmp_path)) == FILES


def test_a_folder_that_isnt_empty_is_refused(tmp_path: Path) -> None:
    write_map(SMALL, tmp_path / "map", ABOUT)
    with pytest.raises(
        ToolError, match="isn't empty: name another folder, or replace its map by --force"
    ):
        write_map(SMALL, tmp_path / "map", ABOUT)


def test_a_map_is_replaced_by_force(tmp_path: Path) -> None:
    write_map(SMALL, tmp_path / "map", ABOUT)
    other = RoadMap(SMALL.nodes, SMALL.lines[:1])
    write_map(other, tmp_path / "map", ABOUT, force=True)
    assert read_map(tmp_path / "map").lines == SMALL.lines[:1]
    assert os.listdir(tmp_path) == ["map"]


def test_other_files_stay(tmp_path: Path, program: Program) -> None:
    (tmp_path / "notes.txt").write_text("mine")
    (tmp_path / "nodes.csv").write_text("old")
    write_map(SMALL, tmp_path, ABOUT, force=True)
    assert set(os.listdir(tmp_path)) == FILES | {"notes.txt"}
    assert (tmp_path / "notes.txt").read_text() == "mine"
    assert read_map(tmp_path) == READ


def test_a_folder_that_is_there_stays_the_same_one(tmp_path: Path) -> None:
    """Whoever is in the folder, or mounted it, sees the map."""
    number = tmp_path.stat().st_ino
    write_map(SMALL, tmp_path, ABOUT)
    assert tmp_path.stat().st_ino == number


def test_a_folder_that_cant_be_made(tmp_path: Path) -> None:
    (tmp_path / "file").touch()
    with pytest.raises(ToolError, match="map can't be written: "):
        write_map(SMALL, tmp_path / "file" / "map", ABOUT)


def test_a_file_in_the_place_of_the_folder(tmp_path: Path) -> None:
    (tmp_path / "map").write_text("")
    with pytest.raises(ToolError, match="is a file: name a folder"):
        write_map(SMALL, tmp_path / "map", ABOUT, force=True)


@pytest.mark.parametrize("moves", range(10))
def test_a_failure_between_two_files_leaves_the_old_map(
    tmp_path: Path, monkeypatch: pytest.MonkeyPatch, moves: int
) -> None:
    """Five files are moved out of the folder, and then five into it: one of these moves fails."""
    write_map(SMALL, tmp_path / "map", ABOUT)
    replace, left = Path.replace, [moves]

    def failing(file: Path, target: Path) -> Path:
        left[0] -= 1
        if left[0] == -1:
            raise OSError(5, "Input/output error")
        return replace(file, target)

    monkeypatch.setattr(Path, "replace", failing)
    with pytest.raises(ToolError, match="map can't be written: Input/output error"):
        write_map(RoadMap([], []), tmp_path / "map", {}, force=True)
    assert read_map(tmp_path / "map") == READ
    assert json.loads((tmp_path / "map/import.json").read_text(encoding="utf-8")) == ABOUT
    assert set(os.listdir(tmp_path / "map")) == FILES


def test_a_failure_leaves_the_old_map(tmp_path: Path, monkeypatch: pytest.MonkeyPatch) -> None:
    write_map(SMALL, tmp_path / "map", ABOUT)

    def full(*_: object) -> None:
        raise OSError(28, "No space left on device")

    monkeypatch.setattr(map_folder, "write_rows", full)
    with pytest.raises(ToolError, match="can't be written: No space left on device"):
        write_map(RoadMap([], []), tmp_path / "map", ABOUT, force=True)
    assert read_map(tmp_path / "map") == READ
    assert os.listdir(tmp_path) == ["map"]


@pytest.mark.parametrize(
    "file, text, words",
    [
        ("nodes.csv", "", "doesn't begin with the header id,lon,lat"),
        ("nodes.csv", "id,lat,lon\n", "doesn't begin with the header id,lon,lat"),
        ("nodes.csv", "id,lon,lat\n1,0\n", "record 1 has 2 fields, not 3"),
        ("nodes.csv", "id,lon,lat\n1,0,0\n2,0.5,0\n", "record 2 isn't understood"),
        (
            "lines.csv",
            "id,from,to,class,form,length,shape\n1,1,2,3,3,9,1\n",
            "record 1 isn't understood",
        ),
    ],
)
def test_a_faulty_record_is_named(tmp_path: Path, file: str, text: str, words: str) -> None:
    write_map(SMALL, tmp_path / "map", ABOUT)
    (tmp_path / "map" / file).write_text(text)
    with pytest.raises(ToolError, match=words):
        read_map(tmp_path / "map")


@pytest.mark.parametrize(
    "sizes, words",
    [
        ((100_001, 0, 0), "100,001 nodes, 100,000 at most"),
        ((0, 200_001, 0), "200,001 lines, 200,000 at most"),
        ((0, 0, 200_001), "200,001 bans, 200,000 at most"),
        ((123_456, 234_567, 0), "123,456 nodes, 100,000 at most; 234,567 lines, 200,000 at most"),
    ],
)
def test_a_map_beyond_the_limits(sizes: tuple[int, int, int], words: str) -> None:
    require_within_limits(100_000, 200_000, 200_000, "cut it")
    with pytest.raises(ToolError) as raised:
        require_within_limits(*sizes, "cut it")
    assert str(raised.value) == f"the map is too large for olr ({words}): cut it"


def test_quotes_are_those_of_csv(tmp_path: Path) -> None:
    write_map(SMALL, tmp_path / "map", ABOUT)
    with (tmp_path / "map/ids.csv").open(encoding="utf-8", newline="") as stream:
        assert [row[1] for row in csv.reader(stream)][1:] == ["High Street, east", 'the "old" road']
