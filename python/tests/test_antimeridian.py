"""Roads across longitude 180: cut there by the imports, and named by `check` and `regions`."""

import pytest
from pathlib import Path

from conftest import Import, Tools
from drawing import Drawing
from olr.importing.antimeridian import leads_across, pieces
from olr.model.box import Box
from olr.model.road_map import GREATEST_ID, Position
from olr.osm.importing import Options
from vector_files import about, road, rows, write

EAST, WEST = GREATEST_ID, GREATEST_ID - 1
"""The ids of the first ends that an import makes: on the side from which the road comes, and on the other one."""
CUT = "roads cut at longitude 180"


def test_a_way_across(imported: Import) -> None:
    """It leaves the eastern half 0.3 degrees before longitude 180 and goes on to 0.1 behind it, from latitude 10 to 14."""
    drawing = Drawing({1: (179_700_000, 10_000_000), 2: (-179_900_000, 14_000_000)})
    drawing.way(7, [1, 2])
    result = imported(drawing)
    assert result.routes() == {(1, EAST), (EAST, 1), (WEST, 2), (2, WEST)}
    positions = {node.id: node.position for node in result.road_map.nodes}
    assert positions[EAST] == Position(180_000_000, 13_000_000)
    assert positions[WEST] == Position(-180_000_000, 13_000_000)
    assert [line.id for line in result.road_map.lines] == [70000, 70001, 70002, 70003]
    assert result.counts.changed == {f"{CUT}: 7": 1} and not result.counts.left_out


def test_a_way_across_and_back(imported: Import) -> None:
    drawing = Drawing(
        {1: (179_900_000, 0), 2: (-179_900_000, 0), 3: (-179_900_000, 900), 4: (179_900_000, 900)}
    )
    drawing.way(7, [1, 2, 3, 4], oneway="yes")
    result = imported(drawing)
    assert result.routes() == {(1, EAST), (WEST, EAST - 2), (EAST - 3, 4)}
    assert result.counts.changed == {f"{CUT}: 7": 1}


def test_ways_over_the_same_nodes_meet_where_they_are_cut(imported: Import) -> None:
    drawing = Drawing({1: (179_900_000, 0), 2: (-179_900_000, 0)})
    drawing.way(7, [1, 2], oneway="yes")
    drawing.way(8, [2, 1], oneway="yes")
    assert imported(drawing).routes() == {(1, EAST), (WEST, 2), (2, WEST), (EAST, 1)}


def test_ways_that_meet_at_longitude_180(imported: Import) -> None:
    """Their node is on one side. On the other side it has one counterpart for all of them."""
    drawing = Drawing(
        {1: (179_900_000, 0), 2: (180_000_000, 0), 3: (-179_900_000, 0), 4: (-179_900_000, 900)}
    )
    drawing.way(7, [1, 2, 3], oneway="yes")
    drawing.way(8, [4, 2], oneway="yes")
    result = imported(drawing)
    assert result.routes() == {(1, 2), (EAST, 3), (4, EAST)}
    assert result.counts.changed == {f"{CUT}: 7": 1}


@pytest.mark.parametrize(
    "here, there, across",
    [
        (90_000_000, -90_000_000, False),
        (-90_000_000, 90_000_001, True),
        (0, 180_000_000, False),
        (-180_000_000, 1, True),
    ],
)
def test_half_the_earth_is_not_across(here: int, there: int, across: bool) -> None:
    """Neither way round is the short one."""
    assert leads_across([Position(here, 0), Position(here, 5), Position(there, 5)]) == across


def test_a_box_beside_longitude_180(imported: Import) -> None:
    """A step with one end in the box stays, with both its halves."""
    drawing = Drawing({1: (179_700_000, 0), 2: (179_900_000, 0), 3: (-179_900_000, 0)})
    drawing.way(7, [1, 2, 3], oneway="yes")
    box = Box(179_800_000, -1000, 180_000_000, 1000)
    result = imported(drawing, Options(box=box, u_turns="allowed"))
    assert result.routes() == {(1, EAST), (WEST, 3)}


def test_pieces_at_a_vertex_that_is_there_twice() -> None:
    """Once on each side: nothing has to be made, and nothing is left of a polyline of these two alone."""
    places = [Position(lon, 5) for lon in (179_000_000, 180_000_000, -180_000_000, -179_000_000)]

    def never(_near: int, _far: int, _place: Position) -> int:
        raise AssertionError

    assert list(pieces(range(4), places, never)) == [[0, 1], [2, 3]]
    assert list(pieces(range(2), places[1:3], never)) == []


def imported_vector(tools: Tools, folder: Path, *words: str) -> Path:
    """The map of a road across, of one that ends at longitude 180 a metre north of it, and of one that begins there on the other side."""
    lines = [
        road([(179.9, 10.0), (-179.7, 14.0)], code=5),
        road([(179.9, 11.00001), (180.0, 11.00001)], code=6),
        road([(-180.0, 11.00001), (-179.9, 11.5)], code=7),
    ]
    file = write(folder / "roads.gpkg", lines, crs=4326)
    words = ("--class", "3", "--form", "3", "--tolerance", "2", *words)
    ended = tools.run("import", "vector", file, *words, "--out", folder / "map")
    assert ended.returncode == 0, ended.stderr
    return folder / "map"


def test_vector_roads_across(tools: Tools, tmp_path: Path) -> None:
    """Ends that are near each other are one node on either side, but never one on both sides."""
    folder = imported_vector(tools, tmp_path, "--id", "code")
    assert rows(folder, "nodes.csv") == [
        ["1", "179900000", "10000000"],
        ["2", "180000000", "11000000"],
        ["3", "-180000000", "11000000"],
        ["4", "-179700000", "14000000"],
        ["5", "179900000", "11000010"],
        ["6", "-179900000", "11500000"],
    ]
    ends = {tuple(map(int, row[1:3])) for row in rows(folder, "lines.csv")}
    assert ends == {(1, 2), (2, 1), (3, 4), (4, 3), (5, 2), (2, 5), (3, 6), (6, 3)}
    assert about(folder)["left_out"] == {}
    assert about(folder)["changed"][f"{CUT}: 5"] == 1


def test_vector_roads_across_are_named_by_their_records(tools: Tools, tmp_path: Path) -> None:
    assert about(imported_vector(tools, tmp_path))["changed"][f"{CUT}: 1"] == 1


def test_vector_roads_across_beside_a_box(tools: Tools, tmp_path: Path) -> None:
    """The piece in the box is taken, and counts as a road."""
    folder = imported_vector(tools, tmp_path, "--bbox", "-180,13,-179,15")
    assert [row[1:] for row in rows(folder, "nodes.csv")] == [
        ["-180000000", "11000000"],
        ["-179700000", "14000000"],
    ]
    assert about(folder)["left_out"] == {"line strings outside the box": 2}


def test_check_doesnt_ask_to_join_the_two_sides(tools: Tools, tmp_path: Path) -> None:
    drawing = Drawing({1: (179_700_000, 0), 2: (-179_900_000, 0)})
    drawing.way(7, [1, 2])
    folder = tmp_path / "map"
    tools.run("import", "osm", drawing.write(tmp_path / "drawn.osm"), "--out", folder)
    shown = tools.run("check", folder).stdout.splitlines()
    assert "dead ends within 5 m of a node that they aren't joined to: 0" in shown
    assert "lines that go more than half round the earth 0" in shown


def folder_across(folder: Path) -> Path:
    """A map as of another tool: line 1 leads from longitude 179.9 to -179.9, line 2 has such a step in its shape, and line 3 is
    usual."""
    folder.mkdir()
    nodes = ["id,lon,lat", "1,179900000,0", "2,-179900000,0", "3,179900000,1000"]
    lines = ["id,from,to,class,form,length,shape", "1,1,2,3,3,222640,"]
    lines += ["2,1,3,3,3,222640,-179950000 500", "3,1,3,3,3,1106,"]
    (folder / "nodes.csv").write_text("\n".join(nodes) + "\n")
    (folder / "lines.csv").write_text("\n".join(lines) + "\n")
    return folder


@pytest.mark.parametrize("most, named", [("10", "1, 2"), ("1", "1, ..")])
def test_check_names_lines_round_the_earth(
    tools: Tools, tmp_path: Path, most: str, named: str
) -> None:
    ended = tools.run("check", folder_across(tmp_path / "map"), "--most", most)
    assert ended.returncode == 0
    assert f"lines that go more than half round the earth 2: {named}" in ended.stdout.splitlines()


def test_regions_names_lines_round_the_earth(tools: Tools, tmp_path: Path) -> None:
    store = tmp_path / "store.gpkg"
    ended = tools.run("regions", folder_across(tmp_path / "map"), "--out", store)
    assert ended.returncode == 0
    hint = "hint: 2 lines go more than half round the earth: 1, 2: cut roads at longitude 180"
    assert hint in ended.stderr.splitlines()
    shown = tools.run("check", store).stdout.splitlines()
    assert "lines that go more than half round the earth 2: 1, 2" in shown
