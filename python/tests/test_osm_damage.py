"""OpenStreetMap files that were cut short, or whose nodes can't be where they say."""

import pytest
from pathlib import Path

from conftest import Tools
from drawing import Drawing, write_pbf
from vector_files import about, rows

HINT = "hint: the file has no relation, and so no turn restriction: if it should have some, it may have been cut short"


def crossing() -> Drawing:
    """Three streets that meet at node 2, and a restriction there."""
    drawing = Drawing({1: (0, 0), 2: (1000, 0), 3: (2000, 0), 4: (1000, 900)})
    for id, end in ((7, 1), (8, 3), (9, 4)):
        drawing.way(id, [end, 2])
    drawing.turn("no_left_turn", 7, 2, 9)
    return drawing


@pytest.fixture
def whole(tmp_path: Path) -> Path:
    """The crossing as a PBF."""
    drawn = crossing().write(tmp_path / "drawn.osm")
    return write_pbf(drawn, tmp_path / "drawn.osm.pbf", "Type_then_ID")


def blocks(file: Path) -> list[int]:
    """Where the blocks of a PBF end: the header, and those of nodes, ways and relations. A block is the size of its head, in four bytes, its
    head, and its body; the size of the body is the last number of the head, in a byte or two."""
    data, ends = file.read_bytes(), [0]
    while ends[-1] < len(data):
        start = ends[-1] + 4
        behind = start + int.from_bytes(data[ends[-1] : start], "big")
        low, high = data[behind - 2 : behind]
        size = high if low == 0x18 else (low & 0x7F) | high << 7
        ends.append(behind + size)
    assert ends[-1] == len(data)
    return ends[1:]


def test_a_whole_file(tools: Tools, whole: Path, tmp_path: Path) -> None:
    ended = tools.run("import", "osm", whole, "--out", tmp_path / "map", "--u-turns", "allowed")
    assert ended.returncode == 0 and ended.stderr == ""
    assert len(rows(tmp_path / "map", "bans.csv")) == 1


def test_a_file_that_ends_before_its_relations(tools: Tools, whole: Path, tmp_path: Path) -> None:
    """No block says how many follow it. But there is hardly a town without a relation."""
    whole.write_bytes(whole.read_bytes()[: blocks(whole)[-2]])
    ended = tools.run("import", "osm", whole, "--out", tmp_path / "map")
    assert ended.returncode == 0 and len(rows(tmp_path / "map", "lines.csv")) == 6
    (line,) = ended.stderr.splitlines()
    assert line.startswith(HINT)


@pytest.mark.parametrize("left, error", [(1, "has no roads"), (2, "has no roads")])
def test_a_file_that_ends_before_its_ways(
    tools: Tools, whole: Path, tmp_path: Path, left: int, error: str
) -> None:
    whole.write_bytes(whole.read_bytes()[: blocks(whole)[left - 1]])
    ended = tools.run("import", "osm", whole, "--out", tmp_path / "map")
    assert ended.returncode == 1 and not (tmp_path / "map").exists()
    assert ended.stderr.splitlines()[-1] == f"olr-tools: {whole} {error}"
    assert any(line.startswith(HINT) for line in ended.stderr.splitlines())


@pytest.mark.parametrize("place", [0, 1, 2, 3])
def test_a_file_that_ends_amid_a_block(
    tools: Tools, whole: Path, tmp_path: Path, place: int
) -> None:
    whole.write_bytes(whole.read_bytes()[: blocks(whole)[place] - 1])
    ended = tools.run("import", "osm", whole, "--out", tmp_path / "map")
    assert ended.returncode == 1 and len(ended.stderr.splitlines()) == 1
    assert "can't be read as OpenStreetMap data" in ended.stderr


def test_other_formats_end_with_a_mark(tools: Tools, tmp_path: Path) -> None:
    """So a file without a relation is whole."""
    drawing = Drawing({1: (0, 0), 2: (1000, 0)})
    drawing.way(7, [1, 2])
    file = drawing.write(tmp_path / "drawn.osm")
    assert tools.run("import", "osm", file, "--out", tmp_path / "map").stderr == ""


def test_nodes_that_are_not_on_the_earth(tools: Tools, tmp_path: Path) -> None:
    """Beyond latitude 90 and longitude 180; one beyond latitude 80, and one that the file lacks, are counted by themselves."""
    far = {5: (0, 90_000_001), 6: (180_000_001, 0), 7: (0, -95_000_000), 8: (0, 85_000_000)}
    drawing = Drawing({1: (0, 0), 2: (1000, 0)} | far)
    drawing.way(7, [1, 2, 5, 6, 7, 8, 9])
    out = tmp_path / "map"
    tools.run("import", "osm", drawing.write(tmp_path / "drawn.osm"), "--out", out)
    assert about(out)["left_out"] == {
        "nodes of ways beyond latitude 80": 1,
        "nodes of ways that aren't on the earth: beyond latitude 90 or longitude 180": 3,
        "nodes of ways that the file lacks": 1,
    }
