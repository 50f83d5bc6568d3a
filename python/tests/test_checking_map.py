"""What `check` says of a map without a fault: its network, its lengths, its classes."""

import os
import pty
import pytest
import subprocess
from pathlib import Path

from olr.checking.files import check_files
from olr.checking.lengths import Lengths, likely_unit, look_at_lengths
from olr.checking.map_arrays import MapArrays, arrays_of
from olr.checking.network import Connectivity, look_at_network
from olr.model.map_folder import write_map
from olr.model.road_map import Ban, Line, Node, Position, RoadMap
from olr.tools import run


def read(folder: Path, road_map: RoadMap) -> MapArrays:
    """The arrays of a map, by way of its files."""
    write_map(road_map, folder, {})
    faults, tables = check_files(folder, 10)
    assert faults.kept == []
    return arrays_of(tables)


def network_of(
    folder: Path, lines: list[tuple[int, int]], bans: list[tuple[int, int]] = []
) -> Connectivity:
    """The network of lines, numbered from 1, between nodes that lie 100 m from each other."""
    nodes = sorted({node for line in lines for node in line})
    road_map = RoadMap(
        [Node(node, Position(1000 * node, node % 7)) for node in nodes],
        [Line(id, a, b, 3, 3, 10 * id, ()) for id, (a, b) in enumerate(lines, 1)],
        [Ban(*ban) for ban in bans],
    )
    return look_at_network(read(folder / "map", road_map))


def parts(network: Connectivity) -> list[tuple[str, list[int]]]:
    """The parts as their role and the numbers of their lines."""
    return [(part.role, (part.lines + 1).tolist()) for part in network.parts]


def test_a_two_way_road_is_one_part(tmp_path: Path) -> None:
    network = network_of(tmp_path, [(1, 2), (2, 1), (2, 3), (3, 2)])
    assert parts(network) == [("island", [1, 2, 3, 4])]
    assert network.networks == 1 and network.dead_ends.tolist() == [0, 2]


def test_traps_sources_and_passages(tmp_path: Path) -> None:
    """A ring, a line into it, a line out of it, and a line past it from the one to the other."""
    lines = [(1, 2), (2, 3), (3, 1), (9, 1), (2, 8), (9, 8), (7, 9)]
    found = dict((tuple(numbers), role) for role, numbers in parts(network_of(tmp_path, lines)))
    assert found == {
        (1, 2, 3): "passage",
        (4,): "passage",
        (5,): "trap",
        (6,): "trap",
        (7,): "source",
    }


def test_a_ban_makes_a_trap(tmp_path: Path) -> None:
    """Turning back at the dead end is banned, so that the road to it can't be left."""
    lines = [(1, 2), (2, 1), (2, 3), (3, 2)]
    assert parts(network_of(tmp_path, lines, [(3, 4)])) == [
        ("source", [4]),
        ("passage", [1, 2]),
        ("trap", [3]),
    ]


def test_two_networks(tmp_path: Path) -> None:
    network = network_of(tmp_path, [(1, 2), (2, 1), (5, 6), (6, 5), (6, 7)])
    assert network.networks == 2 and network.largest_network == 3


def test_dead_ends_near_another_road(tmp_path: Path) -> None:
    """Two roads whose ends lie 1.1 m from each other at the equator, and one 11 m away."""
    nodes = [(1, 0), (2, 5000), (3, 5010), (4, 9000), (5, 9100), (6, 20000)]
    road_map = RoadMap(
        [Node(id, Position(lon, 0)) for id, lon in nodes],
        [
            Line(id, a, b, 3, 3, 50, (Position(5 * a, 5),))
            for id, (a, b) in enumerate([(1, 2), (3, 4), (5, 6)], 1)
        ],
    )
    network = look_at_network(read(tmp_path / "map", road_map))
    assert [(a, b) for a, b, _ in network.near] == [(1, 2), (2, 1)]
    assert network.near[0][2] == pytest.approx(1.11, abs=0.01)


def lengths_of(folder: Path, factor: float, lat: int = 0) -> tuple[MapArrays, Lengths]:
    """A map of lines along a parallel, 1000 m long and more at the equator, with their lengths times a factor."""
    metres_of_degree = 111_319.49  # of longitude at the equator of WGS 84
    step = 8983  # microdegrees: 1000.0 m
    road_map = RoadMap(
        [Node(id, Position(step * id, lat)) for id in range(1, 12)],
        [
            Line(id, id, id + 1, 3, 3, round(step * metres_of_degree / 1e5 * factor), ())
            for id in range(1, 11)
        ],
    )
    found = read(folder / "map", road_map)
    return found, look_at_lengths(found)


def test_lengths_that_are_right(tmp_path: Path) -> None:
    _, lengths = lengths_of(tmp_path, 1.0)
    assert lengths.measured == pytest.approx(10_000, abs=0.5)
    assert lengths.far.tolist() == [] and lengths.ratio == pytest.approx(1.0, abs=1e-4)


def test_the_greatest_share_by_which_a_line_is_shorter(tmp_path: Path) -> None:
    _, lengths = lengths_of(tmp_path, 0.9)
    assert len(lengths.far) == 10
    assert lengths.shorter is not None and lengths.shorter.share == pytest.approx(0.1, abs=1e-4)
    assert lengths.shorter_long == lengths.shorter
    _, lengths = lengths_of(tmp_path / "longer", 1.2)
    assert lengths.shorter is None and lengths.shorter_long is None


@pytest.mark.parametrize(
    ("factor", "unit"),
    [(0.1, "metres"), (10, "centimetres"), (0.328084, "feet"), (1.0, None), (1.4, None)],
)
def test_lengths_in_another_unit(factor: float, unit: str | None, tmp_path: Path) -> None:
    _, lengths = lengths_of(tmp_path, factor)
    assert lengths.ratio is not None and likely_unit(lengths.ratio, 49.0) == unit


def test_lengths_of_web_mercator() -> None:
    assert "Web Mercator" in str(likely_unit(2.0, 60.0))
    assert likely_unit(1.0, 0.0) is None


def test_the_report_of_the_example(top: Path, capsys: pytest.CaptureFixture[str]) -> None:
    assert run(["check", str(top / "examples")]) == 0
    shown = capsys.readouterr().out.splitlines()
    assert shown[:4] == [
        "nodes 20 of at most 100,000",
        "lines 41 of at most 200,000",
        "bans 3 of at most 200,000",
        "faults 0",
    ]
    assert (
        "box 7.408319,49.867200,7.426745,49.874467 (west, south, east, north in degrees)" in shown
    )
    assert "traps 1 (can be entered but not left): 1 line, 0.134 km" in shown


@pytest.mark.parametrize("lines", ["", "1,1,1,3,3,5,5 5\n"])
def test_small_maps(lines: str, tmp_path: Path) -> None:
    """Without lines, and without nodes, there is little to say."""
    nodes = "id,lon,lat\n1,0,0\n" if lines else "id,lon,lat\n"
    (tmp_path / "nodes.csv").write_text(nodes)
    (tmp_path / "lines.csv").write_text("id,from,to,class,form,length,shape\n" + lines)
    assert run(["check", str(tmp_path)]) == 0


def test_too_many_turns_with_bans(tmp_path: Path, monkeypatch: pytest.MonkeyPatch) -> None:
    """Where the turns at nodes with bans are too many, bans are left out, and the report says so."""
    monkeypatch.setattr("olr.checking.network.MOST_TURNS", 0)
    found = network_of(tmp_path, [(1, 2), (2, 1), (2, 3), (3, 2)], [(3, 4)])
    assert not found.bans_counted and len(found.parts) == 1


def test_the_bar_is_for_terminals(top: Path, tmp_path: Path) -> None:
    """On a terminal check shows how far it is; in a pipe standard error stays empty."""
    command = [str(top / "olr-tools"), "check", str(top / "examples")]
    piped = subprocess.run(command, capture_output=True, text=True, check=True, timeout=600)
    assert piped.stderr == ""
    terminal, ours = pty.openpty()
    with open(terminal, "rb", buffering=0, closefd=True) as shown:
        ended = subprocess.run(command, stdout=subprocess.PIPE, stderr=ours, text=True, timeout=600)
        os.close(ours)
        assert ended.stdout == piped.stdout
        assert b"lines.csv" in shown.read(65536)
