"""What `check` says of a map with few nodes: how near dead ends are to other roads, and which lengths are far from shapes."""

import numpy as np
import pytest
from pathlib import Path

from olr.checking.faults import Fault, Faults
from olr.checking.files import check_files
from olr.checking.lengths import likely_unit, look_at_lengths
from olr.checking.map_arrays import MapArrays, arrays_of
from olr.checking.network import look_at_network
from stores import folder_of

METRE = 1e6 / 111_319.49
"""Microdegrees of longitude at the equator of WGS 84."""


def map_of(metres: list[float], lines: list[tuple[int, int]], length: int = 10) -> MapArrays:
    """A map whose nodes lie so many metres east of longitude 0 on the equator, with straight lines between them by their indices."""
    none = np.zeros(0, dtype=np.int64)
    ends = np.array(lines, dtype=np.int64).reshape(-1, 2)
    some = np.ones(len(lines), dtype=np.int64)
    return MapArrays(
        node_id=np.arange(1, len(metres) + 1),
        lon=np.array([round(it * METRE) for it in metres], dtype=np.int64),
        lat=np.zeros(len(metres), dtype=np.int64),
        line_id=np.arange(1, len(lines) + 1),
        start=ends[:, 0],
        end=ends[:, 1],
        road_class=some,
        form=some,
        length=some * length,
        points=some * 0,
        shape_lon=none,
        shape_lat=none,
        ban_first=none,
        ban_second=none,
    )


@pytest.mark.parametrize("is_reversed", [False, True])
def test_a_dead_end_of_a_short_road(is_reversed: bool) -> None:
    """The node of another road is found behind the one to which its own road leads, which is nearer, whichever way that goes."""
    lines = [(0, 1), (1, 3), (2, 4)]
    if is_reversed:
        lines = [(end, start) for start, end in lines]
    found = look_at_network(map_of([0, 2, 4.5, 300, 400], lines))
    assert [(a, b) for a, b, _ in found.near] == [(2, 1), (0, 2)]
    assert [metres for _, _, metres in found.near] == pytest.approx([2.5, 4.5], abs=0.1)


def test_what_is_a_dead_end() -> None:
    """A node from which roads lead to one other node, and not one without a line."""
    found = look_at_network(map_of([0, 100, 200, 300], [(0, 1), (1, 0), (1, 2)]))
    assert found.dead_ends.tolist() == [0, 2] and found.unused_nodes.tolist() == [3]


@pytest.mark.parametrize("metres, is_near", [(4.9, True), (5.1, False)])
def test_a_dead_end_that_is_far(metres: float, is_near: bool) -> None:
    """Beyond five metres nothing is said."""
    found = look_at_network(map_of([0, metres, 100, 200], [(0, 2), (1, 3)]))
    assert [(a, b) for a, b, _ in found.near] == ([(0, 1), (1, 0)] if is_near else [])


@pytest.mark.parametrize(
    "metres, length, is_far",
    [
        (3.0, 39, False),
        (3.0, 21, False),
        (3.0, 42, True),
        (3.0, 18, True),
        (100.0, 1045, False),
        (100.0, 1055, True),
        (100.0, 945, True),
    ],
)
def test_lengths_that_are_far_from_shapes(metres: float, length: int, is_far: bool) -> None:
    """By more than five percent and by more than ten decimetres: rounding to microdegrees is no fault."""
    found = look_at_lengths(map_of([0, metres], [(0, 1)], length))
    assert found.measured == pytest.approx([10 * metres], abs=0.6)
    assert found.far.tolist() == ([0] if is_far else [])


@pytest.mark.parametrize(
    "ratio, latitude, unit",
    [
        (1.0, 0, None),
        (1.02, 11.4, None),
        (1.1, 24.6, "decimetres of Web Mercator, which aren't those on the earth"),
        (0.1, 50, "metres"),
        (0.104, 50, None),
    ],
)
def test_units_that_may_have_been_meant(ratio: float, latitude: float, unit: str | None) -> None:
    """Within two percent of one, and by more than five from decimetres."""
    assert likely_unit(ratio, latitude) == unit


def test_faults_of_one_kind() -> None:
    """As many are kept as is said, and the others are counted."""
    faults = Faults(2)
    for record in range(1, 5):
        faults.add(Fault("Field", "nodes", "is wrong", "Mend it", record, record, column=2))
    faults.add(Fault("Field", "nodes", "is wrong", "Mend it", 1, 1, column=3))
    assert [(one.record, one.column) for one in faults.kept] == [(1, 2), (2, 2), (1, 3)]
    assert faults.left_out() == {("nodes", "Field", 2): 2} and faults.total() == 5


def test_nodes_and_lines_in_any_order(tmp_path: Path) -> None:
    """The arrays have them in that of their ids."""
    nodes = "id,lon,lat\n9,90,1\n2,20,2\n5,50,3\n"
    lines = "id,from,to,class,form,length,shape\n8,9,5,1,2,30,7 7\n3,2,9,4,5,60,6 6;8 8\n"
    _, tables = check_files(folder_of(tmp_path, nodes, lines, "from,to\n3,8\n"), 10)
    found = arrays_of(tables)
    assert found.node_id.tolist() == [2, 5, 9] and found.lon.tolist() == [20, 50, 90]
    assert found.line_id.tolist() == [3, 8] and found.length.tolist() == [60, 30]
    assert (found.start.tolist(), found.end.tolist()) == ([0, 2], [2, 1])
    assert found.points.tolist() == [2, 1] and found.shape_lon.tolist() == [6, 8, 7]
    assert (found.ban_first.tolist(), found.ban_second.tolist()) == ([0], [1])
