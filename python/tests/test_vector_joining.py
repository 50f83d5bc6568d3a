"""Where roads of a vector file are joined and cut."""

import numpy as np
import pytest
import random
from collections.abc import Sequence
from pathlib import Path
from shapely.geometry import LineString, MultiLineString

from olr.checking.files import check_files
from olr.counts import Counts
from olr.importing.roads import Kind, Source, cut_roads, map_of
from olr.model.map_folder import write_map
from olr.model.road_map import RoadMap
from olr.vector.joining import join_roads
from olr.vector.reading import VectorRoad

LAT_METRES = 111_195.0
"""Metres of a degree on the sphere of the earth's size; at the equator of longitude too."""

Points = Sequence[tuple[float, float]]


def road_map(
    roads: Sequence[Points], tolerance: float = 0.5, join_vertices: bool = False
) -> tuple[RoadMap, Counts]:
    """The map of one-way roads with coordinates in metres east and north of a place on the equator."""
    kind = Kind(3, 3, True, False)
    made = [
        VectorRoad(id, Source(str(id)), kind, np.array(points, dtype=float) / LAT_METRES)
        for id, points in enumerate(roads, 1)
    ]
    counts = Counts()
    joined = join_roads(made, tolerance, join_vertices, counts)
    cut = cut_roads(joined.roads, joined.positions, counts)
    return map_of(cut.parts, joined.positions, (), counts), counts


def ends(found: RoadMap) -> list[tuple[int, int, int]]:
    """The road of each line, with its nodes."""
    return [(line.id // 10_000, line.start, line.end) for line in found.lines]


@pytest.mark.parametrize(("gap", "nodes"), [(0.0, 3), (0.45, 3), (0.6, 4), (3.0, 4)])
def test_ends_within_the_tolerance_are_one_node(gap: float, nodes: int) -> None:
    found, _ = road_map([[(0, 0), (100, 0)], [(100 + gap, 0), (200, 0)]])
    assert len(found.nodes) == nodes


def test_tolerance_of_the_user() -> None:
    roads = [[(0, 0), (100, 0)], [(104, 0), (200, 0)]]
    assert len(road_map(roads, 5.0)[0].nodes) == 3
    assert len(road_map(roads, 0.0)[0].nodes) == 4
    assert len(road_map([[(0, 0), (100, 0)], [(100, 0), (200, 0)]], 0.0)[0].nodes) == 3


def test_a_node_is_where_its_first_end_is() -> None:
    found, counts = road_map([[(0, 0), (100, 0)], [(100.4, 0), (200, 0)]])
    assert found.nodes[1].position == (round(100 / LAT_METRES * 1e6), 0)
    assert counts.changed["ends of roads moved to an end within the tolerance"] == 1


@pytest.mark.parametrize("off", [-0.4, 0.0, 0.4])
def test_an_end_on_another_road_cuts_it(off: float) -> None:
    found, counts = road_map([[(0, 0), (100, 0)], [(40, off), (40, 80)]])
    assert ends(found) == [(1, 1, 3), (1, 3, 2), (2, 3, 4)]
    assert [line.shape for line in found.lines] == [(), (), ()]
    reason = "places where an end of a road meets another road, which is cut there"
    assert counts.changed[reason] == 1


def test_an_end_off_another_road_does_not_cut_it() -> None:
    found, _ = road_map([[(0, 0), (100, 0)], [(40, 0.7), (40, 80)]])
    assert ends(found) == [(1, 1, 2), (2, 3, 4)]


def test_an_end_at_a_vertex_takes_its_place() -> None:
    found, _ = road_map([[(0, 0), (40, 5), (100, 0)], [(40.2, 5.2), (40, 80)]])
    assert ends(found) == [(1, 1, 3), (1, 3, 2), (2, 3, 4)]
    assert [line.shape for line in found.lines] == [(), (), ()]


def test_ends_on_a_long_segment_cut_it_in_order() -> None:
    roads: list[Points] = [[(0, 0), (20_000, 0)]]
    roads += [[(x, 0), (x, 50)] for x in (15_000, 300, 9_999)]
    found, _ = road_map(roads)
    assert ends(found)[:4] == [(1, 1, 5), (1, 5, 7), (1, 7, 3), (1, 3, 2)]


def test_roads_that_cross_are_not_joined() -> None:
    found, counts = road_map([[(0, 0), (100, 0)], [(50, -50), (50, 50)]])
    assert ends(found) == [(1, 1, 2), (2, 3, 4)]
    assert not counts.left_out


def test_a_common_vertex_joins_roads_if_that_is_asked_for() -> None:
    roads = [[(0, 0), (50, 0), (100, 0)], [(50, -50), (50, 0), (50, 50)]]
    found, counts = road_map(roads)
    assert len(found.lines) == 2
    [(reason, number)] = counts.left_out.items()
    assert "--join-vertices" in reason and number == 1
    found, counts = road_map(roads, join_vertices=True)
    assert len(found.lines) == 4 and len(found.nodes) == 5
    assert counts.changed["vertices that roads have in common between their ends, joined"] == 1


def test_a_road_within_the_tolerance_is_left_out() -> None:
    found, counts = road_map([[(0, 0), (0.3, 0)], [(0.3, 0), (50, 0)]])
    assert len(found.lines) == 1
    assert counts.left_out["roads that are shorter than the tolerance"] == 1


def test_a_road_that_meets_itself() -> None:
    """A lollipop: the last end lies on the road's own inner vertex. The loop is cut in two."""
    found, _ = road_map([[(0, 0), (50, 0), (100, 0), (100, 50), (50, 50), (50, 0.1)]])
    assert [(start, end) for _, start, end in ends(found)][0] == (1, 2)
    assert len(found.lines) == 3 and len(found.nodes) == 3


def test_a_node_takes_the_place_of_a_vertex_ahead() -> None:
    """An end lies 0.2 m before a vertex of another road, whose parts have no point there then."""
    found, _ = road_map([[(0, 0), (50, 0), (100, 0)], [(49.8, 40), (49.8, 0.1)]])
    assert len(found.nodes) == 4
    assert [line.shape for line in found.lines] == [(), (), ()]


def test_a_ring_with_arms() -> None:
    ring = [(20, 0), (0, 20), (-20, 0), (0, -20), (20, 0)]
    found, _ = road_map([ring, [(20.2, 0), (90, 0)], [(0, 20.2), (0, 90)], [(-10, 10), (-60, 60)]])
    assert ends(found)[:3] == [(1, 1, 3), (1, 3, 5), (1, 5, 1)]
    assert len(found.nodes) == 6


def test_a_grid_whose_ends_do_not_quite_meet() -> None:
    """Streets of a grid, drawn as whole or cut at every second crossing, with ends up to 0.2 m off."""
    draw = random.Random(35)
    roads: list[Points] = []

    def off(value: float) -> float:
        return value + draw.uniform(-0.1, 0.1)

    size = 8
    for row in range(size):
        for column in range(size - 1):
            roads.append(
                [(off(100 * column), off(100 * row)), (off(100 * column + 100), off(100 * row))]
            )
    for column in range(size):  # whole streets: the ends of the others cut them
        roads.append([(off(100 * column), off(100 * row)) for row in (0, size - 1)])
    draw.shuffle(roads)
    found, _ = road_map(roads)
    assert len(found.nodes) == size * size
    assert len(found.lines) == 2 * size * (size - 1)


def test_no_roads() -> None:
    assert road_map([])[0].lines == []


@pytest.mark.parametrize("seed", range(60))
def test_drawn_roads(seed: int, tmp_path: Path) -> None:
    """Roads drawn at random in a small square, many of whose ends meet: the map has no fault, and no road is far from where it was
    drawn or has lost more than its ends and what is bent."""
    draw = random.Random(seed)
    tolerance = draw.choice([0.0, 0.2, 0.5, 2.0])
    places = [(draw.uniform(0, 60), draw.uniform(0, 60)) for _ in range(draw.randint(4, 12))]

    def near(place: tuple[float, float]) -> tuple[float, float]:
        off = draw.choice([0.0, 0.1, 0.4, 1.5])
        return place[0] + draw.uniform(-off, off), place[1] + draw.uniform(-off, off)

    roads: list[Points] = [
        [near(draw.choice(places)) for _ in range(draw.randint(2, 6))] for _ in range(12)
    ]
    found, _ = road_map(roads, tolerance, draw.random() < 0.5)
    write_map(found, tmp_path / "map", {})
    assert check_files(tmp_path / "map", 1)[0].kept == []
    node = {id: position for id, position in found.nodes}
    drawn = {id: LineString(points) for id, points in enumerate(roads, 1)}
    made: dict[int, list[LineString]] = {id: [] for id in drawn}
    for line in found.lines:
        positions = [node[line.start], *line.shape, node[line.end]]
        metres = [(lon * LAT_METRES / 1e6, lat * LAT_METRES / 1e6) for lon, lat in positions]
        made[line.id // 10_000].append(LineString(metres))
    reach = 6 * tolerance + 0.2  # a chain of ends may be moved by more than the tolerance
    for id, pieces in made.items():
        assert all(piece.within(drawn[id].buffer(reach)) for piece in pieces)
        if pieces:
            assert drawn[id].within(MultiLineString(pieces).buffer(reach))
