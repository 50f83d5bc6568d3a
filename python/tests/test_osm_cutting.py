"""Where ways are cut, and what becomes of points that coincide, lack or lie elsewhere."""

import pytest

from conftest import Import
from drawing import Drawing
from olr.errors import ToolError
from olr.model.box import Box
from olr.model.road_map import Position
from olr.osm.importing import Options


def test_ways_are_cut_where_they_meet(imported: Import) -> None:
    drawing = Drawing({1: (0, 0), 2: (500, 9), 3: (1000, 0), 4: (2000, 0), 5: (1000, 900)})
    drawing.way(1, [1, 2, 3, 4], oneway="yes")
    drawing.way(2, [3, 5], oneway="yes")
    result = imported(drawing)
    assert result.routes() == {(1, 3), (3, 4), (3, 5)}
    assert result.line(10000).shape == (Position(500, 9),)
    assert [node.id for node in result.road_map.nodes] == [1, 3, 4, 5]


def test_ways_that_cross_without_a_node_dont_meet(imported: Import) -> None:
    drawing = Drawing({1: (0, 0), 2: (2000, 0), 3: (1000, -900), 4: (1000, 900)})
    drawing.way(1, [1, 2], oneway="yes")
    drawing.way(2, [3, 4], oneway="yes")
    assert imported(drawing).routes() == {(1, 2), (3, 4)}


def test_a_footway_doesnt_cut(imported: Import) -> None:
    drawing = Drawing({1: (0, 0), 2: (1000, 0), 3: (2000, 0), 4: (1000, 900)})
    drawing.way(1, [1, 2, 3], oneway="yes")
    drawing.way(2, [2, 4], "footway")
    assert imported(drawing).routes() == {(1, 3)}


def test_the_backward_line_has_the_shape_reversed(imported: Import) -> None:
    drawing = Drawing({1: (0, 0), 2: (400, 9), 3: (700, 5), 4: (1000, 0)})
    drawing.way(1, [1, 2, 3, 4])
    result = imported(drawing)
    assert result.line(10000).shape == (Position(400, 9), Position(700, 5))
    assert result.line(10001).shape == (Position(700, 5), Position(400, 9))
    assert result.line(10000).length == result.line(10001).length


@pytest.mark.parametrize("shape_points, parts", [(64, 1), (65, 2), (129, 2), (130, 3)])
def test_ways_are_cut_past_64_shape_points(imported: Import, shape_points: int, parts: int) -> None:
    last = shape_points + 2
    drawing = Drawing({id: (100 * id, id % 2) for id in range(1, last + 1)})
    drawing.way(1, range(1, last + 1), oneway="yes")
    result = imported(drawing)
    assert len(result.road_map.lines) == parts
    assert max(len(line.shape) for line in result.road_map.lines) <= 64
    assert sum(len(line.shape) + 1 for line in result.road_map.lines) == last - 1
    assert result.counts.changed.get("roads cut past 64 shape points", 0) == (parts > 1)


def test_a_closed_roundabout_of_its_own_is_cut_in_two(imported: Import) -> None:
    drawing = Drawing({1: (0, 0), 2: (200, 200), 3: (0, 400), 4: (-200, 200), 5: (0, -900)})
    drawing.way(1, [1, 2, 3, 4, 1], junction="roundabout")
    drawing.way(2, [5, 1])
    result = imported(drawing)
    assert result.routes() == {(1, 3), (3, 1), (5, 1), (1, 5)}
    assert result.counts.changed == {"self-loops cut in two": 1}


def test_a_roundabout_with_arms_is_cut_at_them(imported: Import) -> None:
    drawing = Drawing(
        {1: (0, 0), 2: (200, 200), 3: (0, 400), 4: (-200, 200), 5: (900, 200), 6: (-900, 200)}
    )
    drawing.way(1, [1, 2, 3, 4, 1], junction="roundabout")
    drawing.way(2, [2, 5])
    drawing.way(3, [4, 6])
    result = imported(drawing)
    arms = {(2, 5), (5, 2), (4, 6), (6, 4)}
    assert result.routes() - arms == {(1, 2), (2, 4), (4, 1)}
    assert not result.counts.changed


def test_a_way_that_meets_itself_is_cut_there(imported: Import) -> None:
    drawing = Drawing({1: (0, 0), 2: (1000, 0), 3: (1500, 500), 4: (1500, -500)})
    drawing.way(1, [1, 2, 3, 4, 2], oneway="yes")
    result = imported(drawing)
    assert result.routes() == {(1, 2), (2, 3), (3, 2)}
    assert result.counts.changed == {"self-loops cut in two": 1}


def test_a_way_there_and_back(imported: Import) -> None:
    drawing = Drawing({1: (0, 0), 2: (1000, 0)})
    drawing.way(1, [1, 2, 1], oneway="yes")
    assert imported(drawing).routes() == {(1, 2), (2, 1)}


def test_equal_neighbours_are_dropped(imported: Import) -> None:
    drawing = Drawing(
        {1: (0, 0), 2: (0.3, 0), 3: (500, 0), 4: (500.2, 0.1), 5: (1000, 0.2), 6: (1000, 0)}
    )
    drawing.way(1, [1, 2, 3, 4, 5, 6], oneway="yes")
    result = imported(drawing)
    assert result.routes() == {(1, 6)}
    assert result.line(10000).shape == (Position(500, 0),)
    assert result.counts.changed == {"equal neighbours dropped": 3}


def test_a_node_twice_in_a_row_is_dropped(imported: Import) -> None:
    drawing = Drawing({1: (0, 0), 2: (500, 0), 3: (1000, 0), 4: (500, 900)})
    drawing.way(1, [1, 1, 2, 2, 3, 3], oneway="yes")
    result = imported(drawing)
    assert result.routes() == {(1, 3)}
    assert result.counts.changed == {"equal neighbours dropped": 3}
    drawing.way(2, [2, 4], oneway="yes")
    result = imported(drawing)
    assert result.routes() == {(1, 2), (2, 3), (2, 4)}
    assert result.counts.changed == {"equal neighbours dropped": 3}


def test_neighbouring_nodes_in_one_microdegree_are_merged(imported: Import) -> None:
    drawing = Drawing({1: (0, 0), 2: (1000, 0), 3: (1000.2, 0), 4: (2000, 0), 5: (1000, 900)})
    drawing.way(1, [1, 2], oneway="yes")
    drawing.way(2, [2, 3], oneway="yes")
    drawing.way(3, [3, 4], oneway="yes")
    drawing.way(4, [3, 5], oneway="yes")
    result = imported(drawing)
    assert result.routes() == {(1, 2), (2, 4), (2, 5)}
    assert result.counts.changed == {"nodes merged with a neighbour in the same microdegree": 1}


def test_nodes_in_one_microdegree_on_two_roads_stay_apart(imported: Import) -> None:
    drawing = Drawing({1: (0, 0), 2: (1000, 0), 3: (1000.2, 0), 4: (2000, 0)})
    drawing.way(1, [1, 2], oneway="yes")
    drawing.way(2, [3, 4], oneway="yes")
    result = imported(drawing)
    assert result.routes() == {(1, 2), (3, 4)}
    assert not result.counts.changed


def test_restrictions_over_a_merged_node_hold(imported: Import) -> None:
    drawing = Drawing({1: (0, 0), 2: (1000, 0), 3: (1000.2, 0), 4: (2000, 0)})
    drawing.way(1, [1, 2])
    drawing.way(2, [2, 3])
    drawing.way(3, [3, 4])
    drawing.turn("no_u_turn", 3, 3, 3)
    assert imported(drawing).bans() == {(30001, 30000)}


def test_a_way_that_leaves_the_extract_and_comes_back_is_two(imported: Import) -> None:
    drawing = Drawing({1: (0, 0), 2: (500, 0), 5: (2500, 0), 6: (3000, 0)})
    drawing.way(1, [1, 2, 3, 4, 5, 6], oneway="yes")
    result = imported(drawing)
    assert result.routes() == {(1, 2), (5, 6)}
    assert [line.id for line in result.road_map.lines] == [10000, 10002]
    assert result.counts.left_out == {"nodes of ways that the file lacks": 2}


def test_ways_without_two_nodes_are_counted(imported: Import) -> None:
    drawing = Drawing({1: (0, 0), 2: (500, 0)})
    drawing.way(1, [1, 2])
    drawing.way(2, [2, 9])
    drawing.way(3, [1])
    result = imported(drawing)
    assert len(result.road_map.lines) == 2
    assert result.counts.left_out["ways without two nodes"] == 2


def test_ends_beyond_latitude_80_are_left_out(imported: Import) -> None:
    drawing = Drawing(
        {1: (0, 79_999_000), 2: (0, 80_000_000), 3: (0, 80_000_001), 4: (0, 80_001_000)}
    )
    drawing.way(1, [1, 2, 3, 4], oneway="yes")
    result = imported(drawing)
    assert result.routes() == {(1, 2)}
    assert result.counts.left_out == {"nodes of ways beyond latitude 80": 2}


def test_lengths_are_on_the_ellipsoid(imported: Import) -> None:
    # A degree from the equator: 110,574.4 m to the north and 111,319.5 m to the east, on the ellipsoid of WGS 84.
    drawing = Drawing({1: (0, 0), 2: (0, 1_000_000), 3: (1_000_000, 0), 4: (0, 1)})
    drawing.way(1, [1, 2], oneway="yes")
    drawing.way(2, [1, 3], oneway="yes")
    drawing.way(3, [1, 4], oneway="yes")
    result = imported(drawing)
    assert [line.length for line in result.road_map.lines] == [1_105_744, 1_113_195, 1]


@pytest.mark.parametrize(
    "box, routes",
    [
        (Box(-100, -100, 1100, 100), {(1, 3), (9, 8)}),
        (Box(900, -100, 2100, 100), {(1, 4)}),
        (Box(-100, -100, 100, 100), {(1, 2)}),
        (Box(400, -10, 600, 10), {(9, 8)}),
    ],
)
def test_a_box_keeps_steps_with_an_end_in_it(
    imported: Import, box: Box, routes: set[tuple[int, int]]
) -> None:
    drawing = Drawing(
        {1: (0, 0), 2: (1000, 0), 3: (2000, 0), 4: (3000, 0), 8: (500, 0), 9: (500, 900)}
    )
    drawing.way(1, [1, 2, 3, 4], oneway="yes")
    drawing.way(2, [9, 8], oneway="yes")
    result = imported(drawing, Options(box=box, u_turns="allowed"))
    assert result.routes() == routes


def test_a_way_that_leaves_the_box_and_comes_back_is_two(imported: Import) -> None:
    far = {3: (1000, 2000), 4: (1500, 2000)}
    drawing = Drawing({1: (0, 0), 2: (1000, 0), 5: (1500, 0), 6: (2000, 0)} | far)
    drawing.way(1, [1, 2, 3, 4, 5, 6], oneway="yes")
    result = imported(drawing, Options(box=Box(-100, -100, 2100, 100), u_turns="allowed"))
    assert result.routes() == {(1, 3), (4, 6)}


def test_a_box_without_roads(imported: Import) -> None:
    drawing = Drawing({1: (0, 0), 2: (1000, 0)})
    drawing.way(1, [1, 2])
    with pytest.raises(ToolError, match="has no roads in the box"):
        imported(drawing, Options(box=Box(5000, 5000, 6000, 6000)))


def test_a_second_way_with_the_same_id_is_left_out(imported: Import) -> None:
    drawing = Drawing({1: (0, 0), 2: (1000, 0)})
    drawing.way(1, [1, 2], oneway="yes")
    drawing.way(1, [1, 2], oneway="yes")
    result = imported(drawing)
    assert len(result.road_map.lines) == 1
    assert result.counts.left_out == {"ways with the id of an earlier way": 1}
