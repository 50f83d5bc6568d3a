"""Bans on turning back and turn restrictions by hand: what is just meant, and what isn't."""

import pytest
from collections.abc import Sequence
from pathlib import Path

from conftest import Import
from drawing import Drawing
from olr.counts import Counts
from olr.importing.u_turns import u_turn_bans
from olr.model.road_map import Ban, Line, Node, Position, RoadMap
from olr.osm.importing import Options, import_osm
from olr.osm.restrictions import NOT_ON_MAP, ONLY_ELSEWHERE, UNDECIDED
from olr.osm.tags import read_tag_table

CROSSING = {1: (0, 0), 2: (0, 1000), 3: (1000, 0), 4: (0, -1000), 5: (-1000, 0)}
"""Node 1 in the middle, 2 to the north, 3 east, 4 south, 5 west."""


def line(
    id: int, start: int, end: int, shape: Sequence[tuple[int, int]] = (), road_class: int = 5
) -> Line:
    """A line."""
    return Line(id, start, end, road_class, 3, 100, tuple(Position(*it) for it in shape))


@pytest.mark.parametrize("north", [100, -100])
@pytest.mark.parametrize("east, is_sharp", [(17, True), (1000, False)])
def test_a_turn_that_is_sharp(east: int, is_sharp: bool, north: int) -> None:
    """The two directions of a road are drawn apart, and leave their node to the north or south: the one a little to the west, the other a
    little or far to the east."""
    nodes = [Node(1, Position(0, 0)), Node(2, Position(0, 50 * north))]
    roads = [line(7, 2, 1, [(-17, north)]), line(8, 1, 2, [(east, north)]), line(9, 1, 3)]
    found = u_turn_bans(RoadMap(nodes, roads, []), "dead-ends", Counts())
    assert found == ([Ban(7, 8)] if is_sharp else [])


def test_a_loop_that_is_driven_there_and_back() -> None:
    """A line from a node to itself that is its own other direction doesn't lead back along itself; another one like it does."""
    nodes = [Node(1, Position(0, 0))]
    loops = [line(7, 1, 1, [(50, 50)]), line(9, 1, 3)]
    assert u_turn_bans(RoadMap(nodes, loops, []), "dead-ends", Counts()) == []
    loops.append(line(8, 1, 1, [(50, 50)]))
    found = u_turn_bans(RoadMap(nodes, loops, []), "dead-ends", Counts())
    assert found == [Ban(7, 8), Ban(8, 7)]


@pytest.mark.parametrize("ways, found", [(2, 1), (3, 0)])
def test_plain_nodes(ways: int, found: int) -> None:
    """Two lines start there: one leads back, and the other one on."""
    roads = [line(7, 2, 1), line(8, 1, 2), *(line(10 + it, 1, 3 + it) for it in range(ways - 1))]
    assert len(u_turn_bans(RoadMap([], roads, []), "plain", Counts())) == found


def test_the_most_important_junctions(monkeypatch: pytest.MonkeyPatch) -> None:
    """Where there isn't room for all bans those at nodes of important roads are made, also from unimportant ones there."""
    monkeypatch.setattr("olr.importing.u_turns.MOST_BANS", 3)
    roads = [
        *(line(70, 1, 2, road_class=1), line(71, 2, 1, road_class=1)),
        *(line(80, 1, 3, road_class=6), line(81, 3, 1, road_class=6)),
        *(line(90, 4, 5, road_class=4), line(91, 5, 4, road_class=4)),
        *(line(95, 4, 6, road_class=4), line(96, 6, 4, road_class=4)),
    ]
    counts = Counts()
    found = u_turn_bans(RoadMap([], roads, []), "dead-ends", counts)
    assert found[:2] == [Ban(71, 70), Ban(81, 80)] and len(found) == 3
    assert sum(counts.left_out.values()) == 1


@pytest.mark.parametrize("north, is_clear", [(700, True), (200, False)])
def test_turns_of_nearly_the_same_angle(north: int, is_clear: bool, imported: Import) -> None:
    """A way passes through the node, and both its arms are to the right: one has to fit better by thirty degrees."""
    drawing = Drawing(CROSSING | {6: (1000, north)})
    drawing.way(4, [4, 1])
    drawing.way(10, [3, 1, 6], oneway="no")
    drawing.way(2, [1, 2])
    drawing.turn("no_right_turn", 4, 1, 10)
    found = imported(drawing)
    assert found.counts.left_out == ({} if is_clear else {UNDECIDED: 1})
    assert len(found.bans()) == is_clear


def test_turning_back_on_a_road_of_one_way(imported: Import) -> None:
    """There is no such turn."""
    drawing = Drawing(CROSSING)
    drawing.way(10, [5, 1, 3], oneway="yes")
    drawing.way(2, [1, 2])
    drawing.turn("no_u_turn", 10, 1, 10)
    found = imported(drawing)
    assert found.counts.left_out == {NOT_ON_MAP: 1} and not found.bans()


def test_only_into_a_road_that_is_left_out(tmp_path: Path) -> None:
    """All other turns are banned where that road begins, and none where another restriction says so of it in error."""
    drawing = Drawing(CROSSING | {6: (2000, 0)})
    drawing.way(5, [5, 1])
    drawing.way(4, [4, 1])
    drawing.way(3, [1, 3])
    drawing.way(7, [3, 6])
    drawing.way(8, [3, 2])
    drawing.way(9, [1, 2], "service")
    drawing.turn("only_left_turn", 5, 1, 9)
    drawing.turn("only_left_turn", 3, 3, 9)
    counts = Counts()
    import_osm(drawing.write(tmp_path / "drawn.osm"), Options(u_turns="allowed"), counts)
    assert counts.left_out[NOT_ON_MAP] == 1 and counts.changed[ONLY_ELSEWHERE] == 1


@pytest.mark.parametrize(
    "tags, directions",
    [
        ({"motor_vehicle": "yes", "motor_vehicle:forward": "no"}, (False, True)),
        ({"motor_vehicle": "no", "motor_vehicle:backward": "yes"}, (False, True)),
        ({"access": "no", "motor_vehicle": "destination"}, (True, True)),
        ({"motor_vehicle": "no;destination"}, (True, True)),
    ],
)
def test_a_direction_says_more_than_the_whole_road(
    tags: dict[str, str], directions: tuple[bool, bool]
) -> None:
    table = read_tag_table()
    assert table.usable_directions({"highway": "residential"} | tags) == directions


def test_positions_are_the_nearest_microdegrees(tmp_path: Path) -> None:
    """A file has one digit more."""
    drawing = Drawing({1: (10.4, -10.4), 2: (1000.6, -1000.6)})
    drawing.way(5, [1, 2])
    made = import_osm(drawing.write(tmp_path / "drawn.osm"), Options(u_turns="allowed"), Counts())
    assert [node.position for node in made.road_map.nodes] == [(10, -10), (1001, -1001)]
