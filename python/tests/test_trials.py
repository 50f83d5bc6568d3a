"""Drawn paths and references, changes of references and of maps, and what is a right place."""

import math
import numpy as np
import pytest
import random
from collections import Counter
from collections.abc import Sequence
from dataclasses import replace
from itertools import islice, pairwise
from pathlib import Path

from conftest import REFERENCE, Program
from exact_paths import LineGraph
from olr.errors import ToolError
from olr.model.answers import ReferencePoint
from olr.model.map_folder import read_map, write_map
from olr.model.pieces import Piece
from olr.model.reference import read_reference
from olr.model.road_map import MICRODEGREE, Ban, Line, Node, Position, RoadMap
from olr.trials.changing import Habits, Spreads, changed_points
from olr.trials.differing import Difference, differing, without_lines
from olr.trials.encoder import INTERVAL, Lines, points_of_legs, text_of
from olr.trials.graph import NONE, Graph
from olr.trials.likeness import LONGEST, SHORTEST, LikeMessages
from olr.trials.neighbourhood import Neighbourhoods
from olr.trials.paths import TOLERANCE, TURNING_BACK, WITHIN, Paths, Stretch
from olr.trials.rightness import is_right
from olr.trials.roads import Roads
from vector_files import write_tempe


@pytest.fixture(scope="module")
def tempe(tmp_path_factory: pytest.TempPathFactory) -> RoadMap:
    """The streets of Tempe."""
    return read_map(write_tempe(tmp_path_factory.mktemp("tempe") / "map"))


def two_way(id: int, start: int, end: int, length: int, road_class: int = 4) -> list[Line]:
    """The lines of a two-way road, with the ids `id` and `id + 1`."""
    return [
        Line(id, start, end, road_class, 3, length, ()),
        Line(id + 1, end, start, road_class, 3, length, ()),
    ]


def map_of(*roads: list[Line], bans: Sequence[Ban] = ()) -> RoadMap:
    """A map of roads. Its nodes are 500 m apart from west to east."""
    lines = [line for road in roads for line in road]
    ends = {node for line in lines for node in (line.start, line.end)}
    nodes = [Node(id, Position(id * 4_492, 0)) for id in sorted(ends)]
    return RoadMap(nodes, lines, bans)


def following(graph: Graph, id: int) -> set[int]:
    """The lines whose starts are reached from a line by one step: as far away as it is long."""
    (first,) = np.flatnonzero(graph.ids == id)
    distances = graph.reached(int(first), 1e9).distances
    return {int(other) for other in graph.ids[distances == graph.lengths[first]]}


def without_roads(road_map: RoadMap, percent: float, draws: random.Random) -> RoadMap:
    """A map that lacks so many percent of its roads."""
    return differing(road_map, Roads(road_map), Difference(missing=percent), draws)


def graph_of(road_map: RoadMap) -> Graph:
    """The graph of a map."""
    return Graph(road_map, Roads(road_map))


def test_a_search_ends_at_its_limit_and_at_the_end_of_what_is_connected() -> None:
    """Nodes 1 to 4 in a row, and 7 to 8 apart from them."""
    roads = [two_way(10 * node, node, node + 1, 1000) for node in (1, 2, 3, 7)]
    graph = graph_of(map_of(*roads))
    reached = dict(zip(graph.ids.tolist(), graph.reached(0, 1e9).distances.tolist()))
    assert reached == {
        **{10: 0.0, 20: 1000.0, 30: 2000.0, 31: 3000.0, 21: 4000.0, 11: 5000.0},
        **{70: math.inf, 71: math.inf},
    }
    near = graph.reached(0, 2000).distances
    assert set(graph.ids[np.isfinite(near)].tolist()) == {10, 20, 30}


def test_traffic_obeys_bans_and_turns_back_where_nothing_else_leads_on() -> None:
    """Roads 10, 20 and 30 meet at node 2, and road 20 ends at node 3."""
    roads = two_way(10, 1, 2, 1000), two_way(20, 2, 3, 1000), two_way(30, 2, 4, 1000)
    graph = graph_of(map_of(*roads))
    assert following(graph, 10) == {20, 30}
    assert following(graph, 20) == {21}
    banned = graph_of(map_of(*roads, bans=[Ban(10, 30)]))
    assert following(banned, 10) == {20}
    shut = graph_of(map_of(*roads, bans=[Ban(10, 30), Ban(10, 20)]))
    assert following(shut, 10) == {11}
    assert graph.turns_back([2, 3]) and not graph.turns_back([0, 2])


def test_the_graph_has_the_turns_of_the_exact_one(tempe: RoadMap) -> None:
    """On a map that lacks roads: what leads on from each line was found there in another way."""
    lacking = without_roads(tempe, 10, random.Random(1))
    graph, network = graph_of(lacking), LineGraph(lacking, turning_back=False)
    assert {id: following(graph, id) for id in network.by_id} == {
        id: set(others) for id, others in network.following.items()
    }


def test_a_shortest_path() -> None:
    """From node 1 to node 4 over node 2 and over node 3: either of them where both are as short."""

    def path(last: int) -> list[int]:
        roads = (
            [two_way(10, 0, 1, 500), two_way(20, 1, 2, 1000), two_way(30, 2, 4, 1000)],
            [two_way(40, 1, 3, 800), two_way(50, 3, 4, last), two_way(60, 4, 5, 500)],
        )
        graph = graph_of(map_of(*roads[0], *roads[1]))
        (index,) = np.flatnonzero(graph.ids == 60)
        found: list[int] = graph.ids[graph.path(graph.reached(0, 1e9), int(index))].tolist()
        return found

    one, other = [10, 40, 50, 60], [10, 20, 30, 60]
    assert (path(1199), path(1201)) == (one, other)
    assert path(1200) in (one, other)


def test_the_directions_of_a_road() -> None:
    """Road 10 is drawn twice, line 30 has no other direction, and lines 40 and 41 have other shapes."""
    bent = [Line(40, 2, 3, 4, 3, 9, (Position(1, 1),)), Line(41, 3, 2, 4, 3, 9, (Position(2, 2),))]
    single = [Line(30, 2, 3, 4, 3, 9, ())]
    road_map = map_of(two_way(10, 1, 2, 9), two_way(20, 1, 2, 9), single, bent)
    roads = Roads(road_map)
    assert roads.opposite == {10: 11, 11: 10, 20: 21, 21: 20}
    assert roads.directions == [(10, 11), (20, 21), (30,), (40,), (41,)]
    assert (Graph(road_map, roads).opposite == [1, 0, 3, 2, NONE, NONE, NONE]).all()


def length_of(path: Sequence[Stretch], network: LineGraph) -> float:
    """The length of a path, in decimetres."""
    return sum(network.by_id[it.line].length * (it.end - it.start) for it in path)


def test_drawn_paths_are_shortest_ones(tempe: RoadMap) -> None:
    """The encoder finds one as long, by a search of its own over the whole map. Some ends lie within lines, and hardly any path turns
    back."""
    network = LineGraph(tempe, turning_back=False)
    paths = Paths(tempe).drawn(graph_of(tempe), random.Random(3))
    sizes: Counter[int] = Counter()
    within = turns = 0
    for path, points in islice(paths, 300):
        lines = [it.line for it in path]
        turns += any(other == line ^ 1 for line, other in pairwise(lines))
        if len(lines) > 1:
            found = network.shortest(lines[0], lines[-1])
            assert found is not None
            whole = [sum(network.by_id[id].length for id in some) for some in (found[0], lines)]
            assert whole[0] == whole[1]
        assert all(it.start == 0 for it in path[1:]) and all(it.end == 1 for it in path[:-1])
        within += (path[0].start > 0) + (path[-1].end < 1)
        length = length_of([Stretch(id, 0, 1) for id in lines], network)
        assert SHORTEST * (1 - TOLERANCE) <= length <= LONGEST * (1 + TOLERANCE)
        length = length_of(path, network)
        intervals = [point.interval for point in points if point.interval is not None]
        assert sum(intervals) * INTERVAL <= length < (sum(intervals) + len(intervals)) * INTERVAL
        sizes[len(points)] += 1
    assert set(sizes) == {2, 3, 4, 5} and min(sizes.values()) > 30
    # Of 600 ends, within four standard deviations.
    assert abs(within - 600 * WITHIN) < 4 * math.sqrt(600 * WITHIN * (1 - WITHIN))
    assert turns < 300 * TURNING_BACK


def test_a_point_within_a_line(tempe: RoadMap) -> None:
    """A path from a quarter of a line to three quarters of it: the points lie there, and the leg is half as long."""
    straight = next(line for line in tempe.lines if not line.shape and line.length > 1000)
    network = LineGraph(tempe)
    points = points_of_legs(network, [[straight.id]], (0.25, 0.75))
    assert points is not None and points[0].interval == int(straight.length / 2) // INTERVAL
    ends = [network.positions[node] for node in (straight.start, straight.end)]
    for point, share in zip(points, (0.25, 0.75)):
        expected = [a + (b - a) * share for a, b in zip(*ends)]
        assert (point.lon, point.lat) == pytest.approx(expected, abs=1)


def test_no_path_is_drawn_twice(tempe: RoadMap) -> None:
    graph = graph_of(tempe)
    drawn = islice(Paths(tempe).drawn(graph, random.Random(1)), 1000)
    assert len({tuple(it.line for it in one.path) for one in drawn}) == 1000


@pytest.mark.parametrize(
    "road_map",
    [map_of(), map_of(*(two_way(10 * node, 3 * node, 3 * node + 1, 900) for node in range(1, 40)))],
    ids=["empty", "not connected"],
)
def test_a_map_without_paths(road_map: RoadMap) -> None:
    paths = Paths(road_map).drawn(graph_of(road_map), random.Random(1))
    with pytest.raises(ToolError, match="has no path of the wanted classes and lengths"):
        list(islice(paths, 50))


def test_a_map_with_few_paths() -> None:
    """Two roads of 500 m in a row have six: each road and both together, in both directions. It gives all of them, each time."""
    bans = [Ban(11, 10), Ban(20, 21)]
    road_map = map_of(two_way(10, 1, 2, 5000), two_way(20, 2, 3, 5000), bans=bans)
    paths, draws = Paths(road_map), random.Random(1)
    for _ in range(2):
        drawn = list(islice(paths.drawn(graph_of(road_map), draws), 50))
        lines = sorted(tuple(it.line for it in one.path) for one in drawn)
        assert lines == [(10,), (10, 20), (11,), (20,), (21,), (21, 11)]


def test_a_map_without_roads_of_the_classes_of_the_messages() -> None:
    """A larger map wouldn't help."""
    road_map, reference = map_of(two_way(10, 1, 2, 5000, 7)), read_reference(REFERENCE)
    assert reference is not None and reference.points[0].class_ != 7
    paths = Paths(road_map, LikeMessages([reference])).drawn(graph_of(road_map), random.Random(1))
    with pytest.raises(ToolError, match="has no path of the wanted classes and lengths"):
        next(paths)


def test_main_roads_are_drawn_as_often_as_it_is_said() -> None:
    """Roads of class 1 and of class 6, which are 20 and 5 of 25: many more are of class 6."""
    lines = [line for node in range(1, 20) for line in two_way(10 * node, node, node + 1, 4000, 1)]
    for node in range(1, 20):
        for branch in range(1, 6):
            end = 100 * node + branch
            lines += two_way(10 * end, node, end, 4000, 6)
    road_map = map_of(lines)
    # By their ids nodes would lie over many degrees.
    nodes = [node._replace(position=Position(node.id, 0)) for node in road_map.nodes]
    road_map = replace(road_map, nodes=nodes)
    drawn = islice(Paths(road_map).drawn(graph_of(road_map), random.Random(2)), 300)
    firsts = Counter(one.points[0].class_ for one in drawn)
    assert 0.7 < firsts[1] / 300 < 0.9


def test_paths_are_like_messages(tempe: RoadMap) -> None:
    """A message of 9 and 8 intervals of 58.6 m, which lie within them evenly: 1055 m. Another one begins on a class that isn't there."""
    texts = []
    for road_class in (5, 3):
        leg = ReferencePoint(road_class, 3, 33_000_000, -111_000_000, 0, 9, 5)
        texts.append(
            text_of([leg, replace(leg, interval=8), replace(leg, interval=None, lowest=None)])
        )
    references = [reference for text in texts if (reference := read_reference(text)) is not None]
    like = LikeMessages(references)
    network = LineGraph(tempe)
    drawn = Paths(tempe, like).drawn(graph_of(tempe), random.Random(1))
    paths = [[Stretch(it.line, 0, 1) for it in one.path] for one in islice(drawn, 100)]
    lengths = [length_of(path, network) for path in paths]
    assert all(0.9 * 10_548 <= length <= 1.1 * 10_548 for length in lengths)


POINTS = [
    ReferencePoint(0, 3, 33_000_000, -111_000_000, 0, 100, 2),
    ReferencePoint(7, 2, -50_000_000, 20_000_000, 31, 254, 2),
    ReferencePoint(3, 2, 0, 0, 16),
]


@pytest.mark.parametrize(("degrees", "fits"), [(0.25, True), (0.26, False)])
def test_points_that_are_too_far_from_each_other(degrees: float, fits: bool) -> None:
    """Near a pole a short leg leads over more degrees than a reference has room for: 0.32767, and some are left for points that move."""
    ends = [Node(number, Position(round(number * degrees * 1e6), 80_000_000)) for number in (1, 2)]
    network = Lines(RoadMap(ends, two_way(10, 1, 2, 50_000), ()))
    points = points_of_legs(network, [[10]])
    assert (points is not None) == fits
    if points is not None:
        most = Spreads(position=500)
        for seed in range(100):
            text_of(changed_points(points, most, random.Random(seed)))


def test_references_change_within_the_spreads() -> None:
    """The lowest class of a leg changes with the class of its point, where that is the lowest one; else it is no more important."""
    spreads = Spreads(position=30, bearing=2, legs=10, class_=50, form=50)
    draws = random.Random(4)
    seen: Counter[str] = Counter()
    points = [replace(POINTS[0], lowest=0), *POINTS[1:]]
    for _ in range(500):
        for before, point in zip(points, changed_points(points, spreads, draws), strict=True):
            north = (point.lat - before.lat) * MICRODEGREE
            east = (point.lon - before.lon) * MICRODEGREE * math.cos(math.radians(before.lat / 1e6))
            assert max(abs(north), abs(east)) <= 30.1
            seen["far"] += abs(north) > 15
            assert (point.sector - before.sector + 2) % 32 <= 4
            assert abs(point.class_ - before.class_) <= 1 and 0 <= point.class_ <= 7
            assert 0 <= point.form <= 7
            if before.lowest == before.class_:
                assert point.lowest == point.class_
            elif before.lowest is not None and point.class_ != before.class_:
                assert point.lowest == max(before.lowest, point.class_)
            else:
                assert point.lowest == before.lowest
            seen["class"] += point.class_ != before.class_
            seen["form"] += point.form != before.form
            if before.interval is None:
                assert (point.interval, point.lowest) == (None, None)
            else:
                assert point.interval is not None and point.interval <= 255
                assert 0.89 * before.interval <= point.interval <= 1.11 * before.interval
    # Of 1,500 points half, each within four standard deviations.
    assert all(abs(count - 750) < 80 for count in seen.values()) and len(seen) == 3


def test_all_references_of_a_sender_are_off_to_one_side() -> None:
    """Points lie 20 m to the north and 10 m to the west; bearings are three eighths of a sector greater, and legs one and a half intervals
    longer, in the mean."""
    habits, draws = Habits(20, -10, 0.375, 1.5), random.Random(4)
    none = Spreads().times(0)
    turned, longer = Counter[int](), Counter[int]()
    for _ in range(400):
        for before, point in zip(POINTS, changed_points(POINTS, none, draws, habits), strict=True):
            north = (point.lat - before.lat) * MICRODEGREE
            east = (point.lon - before.lon) * MICRODEGREE * math.cos(math.radians(before.lat / 1e6))
            assert north == pytest.approx(20, abs=0.1) and east == pytest.approx(-10, abs=0.1)
            turned[(point.sector - before.sector) % 32] += 1
            if before.interval == 100 and point.interval is not None:
                longer[point.interval - 100] += 1
    # Of 1,200 points, and of 400 legs, within four standard deviations.
    assert set(turned) == {0, 1} and abs(turned[1] - 450) < 68
    assert set(longer) == {1, 2} and abs(longer[1] - 200) < 40
    shorter = changed_points([replace(POINTS[0], interval=0)], none, draws, Habits(longer=-1))
    assert shorter[0].interval == 0


def test_without_spreads_nothing_changes(tempe: RoadMap) -> None:
    assert changed_points(POINTS, Spreads().times(0), random.Random(1)) == POINTS
    same = differing(tempe, Roads(tempe), Difference(), random.Random(1))
    assert same == replace(tempe, origins=(), kept=())


@pytest.mark.parametrize("percent", [1, 10, 50, 99, 100])
def test_a_map_without_roads_is_valid(
    percent: float, tempe: RoadMap, program: Program, tmp_path: Path
) -> None:
    roads = Roads(tempe)
    lacking = without_roads(tempe, percent, random.Random(percent))
    write_map(lacking, tmp_path / "map", {})
    assert program.fault(tmp_path / "map") == ""
    left = {line.id for line in lacking.lines}
    assert all(left.issuperset(road) or left.isdisjoint(road) for road in roads.directions)
    missing = 100 * (1 - len(left) / len(tempe.lines))
    # Roads are drawn one by one: four standard deviations of a share of 293 of them.
    assert abs(missing - percent) <= 4 * 100 * math.sqrt(percent / 100 * (1 - percent / 100) / 293)
    assert set(lacking.bans) <= set(tempe.bans)
    assert {node.id for node in lacking.nodes} == {line.start for line in lacking.lines}
    # Each line goes on to another one: what is a dead end now may be left again.
    network = LineGraph(lacking)
    assert all(network.following.values())


def test_a_dead_end_that_a_missing_road_leaves_may_be_left() -> None:
    """Roads 10, 20 and 30 in a row, with turning back banned at nodes 2 and 3; and one road or another is missing."""
    bans = [Ban(10, 11), Ban(21, 20), Ban(20, 21), Ban(31, 30)]
    road_map = map_of(*(two_way(10 * node, node, node + 1, 9) for node in (1, 2, 3)), bans=bans)
    found = set()
    for seed in range(40):
        lacking = without_roads(road_map, 40, random.Random(seed))
        found.add((tuple(line.id for line in lacking.lines), tuple(lacking.bans)))
    assert found == {
        ((10, 11, 20, 21, 30, 31), tuple(bans)),
        ((10, 11, 20, 21), ((10, 11), (21, 20))),
        ((20, 21, 30, 31), ((20, 21), (31, 30))),
        *((lines, ()) for lines in [(), (10, 11), (20, 21), (30, 31), (10, 11, 30, 31)]),
    }


def test_dead_ends_that_are_shut_stay_so() -> None:
    """Roads 10, 20 and 30 in a row. Where turning back is banned at both ends of the row too, it stays banned where a road is missing."""
    rows = [two_way(10 * node, node, node + 1, 9) for node in (1, 2, 3)]
    usual = [Ban(10, 11), Ban(21, 20), Ban(20, 21), Ban(31, 30)]
    one_end, both_ends = [*usual, Ban(11, 10)], [*usual, Ban(11, 10), Ban(30, 31)]
    for bans, shut in ((usual, False), (one_end, False), (both_ends, True)):
        road_map = map_of(*rows, bans=bans)
        for seed in range(20):
            lacking = without_roads(road_map, 40, random.Random(seed))
            lines = {line.id for line in lacking.lines}
            if shut:
                assert list(lacking.bans) == [ban for ban in bans if lines.issuperset(ban)]
            elif lines:
                assert all(LineGraph(lacking).following[id] for id in lines - {11})


def test_another_maker_changes_both_directions_of_a_road_alike(
    tempe: RoadMap, program: Program, tmp_path: Path
) -> None:
    """Classes, forms and lengths are those that are said, positions too, and the program reads the map."""
    roads = Roads(tempe)
    difference = Difference(classes=30, lengths=10, positions=5, forms=40)
    changed = differing(tempe, roads, difference, random.Random(1))
    write_map(changed, tmp_path / "map", {})
    assert program.fault(tmp_path / "map") == ""
    lines = {line.id: line for line in changed.lines}
    for road in roads.directions:
        alike = {(lines[id].road_class, lines[id].form, lines[id].length) for id in road}
        assert len(alike) == 1
    classes = Counter(line.road_class for line in changed.lines)
    assert set(classes) == {4, 5, 6} and 0.6 < classes[5] / len(lines) < 0.8
    assert 0.3 < sum(line.form != 3 for line in changed.lines) / len(lines) < 0.5
    factors = [lines[line.id].length / line.length for line in tempe.lines]
    assert 0.89 < min(factors) < 0.92 and 1.08 < max(factors) < 1.11
    moved = {node.id: node.position for node in changed.nodes}
    for node in tempe.nodes:
        north = (moved[node.id].lat - node.position.lat) * MICRODEGREE
        assert abs(north) <= 5.1
    as_before = [
        line._replace(road_class=5, form=3, length=before.length)
        for line, before in zip(changed.lines, tempe.lines)
    ]
    assert as_before == list(tempe.lines)


def test_one_way_roads_of_another_maker(tempe: RoadMap) -> None:
    changed = differing(tempe, Roads(tempe), Difference(one_way=20), random.Random(1))
    shut = len(tempe.lines) - len(changed.lines)
    # Of 293 roads, within four standard deviations.
    assert abs(shut - 0.2 * 293) < 4 * math.sqrt(0.2 * 0.8 * 293)
    pairs = Counter(
        id // 2 for id in {line.id for line in tempe.lines if line not in changed.lines}
    )
    assert max(pairs.values()) == 1


@pytest.mark.filterwarnings("error")
def test_a_map_without_lines_is_its_only_part() -> None:
    empty = RoadMap((), ())
    assert Neighbourhoods(empty, Roads(empty), 1).drawn(random.Random(1)) is empty


def test_a_part_of_a_large_map(tempe: RoadMap) -> None:
    """The lines that lie nearest to a node: no line that is left out lies nearer than one that is there."""
    roads, draws = Roads(tempe), random.Random(2)
    assert Neighbourhoods(tempe, roads, 1000).drawn(draws) is tempe
    part = Neighbourhoods(tempe, roads, 100).drawn(draws)
    assert len(part.lines) == 100 and set(part.lines) < set(tempe.lines)
    assert {node.id for node in part.nodes} == {
        node for line in part.lines for node in (line.start, line.end)
    }
    assert without_lines(tempe, roads, set()).lines == tempe.lines


LENGTHS = {1: 1000, 2: 1000}


@pytest.mark.parametrize(
    ("outer", "right"),
    [
        ([(1, 0, 1000), (2, 0, 1000)], True),
        ([(1, 200, 1000), (2, 0, 1000)], True),
        ([(1, 201, 1000), (2, 0, 1000)], False),
        # 2,000 of 2,222 dm are 90.01 percent, and of 2,223 dm 89.97.
        ([(7, 0, 222), (1, 0, 1000), (2, 0, 1000)], True),
        ([(7, 0, 223), (1, 0, 1000), (2, 0, 1000)], False),
        # All of the path, and as much again.
        ([(1, 0, 1000), (2, 0, 1000), (3, 0, 2000)], False),
        ([(1, 0, 1000), (2, 0, 1000), (1, 0, 1000)], False),
        ([(5, 0, 2000)], False),
        ([], False),
    ],
)
def test_what_is_right(outer: list[tuple[int, int, int]], right: bool) -> None:
    path = [Stretch(1, 0, 1), Stretch(2, 0, 1)]
    assert is_right(LENGTHS, path, [Piece(*one) for one in outer]) is right


@pytest.mark.parametrize(
    ("outer", "right"),
    [
        ([(1, 500, 1000), (2, 0, 250)], True),
        ([(1, 440, 1000), (2, 0, 250)], True),
        ([(1, 400, 1000), (2, 0, 250)], False),
        ([(1, 580, 1000), (2, 0, 250)], False),
        # Line 2 twice: it is covered once, and driven twice.
        ([(1, 500, 1000), (2, 0, 250), (2, 0, 250)], False),
    ],
)
def test_a_true_path_that_ends_within_lines(outer: list[tuple[int, int, int]], right: bool) -> None:
    """The second half of line 1, and the first quarter of line 2: 750 dm."""
    path = [Stretch(1, 0.5, 1), Stretch(2, 0, 0.25)]
    assert is_right(LENGTHS, path, [Piece(*one) for one in outer]) is right
