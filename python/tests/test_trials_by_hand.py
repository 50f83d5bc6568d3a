"""Trials by hand: what another sender's map and references have, and the lines around a reference."""

import pytest
import random
from collections.abc import Sequence

from olr.model.answers import ReferencePoint
from olr.model.road_map import Ban, Line, Node, Position, RoadMap
from olr.trials.changing import Spreads, changed_points
from olr.trials.differing import Difference, differing, without_lines
from olr.trials.encoder import Lines as Known
from olr.trials.encoder import points_of_legs
from olr.trials.roads import Roads

EXACT = Spreads(0, 0, 0, 0, 0)


def line(id: int, start: int, end: int, shape: Sequence[tuple[int, int]] = ()) -> Line:
    """A line."""
    return Line(id, start, end, 3, 3, 100, tuple(Position(*it) for it in shape))


def map_of(lines: Sequence[Line], bans: Sequence[Ban] = (), apart: int = 1000) -> RoadMap:
    """A map of lines whose nodes lie on the equator, apart by so many microdegrees."""
    ids = sorted({node for line in lines for node in (line.start, line.end)})
    return RoadMap([Node(id, Position(apart * id, 0)) for id in ids], lines, bans)


@pytest.mark.parametrize("lowest, is_own", [(3, True), (5, False), (4, False)])
def test_the_lowest_class_of_a_leg_whose_class_is_off(lowest: int, is_own: bool) -> None:
    """It is that class if it was before, and else not more important than it."""
    point = ReferencePoint(3, 3, 0, 0, 0, interval=3, lowest=lowest)
    found = set()
    for seed in range(30):
        (changed,) = changed_points([point], EXACT._replace(class_=100), random.Random(seed))
        found.add((changed.class_, changed.lowest))
    assert found == ({(2, 2), (4, 4)} if is_own else {(2, lowest), (4, lowest)})


def test_a_road_of_one_way_that_is_missing() -> None:
    """Where it led on from a road turning back isn't banned any more; elsewhere it is."""
    roads = [line(7, 1, 2), line(8, 2, 1), line(9, 2, 3), line(10, 3, 4), line(11, 4, 3)]
    bans = [Ban(7, 8), Ban(10, 11)]
    whole = map_of([*roads, line(12, 4, 1)], bans)
    found = without_lines(whole, Roads(whole), {9})
    assert found.bans == [Ban(10, 11)]
    assert without_lines(whole, Roads(whole), {12}).bans == [Ban(7, 8)]


def test_nodes_that_move() -> None:
    """Up to a microdegree each way here, and never onto the next point of a line."""
    there = map_of([line(7, 1, 2, [(1001, 0), (1500, 0)]), line(8, 2, 3)], apart=1000)
    places = set()
    for seed in range(60):
        made = differing(there, Roads(there), Difference(positions=0.15), random.Random(seed))
        places.add(made.nodes[0].position)
    assert Position(1001, 0) not in places
    assert {Position(999, 0), Position(1001, 1), Position(1000, 0)} <= places


def test_the_other_direction_of_a_road() -> None:
    """It has the ends exchanged and the same shape, which is reversed then."""
    shape = [(5, 5), (8, 2)]
    two_way = map_of([line(7, 1, 2, shape), line(8, 2, 1, shape[::-1]), line(9, 2, 1, shape)])
    assert Roads(two_way).opposite == {7: 8, 8: 7}
    assert Roads(two_way).directions == [(7, 8), (9,)]
    double = map_of([line(7, 1, 2), line(8, 1, 2), line(9, 2, 1), line(10, 2, 1), line(11, 2, 1)])
    assert Roads(double).opposite == {7: 9, 9: 7, 8: 10, 10: 8}


@pytest.mark.parametrize("legs, points", [(31, 32), (32, None)])
def test_points_of_a_path(legs: int, points: int | None) -> None:
    """A reference has 32 at most."""
    ids = list(range(1, legs + 1))
    known = Known(map_of([line(id, id, id + 1) for id in ids]))
    found = points_of_legs(known, [*([id, id + 1] for id in ids[:-1]), ids[-1:]])
    assert (None if found is None else len(found)) == points
